"""Writes the sample netlists of this folder: make.py [FOLDER].
Assumes Python, and beside each file the text that masks prints for it."""

import pathlib
import struct
import sys

(INPUT, CONSTANT, REGISTER, OUTPUT, EXTRACT, CONCAT, AND, OR, XOR, MUX, ADD,
 SUB, MUL, EQUAL, BELOW, LEFT_SHIFT, RIGHT_SHIFT, ARITHMETIC_SHIFT,
 SIGNED_BELOW) = range(19)
HERE = pathlib.Path(__file__).parent

# How many records each kind reads, where they are not two.
OPERANDS = {INPUT: 0, CONSTANT: 0, MUX: 3, **dict.fromkeys(
    (REGISTER, OUTPUT, EXTRACT, LEFT_SHIFT, RIGHT_SHIFT, ARITHMETIC_SHIFT), 1)}


class Design:
    """A list of records. Every method adds one and gives its number, by
    which later records read its signal."""

    def __init__(self):
        self.records = []

    def record(self, kind, width, a=0, b=0, c=0, k=0, keep=None):
        full = (1 << width) - 1
        self.records.append([kind, width, a, b, c, k,
                             full if keep is None else keep])
        return len(self.records) - 1

    def width(self, signal):
        return self.records[signal][1]

    def operands(self, signal):
        """The numbers of the records that it reads."""
        kind, _, *named, _, _ = self.records[signal]
        return named[:OPERANDS.get(kind, 2)]

    def input(self, width):
        return self.record(INPUT, width)

    def constant(self, width, value):
        return self.record(CONSTANT, width, k=value)

    def register(self, width, reset=0):
        """What it loads may come later: see load. Until then, itself."""
        return self.record(REGISTER, width, a=len(self.records), k=reset)

    def load(self, register, signal):
        self.records[register][2] = signal

    def output(self, a, keep=None):
        return self.record(OUTPUT, self.width(a), a, keep=keep)

    def extract(self, a, low, width):
        return self.record(EXTRACT, width, a, k=low)

    def concat(self, high, low):
        return self.record(CONCAT, self.width(high) + self.width(low), high,
                           low)

    def mux(self, selector, if_one, if_zero):
        return self.record(MUX, self.width(if_one), selector, if_one, if_zero)

    def gate(self, kind, a, b, keep=None):
        """and, or, xor, add, sub or mul."""
        return self.record(kind, self.width(a), a, b, keep=keep)

    def equal(self, a, b):
        return self.record(EQUAL, 1, a, b)

    def below(self, a, b):
        return self.record(BELOW, 1, a, b)

    def signed_below(self, a, b):
        return self.record(SIGNED_BELOW, 1, a, b)

    def shift(self, kind, a, places):
        """Left, right or arithmetic right shift; the width stays."""
        return self.record(kind, self.width(a), a, k=places)

    def file(self):
        header = struct.pack("<3sHBH", b"PCN", 1, 0, len(self.records))
        return header + b"".join(struct.pack("<BBHHHQQ", *record)
                                 for record in self.records)


def ramp(low, width):
    """a * b + c, of which only some bits go out."""
    d = Design()
    a = d.input(32)
    b = d.input(32)
    c = d.input(32)
    total = d.gate(ADD, d.gate(MUL, a, b), c)
    d.output(d.extract(total, low, width))
    return d


def counter():
    """Counts, and nobody looks."""
    d = Design()
    count = d.register(8)
    one = d.constant(8, 1)
    d.load(count, d.gate(ADD, count, one))
    return d


def shift_chain():
    """Four bits; one goes in at the top, the lowest goes out."""
    d = Design()
    new = d.input(1)
    state = d.register(4)
    rest = d.extract(state, 1, 3)
    d.load(state, d.concat(new, rest))
    d.output(d.extract(state, 0, 1))
    return d


def unread_mux():
    """Nobody reads the mux, so its selector is not cared for either."""
    d = Design()
    selector = d.input(1)
    one = d.input(8)
    two = d.input(8)
    d.mux(selector, one, two)
    return d


def register_ring():
    """Four registers of 12 bits in a ring that moves its word down by 3
    places in each turn. Each reads the next one, so the demand goes against
    the order of the records; only every third bit is ever asked for."""
    d = Design()
    ring = [d.register(12, reset=1) for _ in range(4)]
    for this, following in zip(ring, ring[1:]):
        d.load(this, following)
    low = d.extract(ring[0], 0, 3)
    high = d.extract(ring[0], 3, 9)
    d.load(ring[3], d.concat(low, high))
    d.output(d.extract(ring[1], 0, 1))
    return d


def signed_angle():
    """A blade encoder gives a signed angle in sixteenths of a degree, in the
    upper 12 of its 16 bits; below stands its own status, which nobody reads.
    The display gets whole degrees, rounded towards 0. Eight of 16 switches
    set a limit in whole degrees, signed as well, and an alarm comes on when
    the angle is below it."""
    d = Design()
    encoder = d.input(16)
    switches = d.input(16)
    angle = d.shift(ARITHMETIC_SHIFT, encoder, 4)

    # A shift alone rounds down, so 15 sixteenths are added to an angle below
    # 0: its sign in all bits, of which the upper four come down.
    sign = d.shift(ARITHMETIC_SHIFT, angle, 15)
    correction = d.shift(RIGHT_SHIFT, sign, 12)
    corrected = d.gate(ADD, angle, correction)
    degrees = d.shift(ARITHMETIC_SHIFT, corrected, 4)
    d.output(degrees)

    # Up and down again: the upper switches drop out, and copies of the
    # limit's sign come in their place.
    upper = d.shift(LEFT_SHIFT, switches, 8)
    limit = d.shift(ARITHMETIC_SHIFT, upper, 8)
    d.output(d.signed_below(degrees, limit))
    return d


def status_word():
    """A pitch drive reports a status word of 16 bits. One fixed pattern cuts
    it to the two faults of which an alarm tells. Another cuts it to what the
    display shows, and a third sets two bits that the display wants to be 1.
    Bits of the word that no pattern lets through are not cared for."""
    d = Design()
    word = d.input(16)
    faults = d.gate(AND, word, d.constant(16, 0x8100))
    d.output(d.below(d.constant(16, 0), faults))
    shown = d.gate(AND, word, d.constant(16, 0x00f6))
    d.output(d.gate(OR, shown, d.constant(16, 0x0006)))
    return d


def service_card():
    """A pump's card as all sites get it. The highest pressure so far was read
    in commissioning, and is by nobody now. Starts of the pump are counted,
    and a pattern says which bits of the count are shown: here it is 0, so no
    bit is cared for, but the count is still named."""
    d = Design()
    pressure = d.input(12)
    pump = d.input(1)
    highest = d.register(12)
    d.load(highest, d.mux(d.below(highest, pressure), pressure, highest))
    last = d.register(1)
    d.load(last, pump)
    starts = d.register(8)
    following = d.gate(ADD, starts, d.constant(8, 1))
    d.load(starts, d.mux(d.below(last, pump), following, starts))
    shown = d.gate(AND, starts, d.constant(8, 0))
    alarm = d.below(d.constant(12, 3200), pressure)
    d.output(d.concat(shown, d.gate(AND, alarm, pump)))
    return d


def extended(d, signal, width):
    """The signal, two's complement, in more bits."""
    more = width - d.width(signal)
    sign = d.extract(signal, d.width(signal) - 1, 1)
    ones = d.constant(more, (1 << more) - 1)
    zeros = d.constant(more, 0)
    return d.concat(d.mux(sign, ones, zeros), signal)


def magnitude(d, signal):
    """The amount of a signal in two's complement, without its sign."""
    sign = d.extract(signal, d.width(signal) - 1, 1)
    zero = d.constant(d.width(signal), 0)
    return d.mux(sign, d.gate(SUB, zero, signal), signal)


def smoothed(d, angle):
    """A low pass: an eighth of the difference is added in each cycle. The
    state has 8 bits more than the angle."""
    state = d.register(24)
    wide = d.concat(angle, d.constant(8, 0))
    difference = d.gate(SUB, wide, state)
    eighth = extended(d, d.extract(difference, 3, 21), 24)
    d.load(state, d.gate(ADD, state, eighth))
    return d.extract(state, 8, 16)


def blade(d, shared):
    """One blade: its encoder in, its drive out. Gives its two alarms."""
    encoder = d.input(24)
    angle = smoothed(d, d.extract(encoder, 8, 16))
    faults = d.extract(encoder, 0, 8)

    error = d.gate(SUB, shared["setpoint"], angle)
    wide_error = extended(d, error, 32)
    product = d.gate(MUL, wide_error, shared["gain"])
    proportional = d.extract(product, 8, 16)

    # The integrator stands still while the drive is at its limit.
    integral = d.register(32)
    total = d.gate(ADD, integral, wide_error)
    command = d.gate(ADD, proportional, d.extract(integral, 12, 16))
    too_fast = d.below(shared["limit"], magnitude(d, command))
    d.load(integral, d.mux(too_fast, integral, total))

    # At the limit the drive gets the limit, with the command's sign.
    least = d.gate(SUB, d.constant(16, 0), shared["limit"])
    backwards = d.extract(command, 15, 1)
    edge = d.mux(backwards, least, shared["limit"])
    limited = d.mux(too_fast, edge, command)
    speed = d.mux(shared["feather"], shared["feather speed"], limited)

    # The drive takes 12 bits.
    d.output(d.extract(speed, 4, 12))

    # Of the encoder's eight fault bits, two are of interest here.
    wanted = d.gate(AND, faults, d.constant(8, 0x81), keep=0x81)
    fault = d.below(d.constant(8, 0), wanted)
    return too_fast, fault


def watchdog(d, heartbeat):
    """Counts the cycles since the heartbeat last changed; 1 from 3,000 on."""
    last = d.register(1)
    d.load(last, heartbeat)
    changed = d.gate(XOR, heartbeat, last)
    count = d.register(12)
    late = d.below(d.constant(12, 2999), count)
    following = d.gate(ADD, count, d.constant(12, 1))
    held = d.mux(late, count, following)
    d.load(count, d.mux(changed, d.constant(12, 0), held))
    return late


def hours(d):
    """A cycle counter; the display shows bits 20 to 27 of it."""
    count = d.register(32)
    d.load(count, d.gate(ADD, count, d.constant(32, 1)))
    return d.extract(count, 20, 8)


def warm(d, temperature):
    """Compares the upper half of the reading alone."""
    return d.below(d.constant(6, 41), d.extract(temperature, 6, 6))


def held_alarm(d, alarm, clear):
    """Stays 1 until it is cleared."""
    state = d.register(1)
    raised = d.gate(OR, state, alarm)
    d.load(state, d.mux(clear, d.constant(1, 0), raised))
    return state


def spare_parts(d, mode, setpoint):
    """Left over from commissioning: a probe that nobody reads, and a counter
    of mode changes that was never wired up."""
    probe = d.equal(mode, d.constant(3, 7))
    d.mux(probe, setpoint, d.constant(16, 0))
    last = d.register(3)
    d.load(last, mode)
    changed = d.equal(last, mode)
    count = d.register(16)
    following = d.gate(ADD, count, d.constant(16, 1))
    d.load(count, d.mux(changed, count, following))


def status(d, bits, shown_hours):
    """A word of 16 bits. The display does not know the two lowest yet, so
    they are not kept."""
    word = shown_hours
    for bit in bits:
        word = d.concat(word, bit)
    d.output(word, keep=0xfffc)


def pitch_card():
    """Three blades, a watchdog, a temperature, and a status word."""
    d = Design()
    setpoint = d.input(16)
    mode = d.input(3)
    heartbeat = d.input(1)
    temperature = d.input(12)

    late = watchdog(d, heartbeat)
    hot = warm(d, temperature)
    clear = d.equal(mode, d.constant(3, 5))
    stop = d.equal(mode, d.constant(3, 1))
    alarm = held_alarm(d, d.gate(OR, late, hot), clear)

    shared = {
        "setpoint": setpoint,
        "gain": d.constant(32, 0x0180),
        "limit": d.constant(16, 0x2400),
        "feather": d.gate(OR, alarm, stop),
        "feather speed": d.constant(16, 0x1f00),
    }
    alarms = [blade(d, shared) for _ in range(3)]
    bits = [fast for fast, _ in alarms] + [fault for _, fault in alarms]
    status(d, bits + [late, hot], hours(d))
    spare_parts(d, mode, setpoint)
    return d


def masks_of(name):
    _, *lines = (HERE / f"{name}.txt").read_text().splitlines()
    return [int(line.split()[2], 16) for line in lines]


def compacted(before, masks):
    """The design without the records that no output needs. Whoever has a mask
    that is not 0 is named by another such record, or is an output."""
    ends = {number for number, record in enumerate(before.records)
            if record[0] in (INPUT, OUTPUT)}
    alive = ends | {number for number, mask in enumerate(masks) if mask}
    survivors = sorted(ends.union(*map(before.operands, alive)))
    new = {old: number for number, old in enumerate(survivors)}
    after = Design()
    for old in survivors:
        kind, width, *_, k, keep = before.records[old]
        if old in alive:
            named = [new[operand] for operand in before.operands(old)]
            after.record(kind, width, *named, k=k, keep=keep & masks[old])
        else:
            after.record(CONSTANT, width, keep=0)
    return after


DESIGNS = {
    "ramp": ramp(0, 16),
    "ramp-high": ramp(8, 8),
    "counter": counter(),
    "shift-chain": shift_chain(),
    "unread-mux": unread_mux(),
    "register-ring": register_ring(),
    "signed-angle": signed_angle(),
    "status-word": status_word(),
    "service-card": service_card(),
    "pitch-card": pitch_card(),
}

# The cards come compacted as well.
DESIGNS.update({f"{name}-compact": compacted(DESIGNS[name], masks_of(name))
                for name in ("service-card", "pitch-card")})


def main():
    folder = pathlib.Path(sys.argv[1]) if len(sys.argv) > 1 else HERE
    for name, design in DESIGNS.items():
        (folder / f"{name}.pcn").write_bytes(design.file())


if __name__ == "__main__":
    main()
