"""Draws what the program masks prints: masks < FILE | picture.py > FILE.svg.
Assumes nothing of its input: what masks never prints ends with a message."""

import itertools
import os
import sys

from masks_text import MOST_BYTES, Damaged, Refused, read_text, tally

# Sizes in units of the drawing; a unit is a pixel unless a viewer scales it.
FONT = 11
BOX_WIDTH, BOX_HEIGHT = 8, 11
FRAME = 1                       # the line around an empty box
STEP = 9                        # from one bit to the next
BYTE_GAP = 3                    # extra room between bits 7 and 8, and so on
ROW = 14
BLOCK_ROWS = 50
LEFT, RIGHT, ABOVE = 94, 64, 26     # around the boxes of a block
BETWEEN = 44                    # from one block to the next
MARGIN = 20
HEAD = 62                       # the height of title and legend
LEAST_WIDTH = 560               # room for title and legend
SCREEN = 1400                   # a width that can be seen at once

# A box is a dash of a thick line, so that a run of boxes takes one line only.
STYLE = f"""
text {{ font-family: sans-serif; font-size: {FONT}px; fill: #1a1a1a }}
.name {{ font-size: 16px; font-weight: bold }}
.number {{ text-anchor: end }}
.bit {{ text-anchor: middle }}
.page {{ fill: #ffffff }}
.band {{ fill: #eef1f5 }}
.box {{ fill: none; stroke: #16324f; stroke-width: {BOX_HEIGHT};
  stroke-dasharray: {BOX_WIDTH} {STEP - BOX_WIDTH} }}
.hole {{ fill: none; stroke: #ffffff; stroke-width: {BOX_HEIGHT - 2 * FRAME};
  stroke-dasharray: {BOX_WIDTH - 2 * FRAME} {STEP - BOX_WIDTH + 2 * FRAME} }}
"""


def words(x, y, text, kind=""):
    kind = f' class="{kind}"' if kind else ""
    return f'<text x="{x}" y="{y}"{kind}>{text}</text>'


def left_end(bit):
    """Where a bit's box begins. Bit 0 ends at 0 in every row, so that equal
    bits stand below each other."""
    return -((bit + 1) * STEP + bit // 8 * BYTE_GAP)


def dashes(kind, width, mask, inset):
    """A path with one dash for each bit below the width that the mask lacks.
    A run of such bits is one line, which ends with its last dash."""
    lines = ""
    for (_, one), run in itertools.groupby(
            reversed(range(width)), lambda bit: (bit // 8, mask >> bit & 1)):
        bits = list(run)
        if not one:
            length = (len(bits) - 1) * STEP + BOX_WIDTH - 2 * inset
            lines += f"M{left_end(bits[0]) + inset} 0h{length}"
    return f'<path class="{kind}" d="{lines}"/>' if lines else ""


def boxes(width, mask):
    """A filled box for each bit, emptied again where the mask has 0."""
    return dashes("box", width, 0, 0) + dashes("hole", width, mask, FRAME)


class Plan:
    """Where the blocks stand, so many of them side by side. In a picture
    wider than a screen, title and legend grow, so that they can be read where
    a viewer shows all of it."""

    def __init__(self, count, widest, across):
        down = -(-count // (across * BLOCK_ROWS))
        last = min(BLOCK_ROWS, count - (down - 1) * across * BLOCK_ROWS)
        self.widest = widest
        self.across = across
        self.edge = left_end(widest - 1)
        self.block = LEFT - self.edge + RIGHT
        self.width = max(LEAST_WIDTH, 2 * MARGIN - BETWEEN
                         + across * (self.block + BETWEEN))
        self.zoom = max(1, round(self.width / SCREEN))
        self.above = ABOVE + (FONT * self.zoom if self.zoom > 1 else 0)
        self.height = self.origin((down - 1) * across)[1] + last * ROW + MARGIN

    def origin(self, number):
        """The place of a block's origin: the upper right end of its bits."""
        down, right = divmod(number, self.across)
        tall = self.above + BLOCK_ROWS * ROW + BETWEEN
        return (MARGIN + right * (self.block + BETWEEN) + LEFT - self.edge,
                MARGIN + HEAD * self.zoom + down * tall + self.above)


def best_plan(records):
    """The plan that fits into the smallest frame of 4 by 3."""
    widest = max(record.width for record in records)
    plans = [Plan(len(records), widest, across)
             for across in range(1, -(-len(records) // BLOCK_ROWS) + 1)]
    return min(plans, key=lambda plan: max(3 * plan.width, 4 * plan.height))


def row(record, edge, y):
    """One record; its middle is at y, and the widest rows begin at edge."""
    number, width, mask = record
    return (f'<g id="record-{number}" transform="translate(0 {y})">'
            f"<title>record {number}, width {width}, mask {mask:016x}</title>"
            + words(edge - 54, 4, number, "number")
            + words(edge - 12, 4, width, "number")
            + boxes(width, mask)
            + words(10, 4, f"{record.cared()} of {width}") + "</g>")


def headings(plan):
    """Names of the columns, and numbers over every eighth bit and both ends.
    The left end's number moves up where bit 16, 24 and so on is next to it."""
    parts = [words(plan.edge - 54, -6, "record", "number"),
             words(plan.edge - 12, -6, "width", "number"),
             words(10, -6, "cared for")]
    for bit in sorted({*range(0, plan.widest, 8), plan.widest - 1}):
        y = -17 if bit > 9 and bit % 8 == 1 else -6
        parts.append(words(left_end(bit) + BOX_WIDTH // 2, y, bit, "bit"))
    return "".join(parts)


def block(plan, number, records):
    """Some records below each other. Every second row has a grey band, which
    leads the eye from the numbers to the boxes."""
    x, y = plan.origin(number)
    left = plan.edge - LEFT
    bands = "".join(f"M{left} {i * ROW}h{plan.block}v{ROW}h-{plan.block}z"
                    for i in range(1, len(records), 2))
    lines = [f'<g class="block" transform="translate({x} {y})">',
             headings(plan), f'<path class="band" d="{bands}"/>']
    if plan.zoom > 1:
        place = f"translate({left} {-ABOVE}) scale({plan.zoom})"
        name = f"{records[0].number} to {records[-1].number}"
        lines.append(f'<g transform="{place}">{words(0, 0, name)}</g>')
    lines += [row(record, plan.edge, i * ROW + ROW // 2)
              for i, record in enumerate(records)]
    return lines + ["</g>"]


def head(title, zoom, legend):
    """The title and, where there are boxes, what they mean."""
    lines = [f'<g transform="translate({MARGIN} {MARGIN}) scale({zoom})">',
             words(0, 14, title, "name")]
    if legend:
        lines.append('<g id="legend">')
        for x, y, sample, text in (
                (10, 30, boxes(1, 1), "cared for"),
                (10, 45, boxes(1, 0), "not cared for: no output changes with it"),
                (270, 30, "", "no box: beyond the signal's width"),
                (270, 45, "", "on top: the number of the bit")):
            lines.append(f'<g transform="translate({x} {y})">{sample}'
                         f"{words(6, 4, text)}</g>")
        lines.append("</g>")
    return lines + ["</g>"]


def sheet(width, height, title, lines):
    return "\n".join([
        '<svg xmlns="http://www.w3.org/2000/svg" role="img"'
        ' aria-labelledby="title" aria-describedby="desc"'
        f' width="{width}" height="{height}" viewBox="0 0 {width} {height}">',
        f'<title id="title">{title}</title>',
        '<desc id="desc">One row for each record, one box for each bit, bit 0'
        " on the right. Boxes of bits that are cared for are filled, the"
        " others are empty.</desc>",
        f"<style>{STYLE}</style>",
        f'<rect class="page" width="{width}" height="{height}"/>',
        *lines, "</svg>", ""])


def picture(records):
    if not records:
        title = "There is no record, so there is no bit to show"
        return sheet(LEAST_WIDTH, 60, title, head(title, 1, False))
    bits, ones = tally(records)
    plural = "s" if len(records) > 1 else ""
    title = (f"{len(records):,} record{plural}: {ones:,} of {bits:,} bits"
             " are cared for")
    plan = best_plan(records)
    lines = head(title, plan.zoom, True)
    for number, first in enumerate(range(0, len(records), BLOCK_ROWS)):
        lines += block(plan, number, records[first:first + BLOCK_ROWS])
    return sheet(plan.width, plan.height, title, lines)


def read_all():
    data = b""
    while len(data) <= MOST_BYTES:
        piece = os.read(0, MOST_BYTES)
        if not piece:
            return data
        data += piece
    raise Damaged(f"it has more than {MOST_BYTES:,} bytes")


def write_all(handle, data):
    """Without Python's buffers, which complain once more when a pipe broke."""
    while data:
        data = data[os.write(handle, data):]


def say(text):
    try:
        write_all(2, f"picture: {text}\n".encode())
    except OSError:
        pass


def main():
    if len(sys.argv) > 1:
        say("usage: masks < FILE | picture.py > FILE.svg")
        return 2
    try:
        write_all(1, picture(read_text(read_all())).encode())
        return 0
    except Refused as refusal:
        say(f"masks refused its file: {refusal} (see docs/FORMAT.md)")
        return 1
    except Damaged as damage:
        say(f"this is not what masks prints: {damage}")
        return 2
    except OSError as error:
        say(f"cannot read the text or write the picture: {error.strerror}")
        return 2
    except KeyboardInterrupt:
        return 130


if __name__ == "__main__":
    sys.exit(main())
