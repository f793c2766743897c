"""What the program masks prints for known widths and masks.
Assumes one pair of width and mask for each record, in their order."""


def tally(records):
    """The sum of all widths, and the count of ones over all masks."""
    return (sum(width for width, _ in records),
            sum(bin(mask).count("1") for _, mask in records))


def lines_of(records):
    bits, ones = tally(records)
    lines = [f"{number} {width} {mask:016x}"
             for number, (width, mask) in enumerate(records)]
    return "\n".join([f"{len(records)} {bits} {ones}", *lines, ""])
