"""What the rows of a picture of masks must show: boxes, labels, their places.
Assumes a drawing that has been read, and the records that it should show."""

import itertools

from drawing import SPACE, around, is_row

# Each check gives pairs: whether something is right, and what to say if not.


def check_columns(above, columns, step):
    """The columns of the bits stand apart, and below the bits' numbers."""
    last = len(columns) - 1
    yield set(above) == {*range(0, last, 8), last}, f"bit numbers {set(above)}"
    yield columns[last] == above[last], f"bit {last} is not below its number"
    yield (all(one - step >= other for one, other in
               zip(columns, columns[1:])), "bits do not rise to the left")


def check_bits(drawing, row, record, columns):
    """A box for each bit, and then, over those that the mask lacks, smaller
    ones of the page's colour. Boxes of equal size stand beside each other."""
    width, mask = record
    page = drawing.style[".page"]["fill"]
    marks = drawing.marks(row)
    frames = {mark.x: mark.box for mark in marks if mark.colour != page}
    holes = {mark.x: mark.box for mark in marks[width:]}
    lacking = [x for bit, x in enumerate(columns[:width])
               if not mask >> bit & 1]
    yield sorted(frames) == sorted(columns[:width]), f"not {width} boxes"
    yield sorted(holes) == sorted(lacking), "other bits have empty boxes"
    yield len(marks) == len(frames) + len(holes), "a bit is painted twice"
    yield len({(box.top, box.bottom, box.right - box.left)
               for box in frames.values()}) == 1, "boxes of several sizes"
    for x, hole in holes.items():
        yield frames[x].holds(hole, 1), "an empty box has no frame"
        # The share of ink tells the two apart where there is no colour.
        yield 0.4 < hole.area() / frames[x].area() < 0.8, "half an empty box"


def check_words(drawing, row, number, record):
    width, mask = record
    titles = [title.text for title in row.iter(f"{SPACE}title")]
    yield (titles == [f"record {number}, width {width}, mask {mask:016x}"],
           f"titles {titles}")
    labels = [words.text for words in drawing.words(row)]
    yield (labels == [f"{number}", f"{width}",
                      f"{bin(mask).count('1')} of {width}"],
           f"labels {labels}")


def check_places(drawing, row, names, bits):
    """Labels stand below the names of their columns, in the middle of their
    row and beside the bits of the block."""
    middle = around(drawing.marks(row)).middle()
    for name, words in zip(names, drawing.words(row)):
        yield ((words.x, words.kind) == (name.x, name.kind),
               f"{words.text} is not below {name.text}")
        yield (abs(words.box.middle() - middle) <= 2,
               f"{words.text} is not in the row's middle")
        yield not words.box.meets(bits), f"{words.text} is among the bits"


def check_apart(drawing, heading, rows):
    """Nothing in a block lies upon something else."""
    for one, other in itertools.combinations(heading, 2):
        yield (not one.box.meets(other.box),
               f"{one.text} lies upon {other.text}")
    extents = [around(things) for things in
               (heading, *(drawing.shown[row] for row in rows))]
    for one, other in zip(extents, extents[1:]):
        yield one.bottom <= other.top, "rows overlap or are out of order"


def check_block(drawing, block, first, records):
    """A block whose first record has this number."""
    rows = list(filter(is_row, block))
    heading = drawing.heading(block)
    above = {int(words.text): words.x for words in heading
             if words.kind == "bit"}
    step = sum(map(float, drawing.style[".box"]["stroke-dasharray"].split()))
    columns = [above[bit // 8 * 8] - bit % 8 * step
               for bit in range(max(width for width, _ in records))]
    yield from check_columns(above, columns, step)
    names = [words for words in heading
             if words.text in ("record", "width", "cared for")]
    yield len(names) == 3, f"{len(names)} names of columns"
    bits = around([mark for row in rows for mark in drawing.marks(row)])
    for number, row in enumerate(rows, first):
        for right, text in itertools.chain(
                check_bits(drawing, row, records[number], columns),
                check_words(drawing, row, number, records[number]),
                check_places(drawing, row, names, bits)):
            yield right, f"record {number}: {text}"
    for words in heading:
        yield (" to " not in words.text
               or words.text == f"{first} to {first + len(rows) - 1}",
               f"the block {words.text}")
    yield from check_apart(drawing, heading, rows)


def check_rows(drawing, records):
    """As many rows as records, in blocks that stand apart and that are read
    from left to right and then downwards."""
    ids = []
    for block in drawing.blocks:
        yield from check_block(drawing, block, len(ids), records)
        ids += [row.get("id") for row in filter(is_row, block)]
    yield (ids == [f"record-{number}" for number in range(len(records))]
           and len(ids) == sum(map(is_row, drawing.groups)),
           f"{len(ids)} rows, or not in order")
    extents = [around(drawing.shown[block]) for block in drawing.blocks]
    for one, other in itertools.combinations(extents, 2):
        yield not one.meets(other), "blocks overlap"
        yield (other.left > one.left or other.top >= one.bottom,
               "blocks are out of order")
