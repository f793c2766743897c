"""What the sheet of a picture of masks must show: title, legend, colours.
Assumes a drawing that has been read, and the records that it should show."""

from drawing import SPACE
from masks_lines import tally

# All that a picture is made of. Anything else could hide or change what these
# tests read from it.
ELEMENTS = {f"{SPACE}{name}" for name in
            ("svg", "title", "desc", "style", "rect", "g", "path", "text")}
ATTRIBUTES = {"id", "class", "transform", "x", "y", "d", "width", "height",
              "viewBox", "role", "aria-labelledby", "aria-describedby"}
PROPERTIES = {"fill", "stroke", "stroke-width", "stroke-dasharray",
              "text-anchor", "font-family", "font-size", "font-weight"}

# Ratios of brightness at which words, and shapes, can be told from what is
# behind or beside them.
RATIOS = {"words": 4.5, "box": 3}

# Words smaller than this cannot be read at the picture's own size.
LEAST_SIZE = 10

# The marks beside each meaning.
LEGEND = {"cared for": ["box"], "not cared for": ["box", "hole"],
          "no box": [], "on top": []}


def ratio(one, other):
    """How far two colours, such as #16324f, differ in brightness."""
    def brightness(colour):
        parts = [int(colour[i:i + 2], 16) / 255 for i in (1, 3, 5)]
        linear = [part / 12.92 if part <= 0.03928
                  else ((part + 0.055) / 1.055) ** 2.4 for part in parts]
        return 0.2126 * linear[0] + 0.7152 * linear[1] + 0.0722 * linear[2]
    low, high = sorted((brightness(one), brightness(other)))
    return (high + 0.05) / (low + 0.05)


def check_parts(drawing):
    """Nothing but shapes and words: no script, nothing from elsewhere, and
    no name twice."""
    elements = list(drawing.root.iter())
    ids = [element.get("id") for element in elements if element.get("id")]
    yield len(ids) == len(set(ids)), "two elements have one id"
    for found, known in (
            ({element.tag for element in elements}, ELEMENTS),
            (set().union(*(element.keys() for element in elements)),
             ATTRIBUTES),
            (set().union(*drawing.style.values()), PROPERTIES)):
        yield found <= known, f"it also has {found - known}"
    yield ("url" not in str(drawing.style) and b"@" not in drawing.data,
           "a style from elsewhere")


def check_root(drawing):
    """An image with a title, a description and a page."""
    root, page = drawing.root, drawing.page
    yield ((root.tag, root.get("role"), root.get("viewBox"))
           == (f"{SPACE}svg", "img", f"0 0 {page.right:g} {page.bottom:g}"),
           "it is no svg with the role of an image, or has another view")
    yield ([(part.tag.replace(SPACE, ""), part.get("id"))
            for part in root[:4]]
           == [("title", root.get("aria-labelledby")),
               ("desc", root.get("aria-describedby")),
               ("style", None), ("rect", None)], "it begins with other parts")
    yield len(root[1].text) >= 40, "it has no description"


def check_page(drawing):
    """A white page below all the rest, and all the rest on it."""
    page, = drawing.root.iter(f"{SPACE}rect")
    yield ((drawing.look(page)["fill"], float(page.get("width")),
            float(page.get("height"))) == ("#ffffff", *drawing.page[2:]),
           "the page is not white throughout")
    for thing in drawing.shown[drawing.root]:
        yield drawing.page.holds(thing.box), f"{thing} is not on the page"


def right_title(records):
    if not records:
        return "There is no record, so there is no bit to show"
    bits, ones = tally(records)
    return (f"{len(records):,} record{'s' if len(records) > 1 else ''}: "
            f"{ones:,} of {bits:,} bits are cared for")


def check_title(drawing, records):
    first, *others = drawing.words(drawing.root)
    yield (first.text == drawing.root[0].text == right_title(records),
           f"the title {first.text}")
    yield (first.size > max((words.size for words in others), default=0),
           "the title is not the largest line")


def check_legend(drawing):
    """A filled box and an empty one, each beside its meaning."""
    legend, = (group for group in drawing.groups if group.get("id") == "legend")
    kinds = {drawing.words(group)[0].text.split(":")[0]:
             [mark.kind for mark in drawing.marks(group)] for group in legend}
    yield kinds == LEGEND, f"the legend has {kinds}"


def check_colours(drawing):
    page, band = (drawing.style[name]["fill"] for name in (".page", ".band"))
    for kind, colour in {("words" if thing.text else thing.kind, thing.colour)
                         for thing in drawing.shown[drawing.root]}:
        yield (min(ratio(colour, page), ratio(colour, band))
               >= RATIOS.get(kind, 0), f"{kind} in {colour}: too pale")
        yield (kind != "hole" or colour == page,
               "empty boxes are not as the page is")


def check_sizes(drawing):
    """Words are about as tall as the boxes, and never too small."""
    least = max(LEAST_SIZE,
                0.9 * float(drawing.style[".box"]["stroke-width"]))
    for words in drawing.words(drawing.root):
        yield words.size >= least, f"{words.text!r} is too small"


def check_sheet(drawing, records):
    yield from check_title(drawing, records)
    for check in (check_parts, check_root, check_page, check_sizes,
                  check_colours, *[check_legend][:len(records)]):
        yield from check(drawing)
