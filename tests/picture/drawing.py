"""Reads a picture of masks back: what it paints where, and which words.
Assumes the few forms of transforms and paths below; others raise an error."""

import re
from typing import NamedTuple
from xml.etree import ElementTree

SPACE = "{http://www.w3.org/2000/svg}"

NUMBER = r"(-?[\d.]+)"
MOVE = rf"translate\({NUMBER} {NUMBER}\)(?: scale\({NUMBER}\))?"
LINE = f"M{NUMBER} {NUMBER}h{NUMBER}"
BAND = f"{LINE}v{NUMBER}h-{NUMBER}z"

# Room for a letter or digit, as a share of the font's size. Digits take up to
# 0.64 in the usual fonts without serifs.
LETTER = 0.66


class Box(NamedTuple):
    """A rectangle; y grows downwards."""
    left: float
    top: float
    right: float
    bottom: float

    def middle(self):
        """Half-way down."""
        return (self.top + self.bottom) / 2

    def holds(self, other, by=0.0):
        return (self.left + by <= other.left and self.top + by <= other.top
                and other.right <= self.right - by
                and other.bottom <= self.bottom - by)

    def meets(self, other):
        return (self.left < other.right and other.left < self.right
                and self.top < other.bottom and other.top < self.bottom)

    def area(self):
        return (self.right - self.left) * (self.bottom - self.top)


class Thing(NamedTuple):
    """Something painted or written, with the name of its style."""
    box: Box
    kind: str
    colour: str
    x: float                    # the middle, or what words are written for
    text: str = ""
    size: float = 0


def around(things):
    lefts, tops, rights, bottoms = zip(*(thing.box for thing in things))
    return Box(min(lefts), min(tops), max(rights), max(bottoms))


def numbers_of(form, path):
    """The numbers of a path that is made of nothing but this form."""
    if not re.fullmatch(f"(?:{form})*", path):
        raise ValueError(f"the path {path}")
    return [map(float, found) for found in re.findall(form, path)]


def boxes(path, look):
    """The bands of a path, or the dashes of its lines."""
    if look["fill"] != "none":
        for left, top, wide, tall, back in numbers_of(BAND, path):
            yield Box(left, top, left + max(wide, back), top + tall)
        return
    dash, gap = map(float, look["stroke-dasharray"].split())
    half = float(look["stroke-width"]) / 2
    for left, y, length in numbers_of(LINE, path):
        right = left + length
        while left < right:
            yield Box(left, y - half, min(left + dash, right), y + half)
            left += dash + gap


def painted(element, look):
    colour = look["stroke" if look["fill"] == "none" else "fill"]
    return [Thing(box, element.get("class"), colour, (box.left + box.right) / 2)
            for box in boxes(element.get("d"), look)]


def written(element, look):
    x, y = float(element.get("x")), float(element.get("y"))
    size = float(look["font-size"].replace("px", ""))
    wide = len(element.text) * size * LETTER
    left = x - wide * {"start": 0, "middle": 0.5, "end": 1}[
        look.get("text-anchor", "start")]
    return [Thing(Box(left, y - 0.8 * size, left + wide, y + 0.2 * size),
                  element.get("class", ""), look["fill"], x, element.text,
                  size)]


SHOWN = {f"{SPACE}path": painted, f"{SPACE}text": written}


def moved(thing, x, y, unit):
    left, top, right, bottom = thing.box
    return thing._replace(box=Box(x + left * unit, y + top * unit,
                                  x + right * unit, y + bottom * unit),
                          x=x + thing.x * unit, size=thing.size * unit)


def is_row(element):
    return element.get("id", "").startswith("record-")


class Drawing:
    """A picture, with all that each of its elements shows."""

    def __init__(self, data):
        self.data = data
        self.root = ElementTree.fromstring(data)
        self.style = {name: dict(re.findall(r"([\w-]+): ([^;]*?)\s*(?:;|$)",
                                            body.strip()))
                      for element in self.root.iter(f"{SPACE}style")
                      for name, body in re.findall(r"([.\w]+) {([^}]*)}",
                                                   element.text)}
        self.shown = {}
        self.visit(self.root, 0, 0, 1)
        self.groups = list(self.root.iter(f"{SPACE}g"))
        self.blocks = [group for group in self.groups
                       if group.get("class") == "block"]
        self.page = Box(0, 0, float(self.root.get("width")),
                        float(self.root.get("height")))

    def look(self, element):
        """The style of an element: that of its name, then of its class."""
        name = element.tag.replace(SPACE, "")
        return {**self.style.get(name, {}),
                **self.style.get(f".{element.get('class')}", {})}

    def visit(self, element, x, y, unit):
        """Finds what is shown; the element around has its origin at x and y,
        and a unit of this length."""
        if element.get("transform"):
            move = re.fullmatch(MOVE, element.get("transform"))
            right, down, scale = map(float, move.groups("1"))
            x, y, unit = x + right * unit, y + down * unit, unit * scale
        shown = []
        if element.tag in SHOWN:
            own = SHOWN[element.tag](element, self.look(element))
            shown = [moved(thing, x, y, unit) for thing in own]
        for child in element:
            shown += self.visit(child, x, y, unit)
        self.shown[element] = shown
        return shown

    def words(self, element):
        """All words within an element, in its order."""
        return [thing for thing in self.shown[element] if thing.text]

    def marks(self, element):
        """All that is painted within an element, in painting order."""
        return [thing for thing in self.shown[element] if not thing.text]

    def heading(self, block):
        """The words of a block that belong to no row."""
        return [words for child in block if not is_row(child)
                for words in self.words(child)]
