"""XML of strangers as a tree: without DTD and entities, and within limits."""
from xml.etree.ElementTree import Element, TreeBuilder, tostring
from xml.parsers import expat

from ..errors import BadInput
from ..letters import short

DEEPEST, MOST, MOST_NAMES = 64, 500_000, 10_000  # levels, elements, and their names with those of attributes
MOST_SIGNS = 2 * MOST  # with which tags begin, counted before anything is made of them
PIECE, LONGEST = 1 << 16, 1 << 20  # bytes that are read at once, and of a tag with its attributes or of a text
HEAD = '<?xml version="1.0" encoding="UTF-8" standalone="yes"?>\n'


class Limited(TreeBuilder):
    """Builds a tree whose names are as they stand, without regard to namespaces."""

    def __init__(self) -> None:
        super().__init__()
        self.depth = self.count = self.length = 0
        self.names: set[str] = set()

    def begin(self, tag: str, attributes: dict[str, str]) -> None:
        self.depth, self.count, self.length = self.depth + 1, self.count + 1, 0
        self.names.update((tag, *attributes))
        if self.depth > DEEPEST or self.count > MOST or len(self.names) > MOST_NAMES:
            raise BadInput(f"the XML has more than {DEEPEST} levels, {MOST:,} elements or {MOST_NAMES:,} names of "
                           "elements")
        self.start(tag, attributes)

    def finish(self, tag: str) -> None:
        self.depth, self.length = self.depth - 1, 0
        self.end(tag)

    def add(self, text: str) -> None:
        self.length += len(text)
        if self.length > LONGEST:
            raise BadInput(f"the XML has a text of more than {LONGEST:,} signs")
        self.data(text)


def refused(*_: object) -> None:
    raise BadInput("the XML has a document type, which may hold entities; such a text is not read")


def parse_xml(text: str) -> Element:
    if text.count("<") > MOST_SIGNS:
        raise BadInput(f"the XML has more than {MOST_SIGNS:,} signs <")
    builder, parser = Limited(), expat.ParserCreate("utf-8")
    parser.buffer_text = True
    parser.StartDoctypeDeclHandler = parser.EntityDeclHandler = refused
    parser.StartElementHandler, parser.EndElementHandler = builder.begin, builder.finish
    parser.CharacterDataHandler = builder.add
    try:
        feed(parser, text.encode("utf-8", "replace"))
    except expat.ExpatError as fault:
        told = expat.errors.messages.get(fault.code, f"{fault}")
        raise BadInput(f"line {fault.lineno}, column {fault.offset + 1}: no XML: {short(told)}") from None
    return builder.close()


def feed(parser: "expat.XMLParserType", data: bytes) -> None:
    """Piece by piece, so that a tag is too long before all of its attributes are there."""
    for place in range(0, len(data), PIECE):
        parser.Parse(data[place : place + PIECE], False)
        if place + PIECE - parser.CurrentByteIndex > LONGEST:
            raise BadInput(f"the XML has a tag of more than {LONGEST:,} bytes")
    parser.Parse(b"", True)


def written(root: Element) -> str:
    return HEAD + tostring(root, "unicode") + "\n"


def text_of(parent: Element, name: str) -> str | None:
    """What a child of this name holds; none where there is no such child, or nothing in it."""
    found = parent.find(name)
    return None if found is None or found.text is None or not found.text.strip() else found.text.strip()


def put_child(parent: Element, name: str, text: str, order: tuple[str, ...]) -> None:
    """Has a child of this name hold a text; a new one stands before those that come later in this order."""
    found = parent.find(name)
    if found is None:
        found = Element(name)
        later = order[order.index(name) :]
        place = next((place for place, child in enumerate(parent) if child.tag in later), len(parent))
        parent.insert(place, found)
    found.text = text
