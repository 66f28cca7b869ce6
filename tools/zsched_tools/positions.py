"""The values of a text that is JSON, with their places. Python's decoder finds the end of each.

Runs in regular expressions don't backtrack here. Python before 3.11.5 doesn't undo what the last round of (?:PART)*+
consumed if that round failed; the same for ?+. With an atomic group (?>PART) it does."""
import functools
import json
import re

MAX_WHOLE = 2**64 - 1


# Zero or more parts in sequence, as many as match; and zero or one part.
def run_of(part): return f"(?:(?>{part}))*+"
def maybe(part): return f"(?:(?>{part}))?+"


W = r"[ \t\n\r]*+"
SPACE = re.compile(W)
COLON = re.compile(f"{W}:{W}")
_DECODER = json.JSONDecoder(parse_int=len, parse_float=len)
_DIGITS = re.compile(r"0|[1-9][0-9]{0,19}")
_PIECE = re.compile(r"(?P<plain>[^\\]+)|(?P<pair>\\u[dD][89abAB][0-9a-fA-F]{2}\\u[0-9a-fA-F]{4})|\\u[0-9a-fA-F]{4}|\\.")
_KINDS = {"{": "object", "[": "list", '"': "text", "t": "true", "f": "false", "n": "null"}


class Document:
    """A text that is JSON."""

    def __init__(self, text):
        self.text = text

    def root(self):
        return Node(self, self.skip(0))

    def skip(self, at):
        """The place after the white space."""
        return SPACE.match(self.text, at).end()

    def end_of(self, at):
        """The end of the value that begins here."""
        return _DECODER.raw_decode(self.text, at)[1]

    def behind_key(self, at):
        """The place of the value whose key begins here."""
        return COLON.match(self.text, self.end_of(at)).end()


class Node:
    """A value of a document."""

    def __init__(self, document, at):
        self.document = document
        self.at = at
        self.kind = _KINDS.get(document.text[at], "number")

    @property
    def end(self):
        return self.document.end_of(self.at)

    @property
    def source(self):
        return self.document.text[self.at:self.end]

    def string(self):
        """The content of a text."""
        source = self.source
        return json.loads(source) if "\\" in source else source[1:-1]

    def whole(self):
        """The number, if it is a whole one, else None."""
        source = self.source if self.kind == "number" else ""
        return int(source) if _DIGITS.fullmatch(source) and int(source) <= MAX_WHOLE else None

    def items(self, passing=None):
        """The items of a list. Items that are in a run of the pattern `passing` are skipped. A pattern matches any
        number of items, each with the comma after it."""
        return (Node(self.document, at) for at in self._parts(passing))

    def members(self):
        """The keys and values of an object, as pairs of nodes in their order."""
        document = self.document
        return ((Node(document, at), Node(document, document.behind_key(at))) for at in self._parts(None))

    @functools.cached_property
    def _values(self):
        """The values of an object by their keys. Of a repeated key the last value counts."""
        return {name.string(): value for name, value in self.members()}

    def get(self, key):
        """The value of a key, the last one if the key is repeated, or None if it is missing."""
        return self._values.get(key)

    def _parts(self, passing):
        """The places of the items, or of the keys."""
        document = self.document
        text, here = document.text, document.skip(self.at + 1)
        while text[here] not in "]}":
            if passing:
                here = passing.match(text, here).end()
            yield here
            value = document.behind_key(here) if self.kind == "object" else here
            here = document.skip(document.end_of(value))
            if text[here] == ",":
                here = document.skip(here + 1)

    def place_in(self, index):
        """The place in the document of the character with this index in the content of a text."""
        place, rest = self.at + 1, index
        for piece in _PIECE.finditer(self.document.text, self.at + 1, self.end - 1):
            length = len(piece[0]) if piece["plain"] else 1
            if rest < length:
                return place + (rest if piece["plain"] else 0)
            place, rest = piece.end(), rest - length
        return place
