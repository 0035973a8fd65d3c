"""Document 01's refusals."""

MEANINGS = {
    1: "the sheet has more than 65,536 bytes",
    2: "a field is cut off, or a number is not shortest or too large",
    3: "a byte or flag is outside its stated values, or a node has a tag its place doesn't allow",
    4: "a count, length or depth is over its limit",
    5: "a text is not well-formed UTF-8, or WTF-8 where that is named",
    6: "a position is past the source or inside a character, or an end precedes its start",
    7: "a comment lacks its marks, is shorter than them, or starts before the last one's end; "
    "or a group has count 0, is out of order, reaches past the comments; or a comment is in none",
    8: "bytes follow the root node",
    9: "the first argument of a walked call, an import of any phase or one whose expression is the Name `require`, "
    "is a template with an uncooked piece",
    10: "the report is longer than the buffer",
    13: "a String's span has fewer than two bytes, or does not begin and end with the same mark",
    16: "the rules of the entries are longer than the second buffer",
}


class Refused(Exception):
    """The library refuses a sheet."""

    def __init__(self, number: int) -> None:
        self.number = number
        self.meaning = MEANINGS.get(number, "see docs/01-scope.md")
        super().__init__(f"refused {number}: {self.meaning}")
