"""What the library turns away, by its numbers. The words stand here alone."""
from __future__ import annotations

from typing import Optional

WORDS = {
    1: "the text is not forms",
    2: "slice lengths disagree, or there are more than 1,024 entries",
    3: "a kind, a cut's operation (0 to 3) or a cube's stripe count (1 to 1,000) is outside its values",
    4: "a part is not earlier, named twice or nested deeper than 8; a line's owner or a path's start is wrong",
    5: "a measure is not finite, exceeds 1,000,000 in magnitude, is negative or the wrong way round",
    6: "a placing has no inverse",
    7: "an entry's box has a number that is not finite or exceeds 1,000,000 in magnitude",
    8: "the view, a ray or a threshold is outside its values",
    9: "a point handed to a chop, to simplification or to the eye test has a number that is not finite or exceeds 1,000,000 in magnitude; a number handed to a pick is not finite",
    10: "unused: no segment needs more halvings than a chop makes",
    11: "a cut needs a 65th restart",
    12: "the tree walk needs a 65th waiting place",
    13: "a lent slice is full",
    14: "a stripe count of a cylinder or a cone, open or closed, is above 360",
    15: "both drawings of a pick are used up",
    16: "a write to byte 1 or 7 of the plotter's registers, or past byte 7",
    17: "a command to the plotter that is not 1 to 4, or that is given while it is busy",
}


class Refused(Exception):
    """A call was refused: `number` and its `words`.

    `wrong` says what is wrong there, where the host can tell it; `line` and `column` (from 1) where it stands in a
    text, and `part` the name or number of the drawn part that it belongs to.
    """

    def __init__(
        self,
        number: int,
        wrong: Optional[str] = None,
        *,
        line: Optional[int] = None,
        column: Optional[int] = None,
        part: Optional[str] = None,
    ) -> None:
        self.number = number
        self.words = WORDS.get(number, "a refusal that this package does not know")
        self.wrong, self.line, self.column, self.part = wrong, line, column, part
        super().__init__(number, wrong)

    def __str__(self) -> str:
        where = f"line {self.line}, column {self.column}: " if self.line else f"{self.part}: " if self.part else ""
        return where + (f"{self.wrong} " if self.wrong else "") + f"(refusal {self.number}: {self.words})"
