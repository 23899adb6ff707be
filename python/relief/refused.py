"""Refusals of the library, as an exception."""

from __future__ import annotations

from . import boundary

# What to do, by the number of the refusal. The library has the text of what is wrong.
_ADVICE = {
    1: "cut the raster into pieces of at most 1,048,576 pixels, no side over 4,096; the guarantee then holds for each"
       " piece by itself, not for the pieces put together",
    2: "give weights of 0 to 65,280",
    3: "swap the ends of the box",
    4: "lend one sample for each pixel",
    5: "give one flow number for each pair",
    6: "give one image value for each pixel",
    7: "lend two work values for each pair",
    8: "give a flow within the weights",
    9: "clamp the image to the box first: 256 * low to 256 * high + 255 sub-units",
    10: "ask for at most 4,096 quick rounds",
    12: "mend the tape's order of records",
    13: "the tape was cut: fetch it again",
    14: "mend the tape's order of records",
    15: "cut the tape there",
    16: "the tape names a larger raster than it has bytes for: see whether all of it was sent",
    18: "the tape was never finished, or was cut right behind a record: see whether the sender's is longer, else send"
        " it back",
    19: "give one weight for each pair, or none",
}


class Refused(Exception):
    """The library turned the call back; no buffer was changed.

    Attributes:
        number: which refusal it is, by the table of the README.
        place: where, 0 unless that table names a place: an index, or an offset in a tape.
        where: the place as a person thinks of it, such as ``down[3, 5]``; empty where it says nothing more.
        text: what is wrong.
        advice: what to do.
    """

    def __init__(self, number: int, place: int = 0, where: str = "") -> None:
        super().__init__(number, place, where)
        self.number = number
        self.place = place
        self.where = where

    @property
    def text(self) -> str:
        return boundary.refusal_text(self.number)

    @property
    def advice(self) -> str:
        return _ADVICE.get(self.number, "see the README's table of refusals")

    def __str__(self) -> str:
        where = f" ({self.where})" if self.where else ""
        return f"refused {self.number} at {self.place}{where}: {self.text}; {self.advice}"
