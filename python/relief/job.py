"""A job: a scan with its terms, rounds and, where it has them, a weight for each pair and a flow."""

from __future__ import annotations

from dataclasses import dataclass
from typing import Any, Optional, Tuple

import numpy as np

from . import boundary
from .arrays import Shape, as_box, as_integer, as_raster, read_only_view
from .pairs import Pairs, as_pairs
from .refused import Refused

QUICK = 200
STEADY = 1000


@dataclass(frozen=True, eq=False)
class Job:
    """A scan with its terms and rounds. What is given is taken as it is, not copied, where the library can be lent it.

    Attributes:
        codes: the scan, a 2-D uint8 array of shape (h, w).
        weight: the weight, in sub-units of 1/256 level, 0 to 65,280.
        box: lowest and highest level of the image, each 0 to 255.
        quick: the number of quick rounds, 0 to 4,096; as for clean, unless given.
        steady: the most steady rounds, 0 to 65,535; as for clean, unless given.
        weights: a weight for each pair, or None where each pair has the weight above.
        flow: a flow, or None.

    Raises:
        TypeError, ValueError: of a wrong type, shape or range.
        Refused: 1, of a raster that is too large or has no pixel.
    """

    codes: np.ndarray
    weight: int
    box: Tuple[int, int]
    quick: int = QUICK
    steady: int = STEADY
    weights: Optional[Pairs] = None
    flow: Optional[Pairs] = None

    def __post_init__(self) -> None:
        codes = as_raster("codes", self.codes)
        fields = dict(codes=read_only_view(codes), box=as_box(self.box),
                      weight=as_integer("weight", self.weight, 2**32 - 1, boundary.max_weight()),
                      quick=as_integer("quick", self.quick, 2**32 - 1, 4096),
                      steady=as_integer("steady", self.steady, 2**16 - 1, 65535))
        height, width = codes.shape
        for name in "weights", "flow":
            value: Any = getattr(self, name)
            fields[name] = None if value is None else as_pairs(name, value, (height, width))
        for name, value in fields.items():
            object.__setattr__(self, name, value)

    @property
    def shape(self) -> Shape:
        """Height and width, in pixels."""
        height, width = self.codes.shape
        return height, width

    @property
    def terms(self) -> boundary.Terms:
        """Size, weight and box, as the library takes them."""
        height, width = self.shape
        return boundary.Terms(width, height, self.weight, *self.box)

    def refused(self, number: int, place: int) -> Refused:
        """A refusal of this job, with its place as a person thinks of it."""
        where = ""
        if number == 2 and self.weights is not None and self.weight <= boundary.max_weight():
            where = "weights." + self.weights.name_of(place)
        elif number == 8 and self.flow is not None:
            where = "flow." + self.flow.name_of(place)
        elif number == 9:
            where = "image[{}, {}]".format(*divmod(place, self.shape[1]))
        return Refused(number, place, where)
