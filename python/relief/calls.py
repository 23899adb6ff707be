"""The calls: clean, check and price."""

from __future__ import annotations

from typing import Any, Tuple

import numpy as np

from . import boundary
from .arrays import as_int32_array, empty_int32, read_only_view
from .job import QUICK, STEADY, Job
from .pairs import Pairs, flat_or_empty
from .result import Result

_OUTCOMES = {1: "checked", 2: "settled", 3: "spent"}


def clean(codes: Any, weight: int, box: Tuple[int, int], quick: int = QUICK, steady: int = STEADY,
          weights: Any = None) -> Result:
    """Cleans a scan: quick rounds, then steady rounds until no pair would move or the allowance is used up.

    Args:
        codes: the scan, a 2-D uint8 array.
        weight: how strongly to smooth, in sub-units: 256 times the usual parameter lambda in levels. 0 to 65,280.
        box: lowest and highest level of the image, each 0 to 255.
        quick: the number of quick rounds, 0 to 4,096.
        steady: the most steady rounds, 0 to 65,535.
        weights: a weight for each pair in place of the one weight: Pairs, a tuple (down, right), or the flat order.

    Raises:
        TypeError, ValueError: of a wrong type, shape or range.
        Refused: what the library refuses: 1, 2, 3 or 10.

    >>> clean(np.array([[0, 2]], np.uint8), weight=256, box=(0, 255), quick=0, steady=100)
    Result(2 x 1 pixels: settled 17, price 131080, floor 131064, slack 16)
    """
    return clean_job(Job(codes, weight, box, quick, steady, weights))


def check(codes: Any, flow: Any, weight: int, box: Tuple[int, int], weights: Any = None) -> Result:
    """Judges a flow of one's own: its image, with price, floor and slack.

    Args:
        flow: a number for each pair, at most its pair's weight in size: Pairs, a tuple (down, right), or the flat order.
        codes, weight, box, weights: as for clean.

    Raises:
        TypeError, ValueError: of a wrong type, shape or range.
        Refused: what the library refuses: 1, 2, 3 or 8.

    >>> check(np.array([[0, 2]], np.uint8), np.array([-256]), weight=256, box=(0, 255)).image
    array([[384, 384]], dtype=int32)
    """
    if flow is None:
        raise TypeError("flow is None: a number for each pair is needed")
    return check_job(Job(codes, weight, box, 0, 0, weights, flow))


def price(codes: Any, image: Any, weight: int, box: Tuple[int, int], weights: Any = None) -> int:
    """The price (objective) of any image of the box, exactly. No flow is given, so nothing is said of the best image.

    Args:
        image: values in sub-units of 1/256 level, whole numbers, of the scan's shape. A code s is 256 * s + 128.
        codes, weight, box, weights: as for clean.

    Raises:
        TypeError, ValueError: of a wrong type, shape or range.
        Refused: what the library refuses: 1, 2, 3 or 9.

    >>> price(np.array([[0, 2]], np.uint8), np.array([[382, 386]]), weight=256, box=(0, 255))
    131080
    """
    job = Job(codes, weight, box, 0, 0, weights)
    values = as_int32_array("image", image, job.shape)
    refusal, place, figures = boundary.price(job.terms, job.codes, flat_or_empty(job.weights), values)
    if refusal:
        raise job.refused(refusal, place)
    return figures.price


def clean_job(job: Job) -> Result:
    """Does the rounds of a job; a flow that it has is left aside."""
    pairs = boundary.pair_count(*job.terms[:2])
    image, flow, work = empty_int32(*job.shape), empty_int32(pairs), empty_int32(2 * pairs)
    refusal, place, figures = boundary.run(job.terms, job.quick, job.steady, job.codes, flat_or_empty(job.weights), flow,
                                           image, work)
    if refusal:
        raise job.refused(refusal, place)
    return _result(job, image, Pairs.from_flat(flow, job.shape), figures)


def check_job(job: Job) -> Result:
    """Judges the flow of a job; its rounds are left aside."""
    if job.flow is None:
        raise ValueError("the job has no flow to check")
    image = np.empty(job.shape, np.int32)
    refusal, place, figures = boundary.check(job.terms, job.codes, flat_or_empty(job.weights), job.flow.flat, image)
    if refusal:
        raise job.refused(refusal, place)
    return _result(job, image, job.flow, figures)


def _result(job: Job, image: np.ndarray, flow: Pairs, figures: boundary.Figures) -> Result:
    outcome, *numbers = figures
    return Result(job, read_only_view(image), flow, _OUTCOMES[outcome], *numbers)
