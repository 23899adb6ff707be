"""The relief cleaner from Python: cleans scanned façades, over the proved library.

    import relief
    result = relief.clean(codes, weight=1024, box=(30, 200))
    result.levels, result.slack, result.rms_bound

Depths are in levels; a code s covers a level and is read at its centre, s + 0.5. A sub-unit is 1/256 level: images, flows
and weights are whole numbers of them. Image, flow, outcome, moved, price, floor and slack come from the library, whose
answers are proved; what they promise is said at Result and in the README. The bounds in levels are worked out from them.
"""

from .calls import check, check_job, clean, clean_job, price
from .job import QUICK, STEADY, Job
from .pairs import Pairs, weights_from_picture
from .refused import Refused
from .result import Result
from .tape import read_tape, write_tape
from .version import __version__

__all__ = ["QUICK", "STEADY", "Job", "Pairs", "Refused", "Result", "__version__", "check", "check_job", "clean", "clean_job",
           "price", "read_tape", "weights_from_picture", "write_tape"]
