"""The command's options."""

from __future__ import annotations

import argparse
import re
from typing import Any, List, Optional, Tuple

import numpy as np

from ..calls import clean
from ..job import QUICK, STEADY
from ..refused import Refused
from ..version import __version__
from .clean import clean_files
from .console import PROGRAM
from .judge import check_file, price_file

_TERMS = """\
A scan is an 8-bit grey picture: PGM, PNG or TIFF, at most 1,048,576 pixels, no
side over 4,096. Weight and box are in its codes: --weight 1024 is 4 levels,
--box 30:200 keeps depths within the levels 30 to 200.
"""

_EXAMPLES = {
    "clean": """\
example:
  relief-raster clean scans/*.png -o cleaned --weight 640 --box 0:255 \\
      --report cleaned.csv --picture

Writes DIR/NAME for each scan, with its form, maxval and resolution kept;
NAME.flow.npy beside it with --save-flow, and NAME.picture.png with --picture. A
file that is there already is replaced. A scan at fault is named in one line and
the others are cleaned; the exit status is then 1.
""",
    "check": """\
example:
  relief-raster check wall.png --flow wall.flow.npy --weight 640 --box 0:255

The flow is an array of whole numbers, one for each pair in the library's order:
every pixel with the one below, row by row, then every pixel with the one to its
right.
""",
    "price": """\
example:
  relief-raster price wall.png cleaned/wall.png --weight 640 --box 0:255

Of a picture, each code is priced at the centre of its level; that is not the
price of the image that it was rounded from, and of a maxval below 255 it may
lie outside a narrow box, which is refused. An array of sub-units, as Python's
result.image, is priced as it is: save it with numpy.save, give the .npy file.
""",
}


def parse_options(argv: Optional[List[str]]) -> argparse.Namespace:
    """The options, allowed by the library; else it says what is wrong and exits with status 2."""
    parser = argparse.ArgumentParser(prog=PROGRAM, description="Cleans scanned façades. From a slack that is proved, each"
                                     " gets a bound on how far it is from the best raster.",
                                     epilog=f"`{PROGRAM} COMMAND --help` has an example each.")
    parser.add_argument("--version", action="version", version=f"{PROGRAM} {__version__}")
    commands = parser.add_subparsers(title="commands", dest="name", metavar="COMMAND", required=True)
    _add_clean(commands)
    _add_check(commands)
    _add_price(commands)
    options = parser.parse_args(argv)
    _require_allowed_terms(commands.choices[options.name], options)
    return options


def _add_clean(commands: Any) -> None:
    command = _add_command(commands, "clean", "clean scans", clean_files)
    command.add_argument("scans", metavar="IN", nargs="+", help="a scan")
    command.add_argument("-o", "--output", metavar="DIR", required=True, help="folder for what is written; made if missing")
    _add_terms(command)
    command.add_argument("--quick", type=_parse_number, default=QUICK, metavar="N",
                         help=f"quick rounds, 0 to 4,096 (else {QUICK})")
    command.add_argument("--steady", type=_parse_number, default=STEADY, metavar="N",
                         help=f"the most steady rounds, 0 to 65,535 (else {STEADY})")
    command.add_argument("--save-flow", action="store_true", help="write each scan's flow, to be checked")
    command.add_argument("--report", metavar="FILE.csv", help="write a row for each scan: terms, figures, bounds, seconds")
    command.add_argument("--picture", action="store_true", help="draw each scan before and after, with the error column")


def _add_check(commands: Any) -> None:
    command = _add_command(commands, "check", "judge a flow of one's own", check_file)
    command.add_argument("scan", metavar="IN", help="the scan")
    command.add_argument("--flow", metavar="FILE.npy", required=True, help="the flow")
    _add_terms(command)


def _add_price(commands: Any) -> None:
    command = _add_command(commands, "price", "price any raster of the box", price_file)
    command.add_argument("scan", metavar="IN", help="the scan")
    command.add_argument("cleaned", metavar="CLEANED", help="a picture, or an .npy array in sub-units")
    _add_terms(command)


def _add_command(commands: Any, name: str, purpose: str, function: Any) -> argparse.ArgumentParser:
    command = commands.add_parser(name, help=purpose, description=_TERMS, epilog=_EXAMPLES[name],
                                  formatter_class=argparse.RawDescriptionHelpFormatter)
    command.set_defaults(command=function, quick=0, steady=0)
    return command


def _add_terms(command: argparse.ArgumentParser) -> None:
    command.add_argument("--weight", type=_parse_number, metavar="W", required=True,
                         help="how strongly to smooth, 0 to 65,280: 128 times the noise in levels is a beginning")
    command.add_argument("--box", type=_parse_box, metavar="LOW:HIGH", required=True,
                         help="the levels of the result, 0 to 255")
    command.add_argument("--weights", metavar="PICTURE",
                         help="a picture as large as the scan: black where nothing is to be smoothed, white for all of W")


def _parse_number(text: str) -> int:
    if not re.fullmatch(r"[0-9]{1,9}", text):
        raise argparse.ArgumentTypeError(f"{text!r} is not a whole number of 0 or more")
    return int(text)


def _parse_box(text: str) -> Tuple[int, int]:
    low, colon, high = text.partition(":")
    if not colon:
        raise argparse.ArgumentTypeError(f"{text!r} is not LOW:HIGH, such as 0:255")
    return _parse_number(low), _parse_number(high)


def _require_allowed_terms(command: argparse.ArgumentParser, options: argparse.Namespace) -> None:
    """Wrong terms are wrong for every scan: the library says so of one of a single pixel, before any is read."""
    try:
        clean(np.zeros((1, 1), np.uint8), options.weight, options.box, options.quick, options.steady)
    except (Refused, ValueError) as error:
        command.error(str(error))
