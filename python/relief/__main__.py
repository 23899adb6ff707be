"""python3 -m relief: the command relief-raster."""

import sys

from .command import main

if __name__ == "__main__":
    sys.exit(main())
