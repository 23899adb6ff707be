"""The report: a CSV file with a row for each file."""

from __future__ import annotations

import csv
import io
from typing import Any, Dict, List, Optional

from ..files import write_atomically
from ..formatting import format_bound
from ..result import Result

COLUMNS = ["file", "width", "height", "weight", "low", "high", "quick", "steady", "weights", "outcome", "moved", "price",
           "floor", "slack", "rms_bound", "pixel_bound", "seconds", "fault"]


class Report:
    """The rows so far; with a path, the file holds those that were saved, and is whole at any time."""

    def __init__(self, path: Optional[str]) -> None:
        self.path = path
        self.rows: List[Dict[str, Any]] = []
        self.save()

    def add(self, file: str, options: Any, result: Optional[Result] = None, seconds: float = 0, fault: str = "") -> None:
        """A row: the terms and, of a file that was cleaned, its figures and the bounds in levels; of another its fault."""
        low, high = options.box
        row = dict(file=file, weight=options.weight, low=low, high=high, quick=options.quick, steady=options.steady,
                   weights=options.weights or "", fault=fault)
        if result is not None:
            height, width = result.image.shape
            row.update(width=width, height=height, outcome=result.outcome, moved=result.moved, price=result.price,
                       floor=result.floor, slack=result.slack, rms_bound=format_bound(result.rms_bound),
                       pixel_bound=format_bound(result.pixel_bound), seconds=f"{seconds:.3f}")
        self.rows.append(row)

    @property
    def faulty_count(self) -> int:
        """How many of the rows are of files at fault."""
        return sum(bool(row["fault"]) for row in self.rows)

    @property
    def cleaned_count(self) -> int:
        """How many of the rows are of files that were cleaned."""
        return len(self.rows) - self.faulty_count

    def save(self) -> None:
        """Writes the rows so far."""
        if self.path is None:
            return
        text = io.StringIO()
        writer = csv.DictWriter(text, COLUMNS, lineterminator="\n")
        writer.writeheader()
        writer.writerows(self.rows)
        write_atomically({self.path: text.getvalue().encode(errors="surrogateescape")})
