"""relief-raster clean: a batch of scans."""

from __future__ import annotations

import io
import logging
import os
from typing import Any, Dict, Iterable, Optional, Set, Tuple

import numpy as np

from ..calls import clean
from ..files import write_atomically
from ..formatting import format_bounds, format_figures
from ..pairs import Pairs
from ..result import Result
from .console import describe_error, print_message, print_result
from .inputs import FILE_ERRORS, read_scan, read_weights, require_same_size
from .interrupt import Interrupted, raise_if_interrupted, run_in_thread
from .progress import Progress, estimate_seconds, format_share
from .report import Report


def clean_files(options: Any) -> int:
    """Cleans each scan; one at fault is named and the others go on."""
    try:
        weights = read_weights(options)
    except FILE_ERRORS as error:
        print_message(f"{options.weights}: {describe_error(error, options.weights)}")
        return 1
    try:
        os.makedirs(options.output, exist_ok=True)
        batch = _Batch(options, weights)
    except OSError as error:
        print_message(f"{error.filename}: {error.strerror or error}")
        return 1
    return batch.clean_all()


class _Batch:
    """Scans that are cleaned with the same terms into one folder."""

    def __init__(self, options: Any, weights: Optional[Pairs]) -> None:
        self.options, self.weights = options, weights
        self.input_paths = _real_paths([*options.scans, options.weights])
        self.output_paths = _real_paths([options.report])
        if self.input_paths & self.output_paths:
            raise OSError(None, "the report would replace a picture that is read", options.report)
        self.report = Report(options.report)
        self.progress = Progress(len(options.scans))
        self.report_unsaved = False

    def clean_all(self) -> int:
        """Cleans the scans one by one, and gives the exit status."""
        scans, report = self.options.scans, self.report
        try:
            for number, path in enumerate(scans, 1):
                self.clean_and_report(number, path)
                raise_if_interrupted()
        except Interrupted:
            self.save_report()
            self.print_message(f"interrupted; {report.cleaned_count} of {len(scans)} scans are cleaned, and what is written"
                               " is whole")
            raise
        if report.faulty_count or len(scans) > 1:
            at_fault = f", {report.faulty_count} at fault" if report.faulty_count else ""
            self.print_message(f"{report.cleaned_count} of {len(scans)} scans cleaned{at_fault}")
        return 1 if report.faulty_count or self.report_unsaved else 0

    def clean_and_report(self, number: int, path: str) -> None:
        """Cleans a scan, or says what is wrong with it; either is told and put into the report."""
        try:
            result, seconds = self.clean_one(number, path)
        except FILE_ERRORS as error:
            fault = describe_error(error, path)
            self.report.add(path, self.options, fault=fault)
            self.save_report()
            self.print_message(f"{path}: {fault}")
        else:
            self.report.add(path, self.options, result, seconds)
            self.save_report()
            self.progress.clear()
            print_result(f"{path}: {format_figures(result)}; {format_bounds(result)}")

    def save_report(self) -> None:
        """Writes the report; where that fails, it is told once, and the scans are cleaned all the same."""
        try:
            self.report.save()
            self.report_unsaved = False
        except OSError as error:
            if not self.report_unsaved:
                self.print_message(f"{error.filename}: {error.strerror or error}")
            self.report_unsaved = True

    def clean_one(self, number: int, path: str) -> Tuple[Result, float]:
        """Cleans a scan, writes what is asked for, and gives the result with the seconds that the rounds took."""
        self.progress.show(number, path, "reading")
        scan = read_scan(path, self.print_message)
        require_same_size(self.weights, scan)
        outputs = self.reserve_outputs(path)
        options, codes = self.options, scan.codes
        estimate = estimate_seconds(codes, options.quick, options.steady) if self.progress.enabled else 1.0
        result, seconds = run_in_thread(
            lambda: clean(codes, options.weight, options.box, options.quick, options.steady, self.weights),
            lambda elapsed: self.progress.show(number, path, format_share(elapsed, estimate)))
        self.progress.show(number, path, "writing")
        encoders = {"scan": lambda: scan.encode(result.codes(scan.maxval)), "flow": lambda: _npy_bytes(result.flow.flat),
                    "picture": lambda: _picture_png(result)}
        write_atomically({output: encoders[kind]() for kind, output in outputs.items()})
        return result, seconds

    def print_message(self, text: str) -> None:
        """One line on standard error, in place of the line of progress."""
        self.progress.clear()
        print_message(text)

    def reserve_outputs(self, path: str) -> Dict[str, str]:
        """The files to be written for a scan: none that is read, nor one that is written for another."""
        name = os.path.basename(path)
        stem = os.path.splitext(name)[0]
        names = {"scan": name}
        if self.options.save_flow:
            names["flow"] = f"{stem}.flow.npy"
        if self.options.picture:
            names["picture"] = f"{stem}.picture.png"
        outputs = {kind: os.path.join(self.options.output, name) for kind, name in names.items()}
        for output in outputs.values():
            real_path = os.path.realpath(output)
            if real_path in self.input_paths:
                raise ValueError(f"not cleaned, for {output} would replace a picture that is read: name another folder")
            if real_path in self.output_paths:
                raise ValueError(f"not cleaned, for {output} is the report or another scan's: clean it into another folder")
        self.output_paths |= _real_paths(outputs.values())
        return outputs


def _real_paths(paths: Iterable[Optional[str]]) -> Set[str]:
    """Where the files are, by whatever name; None is no file."""
    return {os.path.realpath(path) for path in paths if path is not None}


def _picture_png(result: Result) -> bytes:
    logging.getLogger("matplotlib").setLevel(logging.ERROR)  # where it keeps its cache is nothing to tell
    from ..plots import render_png
    return render_png(result)


def _npy_bytes(array: np.ndarray) -> memoryview:
    file = io.BytesIO()
    np.save(file, array)
    return file.getbuffer()
