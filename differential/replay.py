"""What crates/replay is given, and what it must write: the cases of this folder, and then the sample of the published Rust's answers."""

import pathlib

import calls
import coefficients
import fresh_sums
import large_sum
import lists
import lost_atoms
import marked_runs
import pages
import sampling
import sheets_read
import sheets_written
from telling import given


def sample():
    """In sample.txt items begin with a digit, and the answers to them with a blank."""
    for line in pathlib.Path(__file__).with_name("sample.txt").read_text().splitlines():
        if line.startswith(" "):
            print(line)
        elif not line.startswith("#"):
            given.append(line.split())


def main():
    for cases in marked_runs, fresh_sums, calls, sampling, sheets_written, sheets_read, large_sum, pages, lists, coefficients, lost_atoms:
        cases.main()
    sample()
