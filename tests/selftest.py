"""Asserts the model against document 01's desk examples W1 to W12, against the readings of docs/DECISIONS.md and against
worked cases of the requests of document 02 that have landed.

Run it as a program; it prints how many assertions held, and fails at the first that does not. `|` is the byte 1. The
cases stand in tests/worked, a file for each section.
"""
import sys

sys.dont_write_bytecode = True

import model
from worked import (basics, calls, decimals, desk, duplicates, frames, gaps, kinds, lines, replays, report_lines, reporting,
                    reports, reports_in, rules, sequence, store_lines, stores, sums, verdicts, waiting, writer, zeros)

CASES = [desk, frames, verdicts, kinds, waiting, rules, calls, writer, lines]
OF_REQUESTS = {1: [decimals, reports, reports_in, reporting, report_lines], 2: [sums], 3: [zeros],
               4: [stores, replays, store_lines], 5: [gaps], 6: [duplicates], 10: [sequence]}


def main():
    for cases in CASES + [cases for request in model.LANDED for cases in OF_REQUESTS[request]]:
        for name, test in vars(cases).items():
            if name.startswith("test_"):
                test()
    print(f"{basics.HELD} assertions hold")


if __name__ == "__main__":
    main()
