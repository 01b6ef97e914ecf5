#!/usr/bin/env python3
"""What crates/tests_machine has to print, by a plain model of a run.

Without words it writes the files of random steps and crates/tests_machine/stdout anew. With --check it compares them."""
import sys

from case_files import printed_by, settle
from machine_run import printed
from machine_steps import random_files


def main(words):
    settle([(f"crates/tests_machine/data/{name}", text) for name, text in random_files().items()], words)
    settle([("crates/tests_machine/stdout", printed_by("tests_machine", printed))], words)


if __name__ == "__main__":
    main(sys.argv[1:])
