#!/usr/bin/env -S python3 -B
"""Runs a part of tools/examples: tests the program cookie_jar, and prints each test that fails.
Usage: tools/examples_parts/parts.py PART PROGRAM

part         what it tests
scripts      scripts and public suffix lists
arguments    arguments
conversions  lines of JSON
calls        reads and writes that fail, and when the program writes

Exit status: 0; 1 if a test fails."""
import os
import sys
import tempfile
from functools import partial

sys.path.append(os.path.dirname(os.path.dirname(os.path.abspath(__file__))))
from examples_parts import arguments, calls, conversions, scripts  # noqa: E402
from examples_parts.program import Failed, check_case  # noqa: E402

CASES = {'scripts': scripts, 'arguments': arguments, 'conversions': conversions}
FILES = {**scripts.LIST_FILES, **dict.fromkeys(arguments.FILES, arguments.LIST)}


def checks(part, program, folder):
    """The tests of a part, by their titles."""
    if part == 'calls':
        return calls.checks(program, folder)
    return ((case.title, partial(check_case, program, case, folder)) for case in CASES[part].cases())


def passes(title, check):
    """Runs a test, and prints why it fails."""
    try:
        check()
    except Failed as why:
        print(f'{title}: FAILED: {why}', flush=True)
        return False
    return True


def main():
    part, program = sys.argv[1:]
    with tempfile.TemporaryDirectory() as folder:
        for name, rules in FILES.items():
            with open(f'{folder}/{name}', 'wb') as file:
                file.write(rules)
        results = [passes(*check) for check in checks(part, os.path.realpath(program), folder)]
    sys.exit(not all(results))


main()
