#!/usr/bin/env -S python3 -B
"""Compares bindings/c/abi.txt, what the ABI promises, with bindings/c/cookie_store.h: the functions, the numbers of the enums and
the members of the structs, each on a line.
Usage: tools/bindings_parts/abi.py [--write]

Once a version is released, lines are only added.
Exit status: 0; 1 if they differ, unless --write writes the file."""
import difflib
import re
import sys

from manual import declarations, read, read_header

PATH = 'bindings/c/abi.txt'


def main():
    header = read_header()
    numbers = re.findall(r'\bCOOKIE_STORE_\w+ = \d+', header)
    members = [f'{name}: {member}' for name, body in re.findall(r'^typedef (struct \w+) \{(.*?)\}', header, re.S | re.M)
               for member in re.findall(r'\w[^;]*(?=;)', body)]
    functions = declarations(re.sub(r'^static inline .*?^\}', '', header, flags=re.S | re.M))
    lines = [f'{line}\n' for line in (*numbers, *members, *functions)]
    if sys.argv[1:] == ['--write']:
        with open(PATH, 'w', encoding='utf-8') as file:
            file.writelines(lines)
    listed = read(PATH).splitlines(keepends=True)
    sys.stdout.writelines(difflib.unified_diff(listed, lines, PATH, 'bindings/c/cookie_store.h', n=0))
    sys.exit(listed != lines)


main()
