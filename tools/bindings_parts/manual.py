#!/usr/bin/env -S python3 -B
"""Compares docs/cookie_store.3 with bindings/c/cookie_store.h and bindings/c/README.md: the declarations, each function and
each status described once, the version, and the example.
Usage: tools/bindings_parts/manual.py

Exit status: 0; 1 if they differ."""
import difflib
import re
import sys


def read(path):
    with open(path, encoding='utf-8') as file:
        return file.read()


def read_header():
    """The header without comments."""
    return re.sub(r'/\*.*?\*/', '', read('bindings/c/cookie_store.h'), flags=re.S)


def section(page, name):
    """The lines under a heading."""
    [text] = re.findall(rf'^\.SH {name}\n(.*?)(?=^\.SH |\Z)', page, re.S | re.M)
    return text.replace('\\-', '-').replace('\\e', '\\').rstrip().split('\n')


def printed(lines):
    return [line for line in lines if not line.startswith('.')]


def declarations(text):
    """The functions of C that a text without comments declares, each on one line, sorted."""
    types = r'enum \w+|void|size_t|bool|const char \*'
    found = re.findall(rf'^(?:static inline )?((?:{types})\s*\bcookie_store_\w+\([^()]*\))', text, re.M)
    return sorted(re.sub(r'\s+', ' ', each).replace('* ', '*') for each in found)


def same(what, page, wanted):
    """Whether two lists of lines are the same. Prints how they differ."""
    print(*difflib.unified_diff(wanted, page, what, 'docs/cookie_store.3', lineterm='', n=0), sep='\n', end='')
    return page == wanted and len(wanted) > 0


def main():
    page = read('docs/cookie_store.3')
    header = read_header()
    program = re.findall(r'```c\n(.*?)\n```', read('bindings/c/README.md'), re.S)[0].split('\n')
    functions = declarations(header)
    names = sorted(re.findall(r'\w+(?=\()', function)[0] for function in functions)
    texts = dict(re.findall(r'case COOKIE_STORE_(\w+): return "(.*)";', header))
    [values] = re.findall(r'enum cookie_store_status \{(.*?)\}', header, re.S)
    numbers = re.findall(r'COOKIE_STORE_(\w+) = (\d+)', values)
    statuses = [f'{int(number):2}  {name:23}  {texts.get(name)}' for name, number in numbers]
    version = '.'.join(re.findall(r'#define COOKIE_STORE_VERSION_\w+ (\d+)', header))
    tags = [line[4:-3] for line in section(page, 'DESCRIPTION') if re.fullmatch(r'\.BR cookie_store_\w+ \(\)', line)]
    passed = [
        same('declarations', declarations('\n'.join(printed(section(page, 'SYNOPSIS')))), functions),
        same('functions', sorted(tags), names),
        same('statuses', [line for line in section(page, 'RETURN VALUES') if re.match(r' ?\d+  ', line)], statuses),
        same('version', re.findall(r'^\.TH .*"Pulleymaroon ([^"]*)"', page), [version]),
        same('example', printed(section(page, 'EXAMPLES')), program),
    ]
    sys.exit(not all(passed))


if __name__ == '__main__':
    main()
