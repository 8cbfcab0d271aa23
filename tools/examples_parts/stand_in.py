#!/usr/bin/env -S python3 -B
"""Stands for cookie_jar in tools/test_tools, for the scripts and lines of calls.py.

STAND_IN names a fault: `careless` takes a failed read for the end, `rereads` and `rewrites` repeat a failed call, `loses` loses
the last line of its output, `late` writes at the end, `single` writes a line at a time."""
import os
import sys

sys.path.append(os.path.dirname(os.path.dirname(os.path.abspath(__file__))))
from examples_parts.conversions import LIST  # noqa: E402

FAULT = os.environ.get('STAND_IN')
CHUNK = 4096


def stop(message):
    print(f'cookie_jar: {message}', file=sys.stderr)
    sys.exit(1)


def read():
    """The bytes of one read."""
    try:
        return os.read(0, CHUNK)
    except OSError:
        if FAULT == 'rereads':
            os.read(0, CHUNK)
        return b'' if FAULT == 'careless' else stop('read failed')


def write_once(output):
    """How many bytes one write takes, none if it fails."""
    try:
        return os.write(1, output)
    except OSError:
        return 0


def write(output):
    while output:
        taken = write_once(output)
        if taken == 0 and FAULT == 'rewrites':
            write_once(output)
        output = output[taken:] if taken else stop('write failed')


def reply(stored, line):
    """What a line prints. The cookies are by host, path and name."""
    verb, _, rest = line.partition(' ')
    host = rest.partition('://')[2].partition('/')[0]
    if verb == 'set':
        pair, _, path = rest.partition(' ')[2].partition('; Path=')
        name, _, value = pair.partition('=')
        key = (host, path or '/', name)
        is_new = key not in stored
        stored[key] = value
        return 'inserted\n' if is_new else 'updated\n'
    if verb == 'get':
        path = '/' + rest.split('/', 3)[3]
        found = sorted((key for key in stored if key[0] == host and path.startswith(key[1])), key=lambda key: key[1])
        return 'Cookie:' + ';'.join(f' {key[2]}={stored[key]}' for key in found) + '\n'
    if verb == 'list':
        return ''.join(f'{" ".join(key)}\n' for key in stored)
    return '' if verb == 'now' else 'bad line\n'


def run_script():
    stored: dict = {}
    text, output, is_open = b'', b'', True
    while is_open:
        chunk = read()
        is_open = bool(chunk)
        lines = (text + chunk).split(b'\n')
        text = lines.pop() if is_open else b''
        for line in (line for line in lines if line):
            output += reply(stored, line.decode()).encode()
            if FAULT == 'single':
                write(output)
                output = b''
        if FAULT not in ('late', 'loses'):
            write(output)
            output = b''
    write(b''.join(output.splitlines(keepends=True)[:-1]) if FAULT == 'loses' else output)


def convert():
    while read():
        pass
    write(LIST[:-1] if FAULT == 'loses' else LIST)


convert() if '--convert' in sys.argv else run_script()
