"""Times `cookie_jar --convert`: lines of JSON, of 20 cookies a host, become a list in RON.
Usage: tools/bench convert LINES..

Prints microseconds of processor time a line, and the bytes at the peak less those of an empty input, for each number of
LINES; then the same for as many lines of one cookie. Needs GNU time (Debian's package time).

Exit status: 0; 1 if the program fails."""
import tempfile

from bench_parts import programs
from bench_parts.measure import Meter, has_gnu_time
from bench_parts.scripts import saved_lines
from common import stop

OPTIONS = ['--program']


def add_arguments(parser):
    parser.add_argument('LINES', type=int, nargs='+')


def run(options):
    program = programs.own(options.program)
    if not has_gnu_time():
        stop('GNU time is not installed')
    with tempfile.TemporaryDirectory() as folder:
        def convert(text):
            return Meter(folder).seconds_and_peak(program, text, ['--convert'])

        _, empty = convert('')
        for lines in options.LINES:
            seconds, peak = convert(saved_lines(lines))
            _, alone = convert(saved_lines(lines, is_one_key=True))
            print(f'{lines} lines: {seconds / lines * 1e6:.2f} us a line, {(peak - empty) / lines:.0f} bytes a cookie;'
                  f' of one cookie {max(0, alone - empty) / 1024:.0f} KB more than of none')
