"""Runs the four fuzzers, each for a fourth of the time.
Usage: tools/fuzz all [--seconds N] [--seed N]

They are scripts, urls, cookies_txt and calls, whose --help says what they try. It stops at the first failure. The seed is printed:
the same one makes the same input. COOKIE_JAR, COOKIES and COOKIE_STORE_ARCHIVE name other builds. The last line is 'fuzz all:
passed'.

Exit status: 0; 1 after a failure; 2 for a wrong argument."""
from common import Parser
from fuzz_parts import calls, cookies_txt, scripts, urls
from fuzz_parts.library import add_run

FUZZERS = [scripts, urls, cookies_txt, calls]


def run(words):
    parser = Parser(__doc__, 'tools/fuzz all')
    add_run(parser, 240)
    options = parser.parse_args(words)
    for fuzzer in FUZZERS:
        fuzzer.run(['--seconds', str(options.seconds / len(FUZZERS)), '--seed', str(options.seed)])
    print('fuzz all: passed')
