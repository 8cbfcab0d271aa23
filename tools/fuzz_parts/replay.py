"""Replays the corpus, tools/fuzz_parts/corpus, through the checks of the fuzzers.
Usage: tools/fuzz replay [--archive FILE]

A file of the corpus has the entries of a kind, in the form that corpus_files.py reads. A fuzzer that fails prints its input in this form.

kind           what checks it
scripts        tools/fuzz scripts: the script, under the public suffix list `rules` and the limit `limit`, if it has them
urls           tools/fuzz urls
suffix_lists   a script under the list, and tools/fuzz calls
cookie_lists   tools/fuzz calls: a list in a format is loaded, and what it has is saved, merged and copied; and `cookies convert`,
               which reads and writes what the C library does
cookies_txt    tools/fuzz cookies_txt, and tools/fuzz calls
calls          tools/fuzz calls

What this machine lacks is skipped, with a word. COOKIE_JAR and COOKIES name other builds of the programs. The last line is
'fuzz: N entries, passed'.

Exit status: 0; 1 at the first failure; 2 for a wrong argument."""
import tempfile

from common import COOKIES, PROGRAM, Parser, stop
from fuzz_parts import calls, cookies_txt, corpus_files, scripts, urls
from fuzz_parts.corpus_files import Failed, stop_unless_built
from fuzz_parts.library import add_archive, reason_to_skip

KINDS = ('scripts', 'urls', 'suffix_lists', 'cookie_lists', 'cookies_txt', 'calls')
UNDER_LIST = b'set http://b.a.com/ a=1; Domain=a.com\nset http://a.com/ b=2; Domain=com\nlist\nget http://b.a.com/\n'


def replay_each(kind, check):
    """Passes each entry of a kind to a function, which raises Failed if it fails."""
    for entry in corpus_files.entries(kind):
        try:
            check(entry.value)
        except Failed as fault:
            stop(f'{entry.place}: {entry.title}: {fault}')


def replay_scripts(folder):
    stop_unless_built(PROGRAM)
    replay_each('scripts', lambda script: scripts.play(PROGRAM, folder, scripts.script_of(script)))
    replay_each('suffix_lists', lambda rules: scripts.play(PROGRAM, folder, scripts.script_of({'script': UNDER_LIST, 'rules': rules})))


def replay_urls(folder, archive):
    reason = reason_to_skip('curl/curl.h')
    if reason:
        print(f'fuzz urls: skipped: {reason}')
        return
    entries = list(corpus_files.entries('urls'))
    _, lines = urls.compare((entry.value for entry in entries), folder, archive)
    if lines:
        # none has the URL if only the one that libcurl writes differs
        place = next((entry.place for entry in entries if entry.value == urls.url_of(lines[0])), 'urls.txt')
        stop(f'{place}: the hosts differ: {lines[0]}')


def replay_files(folder, archive):
    readers = cookies_txt.open_readers(folder, archive, COOKIES)
    if readers:
        replay_each('cookies_txt', lambda file: cookies_txt.check(readers, file))
        replay_each('cookie_lists', lambda entry: cookies_txt.check_list(readers, entry['list'], entry['format']))


def replay_calls(folder, archive):
    reason = reason_to_skip()
    if reason:
        print(f'fuzz calls: skipped: {reason}')
        return
    cases = list(calls.cases_of_corpus())
    passed, fault = calls.play((case for _, case in cases), folder, archive)
    if fault:
        entry, _ = cases[passed]
        stop(f'{entry.place}: {entry.title}: {fault}')


def run(words):
    parser = Parser(__doc__, 'tools/fuzz replay')
    add_archive(parser)
    options = parser.parse_args(words)
    with tempfile.TemporaryDirectory() as folder:
        replay_scripts(folder)
        replay_urls(folder, options.archive)
        replay_files(folder, options.archive)
        replay_calls(folder, options.archive)
    print(f'fuzz: {sum(len(corpus_files.values(kind)) for kind in KINDS)} entries, passed')
