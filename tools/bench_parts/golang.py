"""Times calls of a jar of Go, of one goroutine and of 16 that share a jar, split into shards or not, beside net/http/cookiejar."""
import os
import re
import shutil
import subprocess

from bench_parts import report
from common import ROOT

BENCHMARK = re.compile(r'^Benchmark(Calls|SharedJar)/(\S+?)(?:-\d+)?\s+\d+\s+([\d.]+) ns/op', re.M)
OWN, PEER = 'Jar', 'cookiejar'
RUNS = 3
LEAST_SET = 1 / 1.5  # the least ratio of SetCookies, which parses each header value; cookiejar takes what net/http parsed


def measure_go(folder, prefix):
    """The seconds of each call, the least of three runs, of one goroutine and of 16, by their names; none without Go.

    Each run has all jars, since the speed of a machine changes.
    """
    calls: dict[str, float] = {}
    shared: dict[str, float] = {}
    if not shutil.which('go'):
        print('Go is not measured: it is not there.')
        return calls, shared
    package = shutil.copytree(f'{ROOT}/bindings/go', f'{folder}/go')
    environment = {**os.environ, 'PKG_CONFIG_PATH': f'{prefix}/lib/pkgconfig', 'LD_LIBRARY_PATH': f'{prefix}/lib'}
    command = ['go', 'test', '-count', '1', '-run', '^$', '-bench', 'Calls|SharedJar', '.']
    printed = [subprocess.run(command, cwd=package, env=environment, check=True, stdout=subprocess.PIPE, text=True).stdout
               for _ in range(RUNS)]
    for group, name, nanoseconds in BENCHMARK.findall('\n'.join(printed)):
        times = calls if group == 'Calls' else shared
        times[name] = min(times.get(name, float('inf')), float(nanoseconds) / 1e9)
    return calls, shared


def print_calls(calls, rows):
    """Prints the table of one goroutine, with these rows of keys and names, and returns where the jar is behind cookiejar."""
    behind = []
    print('Go, microseconds'.ljust(38) + ''.join(name.rjust(15) for name in (OWN, PEER, 'ratio')))
    for key, name in rows:
        own, peer = calls[f'{OWN}/{key}'], calls[f'{PEER}/{key}']
        print(name.ljust(38) + f'{own * 1e6:15.2f}{peer * 1e6:15.2f}{peer / own:15.2f}')
        least = report.SLOWEST if key.startswith('get') else LEAST_SET
        behind += report.behind(f'Go, {name}', PEER, peer / own, least)
    return behind


def print_shared(shared):
    """Prints the table of 16 goroutines, and returns whether the jar of the most shards is behind cookiejar."""
    names = list(shared)
    print('Go, 16 goroutines, a second'.ljust(38) + ''.join(name.rjust(15) for name in names))
    print('calls'.ljust(38) + ''.join(f'{1 / shared[name]:,.0f}'.rjust(15) for name in names))
    print('ratios'.ljust(38) + ''.join(f'{shared[PEER] / shared[name]:.2f}'.rjust(15) for name in names))
    most = names[names.index(PEER) - 1]
    return report.behind(f'Go, 16 goroutines, {most}', PEER, shared[PEER] / shared[most])
