"""Times cookie_jar and Python's http.cookiejar on one script, in seconds of processor time.
Usage: tools/bench requests [HOSTS COOKIES GETS]

Each of HOSTS hosts sets COOKIES cookies, and GETS requests go to the hosts in turn: 50, 20 and 20000 by default.

Exit status: 0; 1 if the two give different cookies, or one fails."""
import tempfile

from bench_parts import programs
from bench_parts.measure import Meter
from bench_parts.scripts import NOW, gets_in_turn, sets

OPTIONS = ['--program']


def add_arguments(parser):
    for name, default in (('HOSTS', 50), ('COOKIES', 20), ('GETS', 20_000)):
        parser.add_argument(name, type=int, nargs='?', default=default)


def run(options):
    hosts, cookies, gets, domain = options.HOSTS, options.COOKIES, options.GETS, 'example.com'
    script = NOW + sets(hosts * cookies, cookies, domain=domain) + gets_in_turn(hosts, gets, domain)
    compared = [programs.own(options.program), programs.python_jar()]
    print(f'{hosts} hosts with {cookies} cookies each, {gets} gets')
    with tempfile.TemporaryDirectory() as folder:
        meter = Meter(folder)
        meter.compare(compared, script)
        for program in compared:
            print(f'{program.name}: {meter.once(program, script):.3f} s')
