"""Measures cookie_jar beside the Rust crate cookie_store and Go's net/http/cookiejar, in half an hour.
Usage: tools/bench [stores] [--write [--accept] | --only PART]

Prints the time of a set, a replaced cookie, a get and a removal, of a set under a domain limit, bytes and instructions, and how
time and instructions of hostile inputs grow. A peer that cannot be built is left out, and a line says so. --write runs the other
commands too, and writes docs/FIGURES.md before the first of them and after each. It appends the ratios, also theirs, to
docs/figures.csv. If one is below nine tenths of the last one there of the same table, row and peer on a machine of the same kind,
it prints both and writes nothing, or of the other commands appends no ratio, unless --accept is given.

Exit status: 0; 1 if a hostile input grows faster than linearly, if a peer is ahead on an idle machine, if a ratio fell so that
it was not written, or if a program fails; 2 for a wrong argument."""
import os
import sys
import tempfile

from bench_parts import history, hostile, others, programs, report
from bench_parts.measure import Meter, Task, has_gnu_time, has_valgrind, repeated
from bench_parts.report import Document, Table, number, ratio
from bench_parts.scripts import CLEAR, NOW, gets, removals, sets
from common import ARCHIVE, stop

OPTIONS = ['--program', '--archive', '--lists']
SIZES = [(cookies, per_host) for per_host in (20, 1) for cookies in (20, 1000, 100_000)]
LARGEST = (1_000_000, 20)  # not of removals, of which the Rust crate would make one in milliseconds
LIMITS, LIMITED_HOSTS, FAR_LIMIT = (50, 180), 20, 100_000
TARGET = 0.2  # seconds that a run repeats an operation
PARTS = ['times', 'memory', 'instructions', 'hostile']
NOTES = {
    'set': 'Microseconds to set a new cookie and to free it by `clear`.',
    'replace': 'Microseconds to set a cookie again.',
    'get': 'Microseconds to get the Cookie header, with all cookies of the host, of random hosts.',
    'set and remove': 'Microseconds to set a cookie and to remove it, after all are set and in random order.',
}


def tasks(cookies, per_host):
    """What is timed in stores of this size."""
    filling, again = NOW + sets(cookies, per_host), sets(cookies, per_host, 'x')
    removing = removals(cookies, per_host)
    return {
        'set': repeated('', filling + CLEAR, units=cookies),
        'replace': repeated(filling, again, units=cookies),
        'get': Task(lambda count: filling, lambda count: filling + gets(cookies, per_host, count)),
        'set and remove': repeated('', filling + removing, units=cookies),
    }


def compare(meter, measured):
    """Stops if the programs give different numbers of cookies."""
    for size in SIZES:
        meter.compare(measured, NOW + (sets(*size) + gets(*size, 20)) * 2)


def sizes(operation):
    return SIZES if operation == 'set and remove' else [*SIZES, LARGEST]


def time_operation(meter, measured, operation):
    """Microseconds by size and program name."""
    took = {}
    for size in sizes(operation):
        seconds = meter.time(measured, tasks(*size)[operation], TARGET)
        took[size] = {name: each * 1e6 for name, each in seconds.items()}
    return took


def table(title, note, first, measured, rows):
    """A table with our figures, the peers' and the ratios after the `first` columns."""
    names = [program.name for program in measured]
    heads = [*first, *names, *(f'{name} / ours' for name in names[1:])]
    lines, behind = [], []
    for cells, figures in rows:
        own, *peers = (figures[name] for name in names)
        lines.append([*cells, *map(number, (own, *peers)), *(ratio(peer, own) for peer in peers)])
        for name, peer in zip(names[1:], peers):
            behind += report.behind(', '.join([title, *lines[-1][:len(first)]]), name, peer / own if own > 0 else None)
    return Table(title, note, heads, lines, behind=behind)


def time_table(operation, took, measured):
    rows = [(map('{:,}'.format, size), figures) for size, figures in took.items()]
    return table(operation.capitalize(), NOTES[operation], ['cookies', 'per host'], measured, rows)


def limit_table(meter, own):
    """The time of a set in a store with a domain limit, beside that without."""
    def microseconds(filling, lines, units, limit=None):
        arguments = () if limit is None else ('--limit', str(limit))
        return meter.time([own], repeated(filling, lines, units=units, arguments=arguments), TARGET)[own.name] * 1e6

    rows = []
    for limit in LIMITS:
        count = LIMITED_HOSTS * limit
        filling, others = NOW + sets(count, limit), sets(count, limit, name='d')
        took = [microseconds('', filling + CLEAR, count), microseconds('', filling + CLEAR, count, FAR_LIMIT),
                microseconds(filling, others + sets(count, limit), 2 * count, limit)]
        rows.append([str(limit), *map(number, took), *(f'{each / took[0]:.2f}' for each in took[1:])])
    note = f'''Microseconds to set a new cookie at one of {LIMITED_HOSTS} hosts with as many cookies each as the first column says:
in a store without a limit, in one whose limit of {FAR_LIMIT:,} is far, and in one whose limit they are, so that each evicts another.'''
    return Table('Set under a domain limit', note, ['limit', 'without', 'far', 'at it', 'far / without', 'at it / without'], rows)


def memory_table(meter, measured):
    def peak(program, script):
        return min(meter.peak(program, script) for _ in range(3))

    rows, cookies = [], 100_000
    for per_host in (20, 1):
        filling = sets(cookies, per_host)
        figures = {program.name: (peak(program, NOW + filling) - peak(program, NOW)) / cookies for program in measured}
        rows.append(([f'{cookies:,}', str(per_host)], figures))
    note = 'Bytes a cookie: the peak of resident memory, less that of an empty store.'
    return table('Memory', note, ['cookies', 'per host'], measured, rows)


def instruction_table(meter, measured):
    cookies, count = 1000, 2000
    many, single = NOW + sets(cookies, 20), NOW + sets(cookies, 1)
    scripts = [
        ('set, 20 per host', NOW, many, cookies),
        ('set, 1 per host', NOW, single, cookies),
        ('replace, 20 per host', many, many + sets(cookies, 20, 'x'), cookies),
        ('get of 20 cookies', many, many + gets(cookies, 20, count), count),
        ('get of none', many, many + 'get http://other.org/a/b\n' * count, count),
    ]
    rows = [([name], {program.name: (meter.instructions(program, script) - meter.instructions(program, base)) / units
                      for program in measured}) for name, base, script, units in scripts]
    note = f'Instructions of one operation, store of {cookies:,} cookies, by callgrind.'
    return table('Instructions', note, ['operation'], measured, rows)


def growth_row(growth, own, *peers):
    cells = [growth.family.title, f'{growth.family.least:,}']
    for program in (own, *peers):
        times = growth.seconds.get(program.name, [])
        milliseconds = ([number(each * 1e3) for each in times] + ['-'] * 3)[:3]
        cells += milliseconds if program is own else milliseconds[2:]
        cells.append(number(hostile.exponent(times)))
        if program is own:
            cells.append(number(hostile.exponent(growth.instructions)))
    return cells


def growth_table(title, note, grown, own, *peers):
    heads = ['timed', 'n', f'{own.name} at n', '4n', '16n', 'exponent', 'exponent of instructions']
    for peer in peers:
        heads += [f'{peer.name} at 16n', 'exponent']
    return Table(title, note, heads, [growth_row(growth, own, *peers) for growth in grown])


def hostile_table(meter, own, *peers):
    finder = programs.build_collisions(meter.folder)
    families = [*hostile.LINEAR, *([hostile.colliding(finder)] if finder else [])]
    grown = hostile.measure(meter, own, *peers, families=families, steepest=hostile.STEEPEST)
    strict = programs.build_strict(meter.folder)
    if strict:
        grown += hostile.measure(meter, strict, families=hostile.STRICT, steepest=hostile.STEEPEST)
    note = f'''Milliseconds of the operation in the first column. Between 4n and 16n its time grew as n to the power of the
exponent, and its instructions, which callgrind counts, as n to the power of the exponent of instructions: 0 does not grow, 1 is linear,
2 is quadratic. Each must be linear or less: `tools/bench` fails if the exponent of the instructions of {own.name} is above
{hostile.STEEPEST_COUNT}. A time grows faster where cookies fall out of the processor's caches, and while other programs run. So its
exponent is judged only if instructions are not counted: then it must be at most {hostile.STEEPEST}, by the least times of
{hostile.ATTEMPTS} measurements. Each n is large enough that fixed costs hardly matter. A strict store is that of the C library, if it is
built. Where 16n would take too long, the exponents are those from n to 4n. `-` was not measured.'''
    result = growth_table('Hostile inputs', note, grown, own, *peers)
    result.warnings = [warning for growth in grown for warning in growth.warnings(own.name)]
    return result


def chart_panels(took, measured):
    """The bars of docs/speed.svg."""
    return [(f'{name}, {cookies:,} cookies stored',
             [(program.name, took[operation][cookies, 20][program.name]) for program in measured])
            for operation, name in (('set', 'Set'), ('get', 'Get of 20 cookies')) for cookies in (1000, 100_000)]


def measure(meter, measured, parts, took):
    """Yields the tables of the parts, and puts the times of each operation into `took`."""
    without_go = [program for program in measured if program.name != programs.GO]
    if 'times' in parts:
        compare(meter, measured)
        for operation in NOTES:
            took[operation] = time_operation(meter, measured, operation)
            yield time_table(operation, took[operation], measured)
        yield limit_table(meter, measured[0])
    if 'memory' in parts and has_gnu_time():
        yield memory_table(meter, measured)
    if 'instructions' in parts and has_valgrind():
        yield instruction_table(meter, without_go)
    if 'hostile' in parts:
        yield hostile_table(meter, *without_go)


def missing_tools():
    if not has_gnu_time():
        yield 'Memory is not measured: GNU time is not installed.'
    if not has_valgrind():
        yield 'Instructions are not counted: valgrind is not installed.'


def add_arguments(parser):
    group = parser.add_mutually_exclusive_group()
    group.add_argument('--only', choices=PARTS, help='measure this part alone')
    group.add_argument('--write', action='store_true', help='write docs/FIGURES.md and docs/speed.svg, and append to docs/figures.csv')
    parser.add_argument('--accept', action='store_true', help='write them also if a ratio fell')
    parser.set_defaults(wrong=parser.error)


def publish(document, panels, accept):
    """Writes the document and the chart, and appends the ratios, unless one fell and that is not accepted."""
    found = list(history.ratios(document.markdown()))
    check_fallen(found, accept)
    report.write_chart(panels)
    document.write()
    history.append(found)


def check_fallen(found, accept):
    """Stops if one of the ratios fell, unless that is accepted."""
    fallen = list(history.fallen(found))
    print(*fallen, sep='\n', end='\n' if fallen else '')
    if fallen and not accept:
        stop('nothing is written: --accept writes the figures as they are')


def add_others(document, variables, accept):
    """Runs the other commands, writes the document after each, and appends their ratios."""
    found = []
    for command in others.COMMANDS:
        print(command, flush=True)
        printed, ratios = others.measured(command, variables)
        document.sections.append((command, printed))
        print(printed, end='\n\n', flush=True)
        document.write()
        found += [history.ratio_of(*history.run_of(document.markdown()), command, *each) for each in ratios]
    check_fallen(found, accept)
    history.append(found)


def run(options):
    if options.accept and not options.write:
        options.wrong('--accept is for --write')
    own, load = programs.own(options.program), os.getloadavg()[0]
    with tempfile.TemporaryDirectory() as folder:
        peers, missing = programs.build(folder)
        measured = [own, *peers]
        took: dict = {}
        document = Document(report.circumstances(measured, load), [*report.busy(load), *missing, *missing_tools()])
        print(document.text(), flush=True)
        for each in measure(Meter(folder), measured, [options.only] if options.only else PARTS, took):
            print(each.text(), flush=True)
            document.tables.append(each)
    if options.write:
        publish(document, chart_panels(took, measured), options.accept)
        add_others(document, others.environment(options.program, options.archive or ARCHIVE, options.lists), options.accept)
    behind = [warning for each in document.tables for warning in each.behind]
    sys.exit(any(each.warnings for each in document.tables) or report.fails(behind, load))
