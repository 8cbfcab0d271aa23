"""Measures lists of saved cookies: loads a list of each number of COOKIES, in JSON and in RON, and saves it again.
Usage: tools/bench lists [--lists FOLDER] COOKIES..

Prints a table: for loading, and for saving what was loaded, microseconds of processor time, in the least of some runs
in turn, and instructions per cookie, and for both together the bytes per cookie at the peak of resident memory, beside
those of the Rust crate, with serde_json and with ron, and of Python's json, which makes no store. The programs are
proved and built in a copy of the repository, in ten minutes.

Exit status: 0; 1 if a program fails or is not proved, or saves another list, or if the Rust crate is ahead on an idle
machine, or needs less memory by more than a sixth."""
import json
import os
import subprocess
import tempfile
import time

from bench_parts import programs, report
from bench_parts.built import built
from bench_parts.measure import GNU_TIME, Runs, has_gnu_time, has_valgrind, instructions, settle
from common import processor_seconds, read, stop

OPTIONS = ['--lists']
COLUMNS = ['load, us', 'save, us', 'load, instructions', 'save, instructions', 'bytes']
MOST_MEMORY = 1.2  # times the Rust crate's memory
SOURCE = '''//! Loads the list in a file into a store, and saves it in another.
#![tactic(auto)]

use cookie_store::device::Counted;
use cookie_store::{Error, serde};
use jiff::civil::date;
use std::fs;

fn run(rt: &HostRuntime) -> Result<(), Error> {
    let read = fs::open(rt, "list.FORM").map_err(|_| Error::Io)?;
    let now = date(2026, 1, 1).at(0, 0, 0, 0);
    let store = serde::FORM::load_all(rt.alloc(), &mut Counted::new(read), now)?;
    SAVE
}

fn main(rt: HostRuntime) -> Result<(), Error> {
    run(&rt)
}
'''


SAVES = {
    'load': 'drop(store);\n    Ok(())',
    'both': 'let written = fs::create(rt, "saved.FORM").map_err(|_| Error::Io)?;\n'
            '    serde::FORM::save_incl_expired_and_nonpersistent(&store, &mut Counted::new(written))',
}


def cookie(number):
    """The host and the header value of a cookie."""
    return f'h{number // 20}.com', f'c{number % 20}={number}; Secure; Expires=Tue, 03 Aug 2100 00:38:37 GMT'


def tree(number):
    host, header = cookie(number)
    return {
        'domain': {'HostOnly': host},
        'expires': {'AtUtc': '2100-08-03T00:38:37Z'},
        'path': ['/', False],
        'raw_cookie': header,
    }


def write_json(path, cookies):
    with open(path, 'w') as file:
        json.dump([tree(number) for number in range(cookies)], file, indent=2)
        file.write('\n')


def write_ron(path, cookies):
    with open(path, 'w') as file:
        file.write('[\n')
        for number in range(cookies):
            host, header = cookie(number)
            file.write(f'    (\n        raw_cookie: "{header}",\n        path: ("/", false),\n'
                       f'        domain: HostOnly("{host}"),\n        expires: AtUtc("2100-08-03T00:38:37Z"),\n    ),\n')
        file.write(']\n')


WRITERS = {'json': write_json, 'ron': write_ron}


def write_one(form, folder):
    """A list of one cookie, for the run that a build ends with."""
    WRITERS[form](os.path.join(folder, f'list.{form}'), 1)


def python(folder):
    """The seconds in which Python's json reads the list, and writes it with the same indents."""
    begun = time.process_time()
    with open(os.path.join(folder, 'list.json')) as file:
        loaded = json.load(file)
    middle = time.process_time()
    with open(os.path.join(folder, 'python.json'), 'w') as written:
        json.dump(loaded, written, indent=2)
        written.write('\n')
    return middle - begun, time.process_time() - middle


def is_same(folder, *names):
    return len({read(os.path.join(folder, name)) for name in names}) == 1


def peak(command, folder):
    """Bytes of resident memory at the peak, by a small parent, since a child begins with its parent's peak."""
    line = ' '.join(['exec', GNU_TIME, '-f', '%M', *command])
    done = subprocess.run(['/bin/sh', '-c', line], cwd=folder, stdout=subprocess.DEVNULL, stderr=subprocess.PIPE, check=True)
    return int(done.stderr.split()[-1]) * 1024


def times(commands, folder, cookies):
    """Microseconds of a load and of a save by each program: a save is what both take less a load."""
    def runs(of_program):
        return Runs(lambda: [processor_seconds(of_program[part], cwd=folder) for part in SAVES])

    by_name = {name: runs(of_program) for name, of_program in commands.items()}
    settle(by_name.values())
    for name, each in by_name.items():
        load, both = (seconds * 1e6 / cookies for seconds in each.best)
        yield name, [load, both - load]


def figures(commands, folder, form, cookies):
    """Instructions of a load and of a save of a program, and bytes of both."""
    cells: list = ['-'] * 3
    if has_valgrind():
        load, both = (instructions(commands[part], cwd=folder) / cookies for part in SAVES)
        cells[:2] = [load, both - load]
    if has_gnu_time():
        WRITERS[form](os.path.join(folder, f'list.{form}'), 1)
        least = peak(commands['both'], folder)
        WRITERS[form](os.path.join(folder, f'list.{form}'), cookies)
        cells[2] = (peak(commands['both'], folder) - least) / cookies
    return cells


def measured(found, peer, folder, form, cookies):
    """The cells of each program by its name."""
    commands = {'cookie_store': {part: [found[f'{part}_{form}']] for part in SAVES}}
    if peer:
        load = [*peer.command, f'list.{form}']
        commands[peer.name] = {'load': load, 'both': [*load, f'peer.{form}']}
    return {name: [*took, *figures(commands[name], folder, form, cookies)] for name, took in times(commands, folder, cookies)}


def ahead(list_name, cells, theirs):
    """Warnings of the figures in which the Rust crate is ahead."""
    for name, own, other in zip(COLUMNS, cells, theirs):
        if not isinstance(own, str) and own > 0:
            allowed = MOST_MEMORY if name == 'bytes' else 1
            yield from report.behind(f'{list_name}, {name}', programs.RUST, other * allowed / own)


def row(cookies, form, name, cells):
    texts = [cell if isinstance(cell, str) else f'{cell:,.2f}' if at in (0, 1) else f'{cell:,.0f}' for at, cell in enumerate(cells)]
    return ' | '.join([f'| {cookies:,}', form, name, *texts]) + ' |'


def add_arguments(parser):
    parser.add_argument('COOKIES', type=int, nargs='+')


def run(options):
    behind, load = [], os.getloadavg()[0]
    with tempfile.TemporaryDirectory() as folder:
        sources = {f'{part}_{form}': SOURCE.replace('SAVE', SAVES[part]).replace('FORM', form) for form in WRITERS for part in SAVES}
        found = built(folder, options.lists, sources, lambda name, folder: write_one(name.rpartition('_')[2], folder))
        try:
            peer = programs.build_rust(folder)
        except programs.Missing as why:
            peer = None
            print(f'{programs.RUST} is not measured: {why}.\n')
        print(f'| cookies | form | by | {" | ".join(COLUMNS)} |')
        print('| ---: | --- | --- | ---: | ---: | ---: | ---: | ---: |')
        for cookies in options.COOKIES:
            for form, writer in WRITERS.items():
                writer(os.path.join(folder, f'list.{form}'), cookies)
                rows = measured(found, peer, folder, form, cookies)
                for name, cells in rows.items():
                    print(row(cookies, form, name, cells), flush=True)
                if peer:
                    behind += ahead(f'{cookies:,} cookies in {form.upper()}', *rows.values())
            took = [seconds / cookies * 1e6 for seconds in python(folder)]
            print(row(cookies, 'json', "Python's json", [*took, '-', '-', '-']), flush=True)
            if not is_same(folder, 'saved.json', 'python.json') or not is_same(folder, 'list.ron', 'saved.ron'):
                stop('another list was saved than was loaded')
    report.exit_after(behind, load)
