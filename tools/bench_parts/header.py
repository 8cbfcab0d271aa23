"""Times the Cookie header of a request for 20 cookies, of one path and of two in turn.
Usage: tools/bench header [--lists FOLDER]

Prints instructions and microseconds of processor time for a header written by hand from the cookies of `matches`, in the
store's order, and for `cookie_header`, in the order of RFC 6265 5.4, and the ratio. The four programs are proved and
built in a copy of the repository, in ten minutes. Needs valgrind.

Exit status: 0; 1 if a program fails or is not proved."""
import tempfile

from bench_parts.built import built
from bench_parts.measure import instructions
from common import processor_seconds

OPTIONS = ['--lists']
REPEATS, ROUNDS = 20_000, 5
SHAPES = {'one path': '/', 'two paths in turn': '/a'}
WAYS = {
    'by_hand': '''    let mut header = String::new(alloc);
    for cookie in store.matches(page, now)? {
        if !header.is_empty() {
            header.push_str("; ")?;
        }
        header.push_str(cookie.name())?;
        header.push('=')?;
        header.push_str(cookie.value())?;
    }
    Ok(header)''',
    'in_order': '''    let header = store.cookie_header(page, now)?;
    Ok(header.unwrap_or(String::new(alloc)))''',
}
SOURCE = '''//! Makes the Cookie header of 20 cookies many times.
#![tactic(auto)]

use cookie_store::{CookieStore, Error};
use jiff::civil::{DateTime, date};
use std::alloc::Global;
use url::{ParseError, Url};

fn header(alloc: Global, store: &CookieStore, page: &Url, now: DateTime) -> Result<String, Error> {
WAY
}

fn url_of(alloc: Global, text: &str) -> Result<Url, Error> {
    match Url::parse(alloc, text) {
        Ok(url) => Ok(url),
        Err(ParseError::OutOfMemory) => Err(Error::Memory),
        Err(error) => Err(Error::Other(error.to_string(alloc)?)),
    }
}

fn filled(alloc: Global, page: &Url, now: DateTime) -> Result<CookieStore, Error> {
    let mut store = CookieStore::new(alloc);
    for number in 0..20 {
        let path = if number % 2 == 0 { "/" } else { "OTHER" };
        let text = format!(in alloc; "name{number}=value{number}; Path={path}")?;
        store.parse(text.as_str(), page, now)?;
    }
    Ok(store)
}

fn run(rt: &HostRuntime) -> Result<(), Error> {
    let (alloc, now) = (rt.alloc(), date(2026, 1, 1).at(0, 0, 0, 0));
    let page = url_of(alloc, "http://www.example.com/a/b")?;
    let store = filled(alloc, &page, now)?;
    let mut bytes = 0u64;
    for _ in 0..REPEATS {
        bytes = bytes.wrapping_add(header(alloc, &store, &page, now)?.len() as u64);
    }
    println!(rt; "{bytes}").map_err(|_| Error::Io)
}

fn main(rt: HostRuntime) -> Result<(), Error> {
    run(&rt)
}
'''


def source_of(way, other):
    return SOURCE.replace('WAY', WAYS[way]).replace('REPEATS', str(REPEATS)).replace('OTHER', other)


def add_arguments(parser):
    pass


def microseconds(command):
    """The least processor time of several runs, of one header."""
    return min(processor_seconds([command]) for _ in range(ROUNDS)) / REPEATS * 1e6


def run(options):
    with tempfile.TemporaryDirectory() as folder:
        sources = {(shape, way): source_of(way, other) for shape, other in SHAPES.items() for way in WAYS}
        names = {key: f'header_{key[1]}_{key[0].partition(" ")[0]}' for key in sources}
        found = built(folder, options.lists, {names[key]: source for key, source in sources.items()})
        for shape in SHAPES:
            paths = [found[names[shape, way]] for way in WAYS]
            counts, times = [instructions([path]) / REPEATS for path in paths], [microseconds(path) for path in paths]
            print(f'{shape}: {counts[0]:,.0f} instructions and {times[0]:.2f} us by hand,'
                  f' {counts[1]:,.0f} and {times[1]:.2f} us by cookie_header;'
                  f' {counts[1] / counts[0]:.2f} and {times[1] / times[0]:.2f} times that')
