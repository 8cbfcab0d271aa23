//! Runs the lines `set URL HEADER`, `get URL`, `remove DOMAIN PATH NAME` and `clear` of a script over the Rust crate
//! `cookie_store`: a peer for tools/bench. The crate reads the system's clock, so `now` lines are skipped.
//!
//! With an argument it loads the list in that file instead, in RON if its name ends in `.ron`, else in JSON, and with a
//! second one saves it in that file.
use cookie_store::CookieStore;
use ron::ser::PrettyConfig;
use std::io::{self, BufRead, BufReader, BufWriter, Write};
use std::{env, fs};
use url::Url;

/// Parses a URL of a script. Scripts of tools/bench contain no malformed URL.
fn parse_url(text: &str) -> Url {
    Url::parse(text).expect("URL")
}

fn set(store: &mut CookieStore, words: &str, out: &mut impl Write) -> io::Result<()> {
    let (url, header) = words.split_once(' ').expect("set URL HEADER");
    match store.parse(header, &parse_url(url)) {
        Ok(_) => out.write_all(b"inserted\n"),
        Err(error) => writeln!(out, "refused: {error}"),
    }
}

fn get(store: &CookieStore, url: &str, out: &mut impl Write) -> io::Result<()> {
    out.write_all(b"Cookie:")?;
    let mut separator = " ";
    for (name, value) in store.get_request_values(&parse_url(url)) {
        for part in [separator, name, "=", value] {
            out.write_all(part.as_bytes())?;
        }
        separator = "; ";
    }
    out.write_all(b"\n")
}

fn remove(store: &mut CookieStore, words: &str, out: &mut impl Write) -> io::Result<()> {
    let mut words = words.splitn(3, ' ');
    let mut next = || words.next().expect("remove DOMAIN PATH NAME");
    let removed = store.remove(next(), next(), next());
    out.write_all(if removed.is_some() {
        b"removed\n"
    } else {
        b"none\n"
    })
}

/// Runs one line of the script.
fn run(store: &mut CookieStore, line: &str, out: &mut impl Write) -> io::Result<()> {
    let (verb, words) = line.split_once(' ').unwrap_or((line, ""));
    match verb {
        "set" => set(store, words, out),
        "get" => get(store, words, out),
        "remove" => remove(store, words, out),
        "clear" => {
            store.clear();
            out.write_all(b"cleared\n")
        }
        _ => Ok(()),
    }
}

/// The error of a list in RON.
fn ron_error(error: ron::Error) -> io::Error {
    io::Error::new(io::ErrorKind::InvalidData, error)
}

/// Parses a list in RON, or in JSON.
fn parse_list(text: &str, is_ron: bool) -> io::Result<CookieStore> {
    if is_ron {
        ron::from_str(text).map_err(ron_error)
    } else {
        Ok(serde_json::from_str(text)?)
    }
}

/// Formats a list in RON, or in JSON.
fn format_list(store: &CookieStore, is_ron: bool) -> io::Result<String> {
    if is_ron {
        ron::ser::to_string_pretty(store, PrettyConfig::default()).map_err(ron_error)
    } else {
        Ok(serde_json::to_string_pretty(store)?)
    }
}

/// Loads the list in a file, in RON if its name ends in `.ron`, else in JSON, and saves it in another if
/// one is named.
fn convert(input: &str, output: Option<&String>) -> io::Result<()> {
    let is_ron = input.ends_with(".ron");
    let store = parse_list(&fs::read_to_string(input)?, is_ron)?;
    match output {
        Some(output) => fs::write(output, format_list(&store, is_ron)? + "\n"),
        None => Ok(()),
    }
}

fn main() -> io::Result<()> {
    let words: Vec<String> = env::args().skip(1).collect();
    if let Some(input) = words.first() {
        return convert(input, words.get(1));
    }
    let mut source = BufReader::with_capacity(1 << 16, io::stdin().lock());
    let mut out = BufWriter::with_capacity(1 << 16, io::stdout().lock());
    let mut store = CookieStore::default();
    let mut line = String::new();
    while source.read_line(&mut line)? > 0 {
        run(&mut store, line.trim_end_matches(['\r', '\n']), &mut out)?;
        line.clear();
    }
    out.flush()
}
