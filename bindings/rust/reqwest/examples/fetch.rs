//! Gets each URL and prints the body. The unexpired cookies are kept in FILE, a list in JSON.

use std::error::Error;
use std::fs::{self, OpenOptions};
use std::io::{self, ErrorKind, Write};
use std::os::unix::fs::OpenOptionsExt;
use std::path::Path;
use std::sync::Arc;
use std::time::SystemTime;
use std::{env, process};

use pulleymaroon::{CookieStore, Format, Which};
use pulleymaroon_reqwest::SharedStore;
use reqwest::blocking::Client;

fn main() -> Result<(), Box<dyn Error>> {
    let mut arguments = env::args().skip(1);
    let file = arguments.next().ok_or("usage: fetch FILE URL..")?;
    let store = Arc::new(SharedStore::new(load(Path::new(&file))?));
    let client = Client::builder().cookie_provider(store.clone()).build()?;
    let fetched = arguments.try_for_each(|url| print_body(&client, &url));
    // After an error too, the cookies that were received are saved.
    let now = SystemTime::now();
    let list = store.lock().to_text(Format::Json, Which::Unexpired, now)?;
    save(Path::new(&file), &list)?;
    Ok(fetched?)
}

fn print_body(client: &Client, url: &str) -> reqwest::Result<()> {
    println!("{}", client.get(url).send()?.text()?);
    Ok(())
}

/// Returns a store with the cookies of the file, if there is one.
fn load(file: &Path) -> Result<CookieStore, Box<dyn Error>> {
    let list = match fs::read_to_string(file) {
        Err(error) if error.kind() == ErrorKind::NotFound => return Ok(CookieStore::new()?),
        list => list?,
    };
    let now = SystemTime::now();
    let store = CookieStore::from_text(&list, Format::Json, Which::Unexpired, now)?;
    Ok(store)
}

/// Replaces the file at once. Only its owner can read it.
fn save(file: &Path, list: &str) -> io::Result<()> {
    let new = file.with_extension(format!("new{}", process::id()));
    let mut options = OpenOptions::new();
    let mut output = options
        .write(true)
        .create_new(true)
        .mode(0o600)
        .open(&new)?;
    let saved = output
        .write_all(list.as_bytes())
        .and_then(|()| output.sync_all())
        .and_then(|()| fs::rename(&new, file));
    if saved.is_err() {
        let _ = fs::remove_file(&new);
    }
    saved
}
