//! `plain [FILE]`: reads a trace from FILE or standard input, writes its lines.
//! `plain --filled [FILE]`: the same in filled mode, oracle/README.md.
//! `plain --states [FILE]`: the same of cases, which oracle/states.py makes.

use std::io::{Read, Write};
use std::process::exit;

fn fail(message: &str) -> ! {
    eprintln!("plain: {message}");
    exit(2);
}

fn read(file: Option<&str>) -> std::io::Result<Vec<u8>> {
    match file {
        Some(path) => std::fs::read(path),
        None => {
            let mut bytes = Vec::new();
            std::io::stdin().read_to_end(&mut bytes).map(|_| bytes)
        }
    }
}

fn main() {
    let arguments: Vec<String> = std::env::args().skip(1).collect();
    let words: Vec<&str> = arguments.iter().map(String::as_str).collect();
    let (play, rest): (fn(&[u8]) -> String, &[&str]) = match words.as_slice() {
        ["--states", rest @ ..] => (plain::states::cases::run, rest),
        ["--filled", rest @ ..] => (plain::filled::run, rest),
        rest => (|bytes| plain::trace::run(bytes, |_| {}), rest),
    };
    if rest.len() > 1 || rest.iter().any(|argument| argument.starts_with('-')) {
        fail("usage: plain [--filled | --states] [FILE]");
    }
    let file = rest.first().copied();
    let bytes = match read(file) {
        Ok(bytes) => bytes,
        Err(error) => fail(&format!("cannot read {}: {error}", file.unwrap_or("standard input"))),
    };
    if std::io::stdout().write_all(play(&bytes).as_bytes()).is_err() {
        fail("cannot write the lines to standard output");
    }
}
