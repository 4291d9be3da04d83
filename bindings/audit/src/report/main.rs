//! Reads logs of `mysql-audit`, and writes a page about them.
//!
//! ```text
//! audit-report LOG .. [--top N] [--texts N] [--by-text] [--examples] [--output FILE]
//! ```
//!
//! The logs have lines of JSON; `-` is standard input. The page has so many statements (`--top`, 500).
//! Statements are the same where their digests are, or their whole texts (`--by-text`). So many
//! different ones are counted each by itself (`--texts`, 100000). Its status is 1 where a log can't
//! be read or nothing of it is a line, and 2 for words that it doesn't know.

mod json;
mod page;
mod sums;
#[allow(dead_code)] // (the proxy writes times, too)
#[path = "../texts.rs"]
mod texts;

use std::env;
use std::fs::{self, File};
use std::io::{self, BufRead, BufReader, Write};
use std::path::PathBuf;
use std::process::ExitCode;
use sums::{Manner, Sums};

const USAGE: &str = "usage: audit-report LOG .. [OPTIONS]\n\
\n\
A page of HTML about logs of `mysql-audit --json`; `-` is standard input.\n\
\n\
\x20 --top N        how many statements the page has, those that took longest in all: 500\n\
\x20 --texts N      how many different statements are counted each by itself: 100000\n\
\x20 --by-text      statements are the same where their whole texts are, not their digests\n\
\x20 --examples     the text of the slowest one of each statement, too\n\
\x20 --output FILE  where the page is written; standard output without it";

struct Words {
    logs: Vec<String>,
    top: usize,
    manner: Manner,
    output: Option<PathBuf>,
}

impl Words {
    fn of(mut words: impl Iterator<Item = String>) -> Option<Words> {
        let mut all = Words {
            logs: Vec::new(),
            top: 500,
            manner: Manner {
                most: 100_000,
                by_text: false,
                examples: false,
            },
            output: None,
        };
        while let Some(word) = words.next() {
            match word.as_str() {
                "--top" => all.top = words.next()?.parse().ok()?,
                "--texts" => all.manner.most = words.next()?.parse().ok()?,
                "--by-text" => all.manner.by_text = true,
                "--examples" => all.manner.examples = true,
                "--output" => all.output = Some(words.next()?.into()),
                name if name.starts_with("--") => return None,
                _ => all.logs.push(word),
            }
        }
        (!all.logs.is_empty()).then_some(all)
    }
}

/// Takes all lines of a log.
fn read(sums: &mut Sums, log: impl io::Read) -> io::Result<()> {
    let (mut log, mut line) = (BufReader::with_capacity(1 << 17, log), Vec::new());
    while log.read_until(b'\n', &mut line)? > 0 {
        sums.take(line.trim_ascii_end());
        line.clear();
        line.shrink_to(1 << 20);
    }
    Ok(())
}

fn run(words: Words) -> Result<bool, String> {
    let mut sums = Sums::new(words.manner);
    for log in &words.logs {
        let is_read = match log.as_str() {
            "-" => read(&mut sums, io::stdin().lock()),
            name => File::open(name).and_then(|file| read(&mut sums, file)),
        };
        is_read.map_err(|error| format!("{log}: {error}"))?;
    }
    let is_log = sums.lines > sums.unread;
    let html = page::page(sums, words.manner, words.top, &words.logs);
    let written = match &words.output {
        Some(file) => fs::write(file, html),
        None => io::stdout().write_all(html.as_bytes()),
    };
    written.map_err(|error| format!("the page can't be written: {error}"))?;
    Ok(is_log)
}

fn main() -> ExitCode {
    if env::args().skip(1).any(|word| word == "--help") {
        println!("{USAGE}");
        return ExitCode::SUCCESS;
    }
    let Some(words) = Words::of(env::args().skip(1)) else {
        eprintln!("{USAGE}");
        return ExitCode::from(2);
    };
    match run(words) {
        Ok(true) => ExitCode::SUCCESS,
        Ok(false) => {
            eprintln!("nothing of it is a line of `mysql-audit --json`");
            ExitCode::FAILURE
        }
        Err(why) => {
            eprintln!("{why}");
            ExitCode::FAILURE
        }
    }
}
