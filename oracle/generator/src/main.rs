//! `generate`: inputs for the replay program and lines for the records command.

use generator::Sort;
use std::io;
use std::io::Write;
use std::process::ExitCode;

const USAGE: &str = "usage:
  generate SORT SEED INDEX          one input: a version byte, then a body
  generate SORT SEED --size BYTES   one long input
  generate records SEED N           N lines VERSION HEX
  generate integers SEED N          N lines HEX
sorts: match moves inputs chat random damaged limits short long finishes reels lengths skips teams";

fn main() -> ExitCode {
    let arguments: Vec<String> = std::env::args().skip(1).collect();
    let words: Vec<&str> = arguments.iter().map(String::as_str).collect();
    let Some(bytes) = made(&words) else {
        eprintln!("{USAGE}");
        return ExitCode::from(2);
    };
    match io::stdout().write_all(&bytes) {
        Ok(()) => ExitCode::SUCCESS,
        Err(_) => ExitCode::FAILURE,
    }
}

fn made(words: &[&str]) -> Option<Vec<u8>> {
    match words {
        ["records", seed, count] => Some(text(generator::record_lines(
            seed.parse().ok()?,
            count.parse().ok()?,
        ))),
        ["integers", seed, count] => Some(text(generator::integer_lines(
            seed.parse().ok()?,
            count.parse().ok()?,
        ))),
        [sort, seed, "--size", size] => {
            let sort = Sort::named(sort)?;
            Some(generator::sized(
                sort,
                seed.parse().ok()?,
                size.parse().ok()?,
            ))
        }
        [sort, seed, index] => {
            let sort = Sort::named(sort)?;
            Some(generator::input(
                sort,
                seed.parse().ok()?,
                index.parse().ok()?,
            ))
        }
        _ => None,
    }
}

fn text(lines: Vec<String>) -> Vec<u8> {
    lines
        .into_iter()
        .flat_map(|line| (line + "\n").into_bytes())
        .collect()
}
