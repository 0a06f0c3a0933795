//! `oracle records`: each line of the input is a version and bytes in hex; the answer is the record at
//! their beginning.

use crate::fields::fields;
use crate::invalid;
use crate::length;
use crate::run::record_refusal;
use libtw2_packer::Unpacker;
use libtw2_teehistorian::format::item::Error;
use libtw2_teehistorian::format::Item;
use libtw2_teehistorian::format::MaybeEnd;
use libtw2_teehistorian::format::Version;
use std::io;
use std::io::BufRead;
use std::io::Write;

pub fn command() -> io::Result<()> {
    let mut out = io::BufWriter::new(io::stdout().lock());
    for line in io::stdin().lock().lines() {
        let line = line?;
        let (version, bytes) =
            parse(&line).ok_or_else(|| invalid(&format!("not VERSION HEX: {line}")))?;
        writeln!(out, "{}", answer(version, &bytes))?;
    }
    out.flush()
}

fn parse(line: &str) -> Option<(Version, Vec<u8>)> {
    let (version, hex) = line.split_once(' ')?;
    let version = match version {
        "1" => Version::V1,
        "2" => Version::V2,
        _ => return None,
    };
    Some((version, bytes(hex)?))
}

/// The bytes of a row of hex digits; `-` stands for none.
pub fn bytes(hex: &str) -> Option<Vec<u8>> {
    if hex == "-" {
        return Some(Vec::new());
    }
    if !hex.is_ascii() || hex.len() % 2 != 0 {
        return None;
    }
    let pairs = (0..hex.len()).step_by(2);
    pairs
        .map(|at| u8::from_str_radix(&hex[at..at + 2], 16).ok())
        .collect()
}

fn answer(version: Version, bytes: &[u8]) -> String {
    let mut unpacker = Unpacker::new(bytes);
    match Item::decode(&mut unpacker, version) {
        Ok(record) => format!("{} {}", unpacker.num_bytes_read(), fields(&record)),
        Err(MaybeEnd::UnexpectedEnd) if length::begins_negative(version, bytes) => {
            format!("refused {}", length::REFUSED)
        }
        Err(MaybeEnd::UnexpectedEnd) => "runs out".to_string(),
        Err(MaybeEnd::Err(error)) => refusal(&error),
    }
}

fn refusal(error: &Error) -> String {
    let number = record_refusal(error);
    match error {
        Error::UnknownType(kind) => format!("refused {number} {kind}"),
        _ => format!("refused {number}"),
    }
}
