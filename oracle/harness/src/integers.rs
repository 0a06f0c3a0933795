//! `oracle integers`: each line of the input is bytes in hex; the answer is the integer that they begin with.

use crate::fields::hex;
use crate::invalid;
use crate::records::bytes;
use libtw2_packer::with_packer;
use libtw2_packer::Unpacker;
use libtw2_packer::Warning;
use libtw2_warn::Warn;
use std::io;
use std::io::BufRead;
use std::io::Write;

/// No integer is longer.
const LONGEST: usize = 5;

pub fn command() -> io::Result<()> {
    let mut out = io::BufWriter::new(io::stdout().lock());
    for line in io::stdin().lock().lines() {
        let line = line?;
        let bytes = bytes(&line).ok_or_else(|| invalid(&format!("not hex: {line}")))?;
        writeln!(out, "{}", answer(&bytes))?;
    }
    out.flush()
}

/// Bytes used, the number, the remark, and the bytes that libtw2 writes for the number.
fn answer(bytes: &[u8]) -> String {
    let mut unpacker = Unpacker::new(bytes);
    let mut remark = Remark("none");
    match unpacker.read_int(&mut remark) {
        Ok(number) => {
            let used = unpacker.num_bytes_read();
            format!("{used} {number} {} {}", remark.0, hex(&written(number)))
        }
        Err(_) => "runs out".to_string(),
    }
}

struct Remark(&'static str);

impl Warn<Warning> for Remark {
    fn warn(&mut self, warning: Warning) {
        self.0 = match warning {
            Warning::OverlongIntEncoding => "overlong",
            Warning::NonZeroIntPadding => "padding",
            Warning::ExcessData => unreachable!("an integer has no data after it"),
        };
    }
}

/// The bytes that libtw2 writes for a number.
pub fn written(number: i32) -> Vec<u8> {
    let mut target = Vec::with_capacity(LONGEST);
    with_packer(&mut target, |mut packer| packer.write_int(number))
        .expect("there is room for an integer");
    target
}
