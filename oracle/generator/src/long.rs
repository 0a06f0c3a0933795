//! Bodies near and above one window of 65536 bytes.

use crate::body::Body;
use crate::extension::EXTENSIONS;
use crate::play;
use crate::play::Style;
use crate::random::Random;
use crate::record::COMMAND;
use crate::record::DROP;
use crate::record::EXTENSION;
use crate::record::MESSAGE;

const WINDOW: usize = 65536;

/// What the call for the long record needs: one short of the window, exactly it, one more.
const NEEDS: [usize; 3] = [WINDOW - 1, WINDOW, WINDOW + 1];

const BEGINNINGS: usize = 3;
const CASES: usize = 10;
const FIXED: usize = NEEDS.len() * BEGINNINGS * CASES;

/// Without a common divisor with the number of fixed inputs, so that the first few are of every case.
const STRIDE: usize = 47;

/// Every case at every need after every beginning, then long matches.
pub fn input(index: u64, random: &mut Random) -> Vec<u8> {
    let index = index as usize;
    if index >= FIXED {
        return matches(random);
    }
    let mixed = index * STRIDE % FIXED;
    let (case, rest) = (mixed % CASES, mixed / CASES);
    fixed(case, rest % BEGINNINGS, NEEDS[rest / BEGINNINGS])
}

fn matches(random: &mut Random) -> Vec<u8> {
    let size = WINDOW / 2 + random.below(3 * WINDOW);
    let style = random.pick(&[Style::Match, Style::Moves, Style::Inputs, Style::Chat]);
    let odd = random.pick(&[0, 0, 3]);
    play::sized_with_odd_forms(style, size, odd, random)
}

fn fixed(case: usize, beginning: usize, need: usize) -> Vec<u8> {
    let begun = begin(beginning);
    // Outside a tick the kind is read by a call of its own.
    let need = if beginning == 0 { need + 1 } else { need };
    let sample = record(case, WINDOW / 2).len();
    let filled = record(case, WINDOW / 2 + need - sample);
    begun.raw(&filled).raw(after(case)).done()
}

fn begin(beginning: usize) -> Body {
    let body = Body::new(2);
    match beginning {
        0 => body,
        1 => body.skip(3),
        _ => body.player_new(5, 1, 2).player_diff(5, 3, 4),
    }
}

/// A record with this many bytes of filling, which ends or runs out at its last byte.
fn record(case: usize, filling: usize) -> Vec<u8> {
    let text = vec![0x78; filling];
    let body = Body::bare();
    let record = match case {
        0 => body.ints(&[DROP, 0]).raw(&text),
        1 | 2 => body.drop(0, &text),
        3 => body.ints(&[MESSAGE, 0, -1]).raw(&text),
        4 => body.message(0, &text),
        5 => body.ints(&[MESSAGE, 0, filling as i32 + 1]).raw(&text),
        6 => body
            .extension(&EXTENSIONS[1].identifier, &[0, 0, 0x78])
            .raw(&text),
        7 => body.int(EXTENSION).raw(&[7; 16]).data(&text),
        8 => body.ints(&[COMMAND, 0, 0]).string(&text).int(-1),
        _ => body
            .ints(&[COMMAND, 0, 0])
            .string(&text)
            .int(17)
            .raw(&[0; 17]),
    };
    record.done()
}

/// What follows the record: a Join and Finish where it is complete, else nothing.
fn after(case: usize) -> &'static [u8] {
    match case {
        1 | 4 | 7 => &[0x47, 0x01, 0x40],
        _ => &[],
    }
}
