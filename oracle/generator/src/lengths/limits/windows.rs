//! Negative lengths with as much as a window of 65536 bytes behind them, and around the end of one.

use super::begun;
use super::new;
use super::HEADS;
use super::LEAST;
use super::UNKNOWN;
use crate::body::Body;
use crate::extension::PLAYER_FINISH;
use crate::lengths::Head;
use crate::lengths::WINDOW;

/// So many bytes are left to the call that reads the record.
const LEFT: [usize; 3] = [WINDOW - 1, WINDOW, WINDOW + 1];

const BEGINNINGS: usize = 3;

/// A whole window that the call sees, and one byte less.
pub fn smallest() -> Vec<Body> {
    let message = || begun(Body::new(1), Head::Message(0), -1);
    let extension = || begun(new(), Head::Extension(UNKNOWN), -1);
    vec![
        message().raw(&[0x78; WINDOW - 2]),
        message().raw(&[0x78; WINDOW - 3]),
        extension().raw(&[0x78; WINDOW - 17]),
        extension().raw(&[0x78; WINDOW - 18]),
    ]
}

pub fn bodies() -> Vec<Body> {
    let mut list = Vec::new();
    for left in LEFT {
        for beginning in 0..BEGINNINGS {
            for (head, length) in [
                (Head::Message(0), -1),
                (Head::Message(-1), LEAST),
                (Head::Extension(UNKNOWN), -65),
                (Head::Extension(*PLAYER_FINISH), LEAST),
                // runs out
                (Head::Message(0), 70000),
            ] {
                list.push(filled(begin(beginning), beginning, head, length, left));
            }
        }
    }
    // a window behind the length; two
    for head in HEADS {
        list.push(begun(new(), head, -1).raw(&[0; WINDOW]));
        list.push(begun(new().join(0), head, LEAST).raw(&[0; 2 * WINDOW]));
    }
    list.extend(around());
    list
}

fn begin(beginning: usize) -> Body {
    match beginning {
        0 => new(),
        1 => new().skip(3),
        _ => new().player_new(5, 1, 2).player_diff(5, 3, 4),
    }
}

/// With so many bytes left. Outside a tick the kind is read by a call of its own.
fn filled(body: Body, beginning: usize, head: Head, length: i32, left: usize) -> Body {
    let record = begun(Body::bare(), head, length).done();
    let left = if beginning == 0 { left + 1 } else { left };
    body.raw(&record).raw(&vec![0x78; left - record.len()])
}

/// The record begins a few bytes before the end of the first window, or behind it.
fn around() -> Vec<Body> {
    let mut list = Vec::new();
    for begin in [1, 2, 3, 4, 10, 17, 18, 22] {
        for head in HEADS {
            // a Message of this many bytes has a kind, a client and a length of three
            let size = WINDOW + 1 - begin - 5;
            let before = new().message(0, &vec![0x78; size]);
            list.push(begun(before, head, LEAST).join(1).finish());
        }
    }
    list
}
