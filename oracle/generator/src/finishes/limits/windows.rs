//! Finishes around the end of a window of 65536 bytes, and records that no window holds.

use super::new;
use crate::body::Body;
use crate::extension::PLAYER_FINISH;
use crate::record::EXTENSION;
use crate::record::MESSAGE;

const WINDOW: usize = 65536;

/// A PlayerFinish record with numbers of one byte each has so many.
const FINISH: usize = 20;

pub fn bodies() -> Vec<Body> {
    let before = || {
        new()
            .player_finish(6, 30)
            .player_finish(5, 20)
            .player_finish(-1, 0)
            .skip(0)
    };
    let mut list = Vec::new();
    // the record begins so many bytes behind the version byte
    for begin in WINDOW - FINISH - 2..=WINDOW + 2 {
        let filled = before().filled(1 + begin).player_finish(5, 19);
        list.push(
            filled
                .skip(0)
                .player_finish(6, 30)
                .player_finish(7, 5)
                .finish(),
        );
    }
    for length in [-1, 70000] {
        let begun = before().player_finish(5, 19).ints(&[MESSAGE, 0, length]);
        list.push(begun.raw(&[0; 70000]).player_finish(6, 1).finish());
    }
    // the payload runs out, and a whole window comes behind it
    let short = before().int(EXTENSION).raw(PLAYER_FINISH).ints(&[1, 5]);
    list.push(short.filled(2 * WINDOW));
    // three windows with finishes throughout
    let through = |body: Body, time| {
        body.filled(WINDOW / 2 * time as usize)
            .player_finish(5, 20 - time)
            .player_finish(128, time)
    };
    list.push((1..7).fold(before(), through).finish());
    list
}
