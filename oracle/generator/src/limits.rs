//! Inputs at each limit of the format.

mod boards;
mod clients;
mod extensions;
mod integers;
mod parts;
mod ticks;

use crate::play;
use crate::play::Style;
use crate::random::Random;
use std::sync::OnceLock;

/// A prime number. The fixed list is gone through in steps of it, so that a short comparison has some of every part.
const STRIDE: usize = 7919;

/// The fixed list first; then each of its bodies again after the beginning of a match.
pub fn input(index: u64, random: &mut Random) -> Vec<u8> {
    let index = index as usize;
    let list = inputs();
    let chosen = &list[index % list.len() * STRIDE % list.len()];
    if index < list.len() || chosen.is_empty() {
        return chosen.clone();
    }
    let mut continued = play::prelude(random).done();
    continued.extend_from_slice(&chosen[1..]);
    continued
}

/// A long match in which half of the integers are not in their plain form.
pub fn sized(size: usize, random: &mut Random) -> Vec<u8> {
    play::sized_with_odd_forms(Style::Match, size, 2, random)
}

fn inputs() -> &'static [Vec<u8>] {
    static LIST: OnceLock<Vec<Vec<u8>>> = OnceLock::new();
    LIST.get_or_init(|| {
        let mut list = vec![
            Vec::new(),
            vec![0],
            vec![3, 0x40],
            vec![0x80, 1],
            vec![0xff],
        ];
        for version in [1, 2] {
            list.extend(ticks::inputs(version));
            list.extend(clients::inputs(version));
            list.extend(boards::inputs(version));
            list.extend(parts::inputs(version));
            list.extend(extensions::inputs(version));
            list.extend(integers::inputs(version));
        }
        list
    })
}
