//! Bodies rich in PlayerFinish records.

mod limits;
mod race;

use crate::random::Random;
pub use limits::refused;
use race::Race;
use std::sync::OnceLock;

/// A prime number. The fixed list is gone through in steps of it, so that a short comparison has some of every part.
const STRIDE: usize = 7919;

/// The fixed list first, then races.
pub fn input(index: u64, random: &mut Random) -> Vec<u8> {
    let list = fixed();
    let index = index as usize;
    if index < list.len() {
        return list[index * STRIDE % list.len()].clone();
    }
    race::input(random)
}

/// One long race without a refusal.
pub fn sized(size: usize, random: &mut Random) -> Vec<u8> {
    let mut race = Race::new(2, 0, random);
    race.until(size, random);
    race.finished()
}

fn fixed() -> &'static [Vec<u8>] {
    static LIST: OnceLock<Vec<Vec<u8>>> = OnceLock::new();
    LIST.get_or_init(limits::inputs)
}
