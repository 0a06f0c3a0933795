//! Bodies rich in PlayerTeam records.

mod changes;
mod limits;

use crate::fixed::Fixed;
use crate::random::Random;
use changes::Changes;
use std::sync::OnceLock;

/// The fixed list first, of it the smallest ones; then changes of teams among other records.
pub fn input(index: u64, random: &mut Random) -> Vec<u8> {
    let chosen = fixed().input(index);
    chosen.unwrap_or_else(|| changes::input(random))
}

/// One long body without a refusal.
pub fn sized(size: usize, random: &mut Random) -> Vec<u8> {
    let mut changes = Changes::new(2, 0, random);
    changes.until(size, random);
    changes.finished()
}

fn fixed() -> &'static Fixed {
    static LIST: OnceLock<Fixed> = OnceLock::new();
    LIST.get_or_init(|| Fixed {
        smallest: limits::smallest(),
        others: limits::others(),
    })
}
