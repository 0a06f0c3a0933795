//! Bodies rich in TickSkips, and in players of lower, equal and higher clients behind them.

mod limits;
mod walk;

use crate::fixed::Fixed;
use crate::random::Random;
use std::sync::OnceLock;

/// The fixed list first, of it the smallest ones; then walks.
pub fn input(index: u64, random: &mut Random) -> Vec<u8> {
    let chosen = fixed().input(index);
    chosen.unwrap_or_else(|| walk::input(random))
}

pub fn sized(size: usize, random: &mut Random) -> Vec<u8> {
    walk::sized(size, random)
}

fn fixed() -> &'static Fixed {
    static LIST: OnceLock<Fixed> = OnceLock::new();
    LIST.get_or_init(|| Fixed {
        smallest: limits::smallest(),
        others: limits::others(),
    })
}
