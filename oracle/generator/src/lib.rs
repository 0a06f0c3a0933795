//! Inputs for the replay program, made from a seed: a version byte, then a body.

mod body;
mod extension;
mod finishes;
mod fixed;
mod integer;
mod integer_lines;
mod lengths;
mod limits;
mod long;
mod noise;
mod play;
mod random;
mod record;
mod record_lines;
mod short;
mod skips;
mod teams;

pub use integer_lines::integer_lines;
pub use random::Random;
pub use record_lines::record_lines;

use play::Style;

#[derive(Clone, Copy, PartialEq)]
pub enum Sort {
    /// A plausible match: everything that a server writes.
    Match,
    /// Players that move, and little else.
    Moves,
    /// Inputs, new and different.
    Inputs,
    /// Messages, joins, drops, commands and extensions.
    Chat,
    /// Random bytes, and random records that fit together badly.
    Random,
    /// The sorts above with bytes changed, lost, added or moved.
    Damaged,
    /// Every limit of the format: a fixed list first, then the same after a piece of a match.
    Limits,
    /// Every body of at most one byte, then random ones of up to six telling bytes.
    Short,
    /// Bodies near and above one window of 65536 bytes.
    Long,
    /// PlayerFinish records: their limits in a fixed list first, then races.
    Finishes,
    /// More events than a reel keeps: a few players that come, go and act.
    Reels,
    /// Negative lengths of Messages and extensions: a fixed list first, then some behind other records.
    Lengths,
    /// TickSkips, and players behind them in any order: a fixed list first, then walks.
    Skips,
    /// PlayerTeam records: their limits in a fixed list first, then clients that change their teams again and again.
    Teams,
}

pub const SORTS: [Sort; 14] = [
    Sort::Match,
    Sort::Moves,
    Sort::Inputs,
    Sort::Chat,
    Sort::Random,
    Sort::Damaged,
    Sort::Limits,
    Sort::Short,
    Sort::Long,
    Sort::Finishes,
    Sort::Reels,
    Sort::Lengths,
    Sort::Skips,
    Sort::Teams,
];

impl Sort {
    pub fn name(self) -> &'static str {
        match self {
            Sort::Match => "match",
            Sort::Moves => "moves",
            Sort::Inputs => "inputs",
            Sort::Chat => "chat",
            Sort::Random => "random",
            Sort::Damaged => "damaged",
            Sort::Limits => "limits",
            Sort::Short => "short",
            Sort::Long => "long",
            Sort::Finishes => "finishes",
            Sort::Reels => "reels",
            Sort::Lengths => "lengths",
            Sort::Skips => "skips",
            Sort::Teams => "teams",
        }
    }
    pub fn named(name: &str) -> Option<Sort> {
        SORTS.into_iter().find(|sort| sort.name() == name)
    }
}

/// Lowercase hex digits; `-` stands for no bytes.
fn hex(bytes: &[u8]) -> String {
    if bytes.is_empty() {
        return "-".to_string();
    }
    bytes.iter().map(|byte| format!("{byte:02x}")).collect()
}

/// The input of this sort with this index.
pub fn input(sort: Sort, seed: u64, index: u64) -> Vec<u8> {
    let mut random = Random::new(&[seed, sort as u64, index]);
    match sort {
        Sort::Match => play::input(Style::Match, &mut random),
        Sort::Moves => play::input(Style::Moves, &mut random),
        Sort::Inputs => play::input(Style::Inputs, &mut random),
        Sort::Chat => play::input(Style::Chat, &mut random),
        Sort::Random => noise::random(&mut random),
        Sort::Damaged => noise::damaged(&mut random),
        Sort::Limits => limits::input(index, &mut random),
        Sort::Short => short::input(index, &mut random),
        Sort::Long => long::input(index, &mut random),
        Sort::Finishes => finishes::input(index, &mut random),
        Sort::Reels => play::reels(&mut random),
        Sort::Lengths => lengths::input(index, &mut random),
        Sort::Skips => skips::input(index, &mut random),
        Sort::Teams => teams::input(index, &mut random),
    }
}

/// One long input of this sort, of about `size` bytes.
pub fn sized(sort: Sort, seed: u64, size: usize) -> Vec<u8> {
    let mut random = Random::new(&[seed, sort as u64]);
    match sort {
        Sort::Match | Sort::Long => play::sized(Style::Match, size, &mut random),
        Sort::Moves => play::sized(Style::Moves, size, &mut random),
        Sort::Inputs => play::sized(Style::Inputs, size, &mut random),
        Sort::Chat => play::sized(Style::Chat, size, &mut random),
        Sort::Random | Sort::Short => noise::sized(size, &mut random),
        Sort::Damaged => noise::sized_damaged(size, &mut random),
        Sort::Limits => limits::sized(size, &mut random),
        Sort::Finishes => finishes::sized(size, &mut random),
        Sort::Reels => play::sized(Style::Reels, size, &mut random),
        Sort::Lengths => lengths::sized(size, &mut random),
        Sort::Skips => skips::sized(size, &mut random),
        Sort::Teams => teams::sized(size, &mut random),
    }
}
