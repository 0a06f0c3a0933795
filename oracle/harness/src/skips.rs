//! The TickSkips between players, counted by where they came and by whether the client rose behind them.

use crate::expected::read;
use libtw2_packer::Unpacker;
use libtw2_teehistorian::format::Item;
use libtw2_teehistorian::format::Version;
use libtw2_teehistorian::raw;
use std::cmp::Ordering;
use std::fmt;

/// How many had a player of a lower, an equal or a higher client behind them than before them.
#[derive(Clone, Copy, Debug, Default, PartialEq)]
pub struct Clients {
    pub lower: u64,
    pub equal: u64,
    pub higher: u64,
}

#[derive(Clone, Copy, Debug, Default, PartialEq)]
pub struct Skips {
    pub inside: Clients,
    pub outside: Clients,
}

impl Skips {
    /// Adds those of one input, as far as it is read.
    pub fn add(&mut self, input: &[u8]) {
        let Some((version, body)) = input.split_first() else {
            return;
        };
        let version = if *version == 1 {
            Version::V1
        } else {
            Version::V2
        };
        let mut unpacker = Unpacker::new(body);
        let mut players = players(input);
        let mut before = None;
        let mut inside = false;
        let mut skips = Vec::new();
        while players > 0 {
            let item = Item::decode(&mut unpacker, version).expect("a record that has been read");
            if let Item::TickSkip(_) = item {
                skips.push(inside);
                inside = !inside;
                continue;
            }
            inside = true;
            if let Some(client) = player(&item) {
                players -= 1;
                self.count(&skips, before, client);
                before = Some(client);
                skips.clear();
            }
        }
    }
    fn count(&mut self, skips: &[bool], before: Option<i32>, client: i32) {
        let Some(before) = before else {
            return;
        };
        for inside in skips {
            let clients = if *inside {
                &mut self.inside
            } else {
                &mut self.outside
            };
            match client.cmp(&before) {
                Ordering::Less => clients.lower += 1,
                Ordering::Equal => clients.equal += 1,
                Ordering::Greater => clients.higher += 1,
            }
        }
    }
}

impl fmt::Display for Clients {
    fn fmt(&self, f: &mut fmt::Formatter) -> fmt::Result {
        let Clients {
            lower,
            equal,
            higher,
        } = self;
        write!(f, "{lower} lower, {equal} equal, {higher} higher")
    }
}

/// How many events of players a reading gives.
fn players(input: &[u8]) -> u64 {
    let mut count = 0;
    read(input, |event| {
        count += u64::from(matches!(
            event,
            raw::Item::PlayerNew(_) | raw::Item::PlayerChange(_) | raw::Item::PlayerOld(_)
        ));
    });
    count
}

fn player(item: &Item) -> Option<i32> {
    match item {
        Item::PlayerDiff(i) => Some(i.cid),
        Item::PlayerNew(i) => Some(i.cid),
        Item::PlayerOld(i) => Some(i.cid),
        _ => None,
    }
}

#[cfg(test)]
mod tests;
