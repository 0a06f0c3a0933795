//! Readers and wanted boards for reach_vectors, made from numbers.

use crate::changes::between;
use crate::entries::Entries;
use crate::entries::Held;
use crate::entries::Player;
use crate::entries::Team;
use crate::entries::Wanted;
use crate::goals::Goal;
use crate::goals::ALL;
use crate::stand::Stand;
use crate::stand::Walk;
use generator::Random;

/// One board in so many isn't made reachable first, and of those that are one in so many is spoilt in one way.
const AS_IT_IS: usize = 6;
const SPOILT: usize = 3;

/// One board in so many is bad, one holds every client, and one target in so many has little room.
const BAD: usize = 50;
const CROWDED: usize = 60;
const TIGHT: usize = 5;

/// Numbers of changes.
const CHANGES: [usize; 8] = [0, 0, 1, 1, 2, 3, 6, 20];

/// A reader that has read an input up to some place, and a board to be reached from it: its own, one of the same input or of
/// another, or an empty one, with changes. None if the input has no version.
pub fn aimed(input: &[u8], other: &[u8], seeds: &[u64]) -> Option<(Vec<u8>, Goal)> {
    if !has_version(input) {
        return None;
    }
    let mut random = Random::new(seeds);
    let (reader, events) = cut(input, &mut random);
    let (to, to_events) = match random.below(8) {
        0..=2 => (Vec::new(), ALL),
        3 | 4 => cut(input, &mut random),
        5 | 6 if has_version(other) => cut(other, &mut random),
        _ => (vec![1], ALL),
    };
    let stand = Stand::of(&reader, u64::from(events));
    let mut goal = Goal {
        events,
        to,
        to_events,
        ..Goal::same()
    };
    let base = goal.base(&stand);
    let is_open = !stand.is_closed && !stand.is_pending;
    let mut aim = Aim {
        behind: if is_open && stand.is_inside() {
            stand.behind()
        } else {
            0
        },
        stand,
        wanted: base.clone(),
        random,
    };
    aim.make();
    goal.changes = between(&base, &aim.wanted);
    if aim.random.one_in(TIGHT) {
        let size = goal.size(&reader).unwrap_or(0);
        let sizes = [0, size.saturating_sub(1), size, size + 1];
        goal.room = aim.random.pick(&sizes);
    }
    Some((reader, goal))
}

fn has_version(input: &[u8]) -> bool {
    matches!(input.first(), Some(1 | 2))
}

/// Mostly up to the end of a record; now and then any number of events, all bytes up to one, or all.
fn cut(input: &[u8], random: &mut Random) -> (Vec<u8>, u32) {
    let mut walk = Walk::new(input[0], &input[1..]);
    let mut ends = vec![0];
    while walk.step() {
        if !walk.is_pending {
            ends.push(walk.used);
        }
    }
    match random.below(16) {
        0 => {
            let events = random.next() % (walk.events + 1);
            (input.to_vec(), events as u32)
        }
        1 => (input[..1 + random.below(input.len())].to_vec(), ALL),
        2 => (input.to_vec(), ALL),
        _ => (input[..1 + random.pick(&ends)].to_vec(), ALL),
    }
}

struct Aim {
    stand: Stand,
    /// So many clients are at or below the remembered one; 0 outside a tick.
    behind: usize,
    wanted: Wanted,
    random: Random,
}

impl Aim {
    fn make(&mut self) {
        self.tick();
        for _ in 0..self.random.pick(&CHANGES) {
            self.change();
        }
        if self.random.one_in(CROWDED) {
            self.crowd();
        }
        if !self.random.one_in(AS_IT_IS) {
            self.allow();
            if self.random.one_in(SPOILT) {
                self.spoil();
            }
        }
        if self.random.one_in(BAD) {
            self.harm();
        }
    }
    fn now(&self) -> &Entries {
        &self.stand.board.entries
    }
    /// The reader's tick, one about it, one at the last or any behind it; or that of the board.
    fn tick(&mut self) {
        let tick = self.stand.tick;
        let random = &mut self.random;
        self.wanted.tick = match random.below(10) {
            0 => self.wanted.tick,
            1 => Some((tick - 1).max(0)),
            2..=4 => Some(tick),
            5 | 6 => Some(tick.saturating_add(1)),
            7 => Some(tick.saturating_add(random.between(2, 300))),
            8 => Some(random.between(tick, i32::MAX)),
            _ => Some(i32::MAX - random.between(0, 1)),
        };
    }
    /// Mostly about the remembered client, at the ends or one of a few.
    fn client(&mut self) -> usize {
        match self.random.below(8) {
            0 => self.behind.saturating_sub(1),
            1 => self.behind.min(127),
            2 => self.random.pick(&[0, 127]),
            3 => self.random.below(128),
            _ => self.random.below(8),
        }
    }
    /// Somewhere, a little aside, at the ends, or nowhere.
    fn player(&mut self, now: Player) -> Player {
        let (one, two) = (self.random.number(), self.random.number());
        match self.random.below(5) {
            0 => Player::at(one, two),
            1 => Player::at(now.x.wrapping_add(one), now.y),
            2 => Player::at(now.x, now.y.wrapping_add(two)),
            3 => {
                let ends = [i32::MIN, i32::MAX, 0];
                Player::at(self.random.pick(&ends), self.random.pick(&ends))
            }
            _ => Player::default(),
        }
    }
    /// New ones, one other number, the same, or none.
    fn held(&mut self, now: Held) -> Held {
        let mut ten = now.ten;
        match self.random.below(5) {
            0 | 1 => ten.fill_with(|| self.random.number()),
            2 => ten[self.random.below(10)] = self.random.number(),
            3 => (),
            _ => return Held::default(),
        }
        Held::of(ten)
    }
    /// Another one, one at the ends, the same, or none.
    fn team(&mut self, now: Team) -> Team {
        match self.random.below(6) {
            0 => Team::of(self.random.pick(&[i32::MIN, i32::MAX, 0])),
            1 => now,
            2 => Team::default(),
            _ => Team::of(self.random.number()),
        }
    }
    fn change(&mut self) {
        let client = self.client();
        match self.random.below(7) {
            0 | 1 => {
                let now = self.now().inputs[client];
                self.wanted.entries.inputs[client] = self.held(now);
            }
            2 | 3 => {
                let now = self.now().teams[client];
                self.wanted.entries.teams[client] = self.team(now);
            }
            _ => {
                let now = self.now().players[client];
                self.wanted.entries.players[client] = self.player(now);
            }
        }
    }
    /// Every client is there and has inputs and a team, in numbers that are mostly long.
    fn crowd(&mut self) {
        for client in 0..self.wanted.entries.players.len() {
            let (x, y) = (self.random.next() as i32, self.random.next() as i32);
            let mut ten = [0; 10];
            ten.fill_with(|| self.random.next() as i32);
            self.wanted.entries.players[client] = Player::at(x, y);
            self.wanted.entries.inputs[client] = Held::of(ten);
            self.wanted.entries.teams[client] = Team::of(self.random.next() as i32);
        }
    }
    /// Makes it a board that can be reached.
    fn allow(&mut self) {
        let tick = self.stand.tick;
        let wanted = self.wanted.tick.unwrap_or(tick).max(tick);
        self.wanted.tick = Some(wanted);
        let now = &self.stand.board.entries;
        for (then, now) in self.wanted.entries.inputs.iter_mut().zip(&now.inputs) {
            if then.mark == 0 {
                *then = *now;
            }
        }
        for (then, now) in self.wanted.entries.teams.iter_mut().zip(&now.teams) {
            if then.mark == 0 || self.stand.is_first_version {
                *then = *now;
            }
        }
        if wanted == tick {
            let behind = ..self.behind;
            self.wanted.entries.players[behind].copy_from_slice(&now.players[behind]);
        }
    }
    /// One thing that may stand in the way: a tick below, inputs that are gone, a player who differs at the remembered client, a team
    /// that is gone or that version 1 doesn't have, no tick.
    fn spoil(&mut self) {
        let tick = self.stand.tick;
        let holding: Vec<usize> = (0..128)
            .filter(|client| self.now().inputs[*client].mark == 1)
            .collect();
        let members: Vec<usize> = (0..128)
            .filter(|client| self.now().teams[*client].mark == 1)
            .collect();
        match self.random.below(9) {
            0 | 1 if tick > 0 => self.wanted.tick = Some(tick - 1),
            2 | 3 if !holding.is_empty() => {
                let client = self.random.pick(&holding);
                self.wanted.entries.inputs[client] = Held::default();
            }
            4 | 5 if self.behind > 0 => {
                let client = self.behind - 1;
                let x = self.now().players[client].x.wrapping_add(1);
                let y = self.now().players[client].y;
                self.wanted.entries.players[client] = Player::at(x, y);
            }
            6 | 7 if self.stand.is_first_version => {
                let client = self.client();
                self.wanted.entries.teams[client] = Team::of(self.random.number());
            }
            6 | 7 if !members.is_empty() => {
                let client = self.random.pick(&members);
                self.wanted.entries.teams[client] = Team::default();
            }
            _ if self.random.one_in(3) => self.wanted.tick = None,
            _ => (),
        }
    }
    /// A board that no reading gives.
    fn harm(&mut self) {
        let client = self.client();
        let number = self.random.pick(&[1, -1, i32::MAX, i32::MIN]);
        let entries = &mut self.wanted.entries;
        match self.random.below(7) {
            0 => self.wanted.tick = Some(self.random.pick(&[-1, i32::MIN])),
            1 => entries.players[client].mark = self.random.pick(&[2, 255]),
            2 => entries.inputs[client].mark = self.random.pick(&[2, 255]),
            3 => {
                entries.players[client] = Player {
                    mark: 0,
                    x: number,
                    y: 0,
                }
            }
            4 => {
                entries.inputs[client] = Held::default();
                entries.inputs[client].ten[self.random.below(10)] = number;
            }
            5 => entries.teams[client].mark = self.random.pick(&[2, -1, 256, i32::MIN]),
            _ => entries.teams[client] = Team { mark: 0, number },
        }
    }
}

#[cfg(test)]
mod tests;
