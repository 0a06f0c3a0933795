//! The entries of clients 0 to 127 as the project's readers and boards hold them: marks, and zeros where nobody is.

use crate::board::Board;
use crate::expected::LARGEST_CLIENT;

#[derive(Clone, Copy, Debug, Default, PartialEq)]
pub struct Player {
    pub mark: u8,
    pub x: i32,
    pub y: i32,
}

#[derive(Clone, Copy, Debug, Default, PartialEq)]
pub struct Held {
    pub mark: u8,
    pub ten: [i32; 10],
}

#[derive(Clone, Copy, Debug, Default, PartialEq)]
pub struct Team {
    pub mark: i32,
    pub number: i32,
}

/// One of each for every client.
#[derive(Clone, Debug, PartialEq)]
pub struct Entries {
    pub players: Vec<Player>,
    pub inputs: Vec<Held>,
    pub teams: Vec<Team>,
}

/// A board: the tick that was started, or none, and the entries.
#[derive(Clone, Debug, PartialEq)]
pub struct Wanted {
    pub tick: Option<i32>,
    pub entries: Entries,
}

impl Player {
    pub fn at(x: i32, y: i32) -> Player {
        Player { mark: 1, x, y }
    }
}

impl Held {
    pub fn of(ten: [i32; 10]) -> Held {
        Held { mark: 1, ten }
    }
}

impl Team {
    pub fn of(number: i32) -> Team {
        Team { mark: 1, number }
    }
}

impl Entries {
    pub fn none() -> Entries {
        let clients = LARGEST_CLIENT as usize + 1;
        Entries {
            players: vec![Player::default(); clients],
            inputs: vec![Held::default(); clients],
            teams: vec![Team::default(); clients],
        }
    }
    /// What libtw2's lookups and the teams beside them tell.
    pub fn of(board: &Board) -> Entries {
        let player = |client| {
            let pos = board.player_pos(client);
            pos.map_or(Player::default(), |pos| Player::at(pos.x, pos.y))
        };
        let held = |client| board.input(client).map_or(Held::default(), Held::of);
        let team = |client| board.team(client).map_or(Team::default(), Team::of);
        Entries {
            players: (0..=LARGEST_CLIENT).map(player).collect(),
            inputs: (0..=LARGEST_CLIENT).map(held).collect(),
            teams: (0..=LARGEST_CLIENT).map(team).collect(),
        }
    }
    /// A mark other than 0 and 1, or an absent entry that holds a number.
    pub fn are_bad(&self) -> bool {
        let is_bad = |mark: i32, is_empty: bool| !(mark == 1 || mark == 0 && is_empty);
        let is_bad_player =
            |player: &Player| is_bad(i32::from(player.mark), (player.x, player.y) == (0, 0));
        let is_bad_held = |held: &Held| is_bad(i32::from(held.mark), held.ten == [0; 10]);
        let is_bad_team = |team: &Team| is_bad(team.mark, team.number == 0);
        self.players.iter().any(is_bad_player)
            || self.inputs.iter().any(is_bad_held)
            || self.teams.iter().any(is_bad_team)
    }
}

impl Wanted {
    pub fn is_bad(&self) -> bool {
        self.tick.is_some_and(|tick| tick < 0) || self.entries.are_bad()
    }
}
