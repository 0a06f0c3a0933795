//! What libtw2's lookups answer, and the teams beside them, as lines.

use crate::expected::LARGEST_CLIENT;
use crate::run::Run;
use crate::text;
use libtw2_teehistorian::raw::Pos;
use libtw2_teehistorian::raw::Reader;
use std::fmt;
use std::io;
use std::io::Write;

/// `pos` and `inp` of a client that has them.
pub fn write_client(out: &mut impl Write, reader: &Reader, client: i32) -> io::Result<()> {
    if let Some(pos) = reader.player_pos(client) {
        writeln!(out, "pos {client} {} {}", pos.x, pos.y)?;
    }
    if let Some(input) = reader.input(client) {
        write!(out, "inp {client}")?;
        text::write_numbers(out, &input)?;
        writeln!(out)?;
    }
    Ok(())
}

/// What is told of clients 0 to 127 at one time: by the lookups the players that are present and the inputs, by the model the teams,
/// each rising by client.
#[derive(Default)]
pub struct Board {
    players: Vec<(i32, Pos)>,
    inputs: Vec<(i32, [i32; 10])>,
    teams: Vec<(i32, i32)>,
}

impl Board {
    pub fn of(run: &Run) -> Board {
        let reader = run.reader();
        let clients = || 0..=LARGEST_CLIENT;
        Board {
            players: clients()
                .filter_map(|client| Some((client, reader.player_pos(client)?)))
                .collect(),
            inputs: clients()
                .filter_map(|client| Some((client, reader.input(client)?)))
                .collect(),
            teams: run.teams().list(),
        }
    }
    pub fn player_pos(&self, client: i32) -> Option<Pos> {
        found(&self.players, client)
    }
    pub fn input(&self, client: i32) -> Option<[i32; 10]> {
        found(&self.inputs, client)
    }
    pub fn team(&self, client: i32) -> Option<i32> {
        found(&self.teams, client)
    }
    /// The clients of its lines.
    pub fn clients(&self) -> Vec<i32> {
        let players = self.players.iter().map(|(client, _)| *client);
        let inputs = self.inputs.iter().map(|(client, _)| *client);
        let teams = self.teams.iter().map(|(client, _)| *client);
        players.chain(inputs).chain(teams).collect()
    }
    /// The number of its lines.
    pub fn size(&self) -> u64 {
        (self.players.len() + self.inputs.len() + self.teams.len()) as u64
    }
}

fn found<T: Copy>(list: &[(i32, T)], client: i32) -> Option<T> {
    let (_, value) = list.iter().find(|(other, _)| *other == client)?;
    Some(*value)
}

impl fmt::Display for Board {
    fn fmt(&self, f: &mut fmt::Formatter) -> fmt::Result {
        for (client, pos) in &self.players {
            writeln!(f, "player {client} {} {}", pos.x, pos.y)?;
        }
        for (client, input) in &self.inputs {
            writeln!(f, "input {client}{}", text::numbers(input))?;
        }
        for (client, team) in &self.teams {
            writeln!(f, "team {client} {team}")?;
        }
        Ok(())
    }
}
