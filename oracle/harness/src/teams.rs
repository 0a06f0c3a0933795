//! The teams of clients 0 to 127. libtw2's reader keeps none, so they are a model beside it, made the plain way: of each PlayerTeam
//! record that it hands out, the team is put down for the client; nothing else changes one.

use crate::expected::LARGEST_CLIENT;
use libtw2_teehistorian::raw::Item;

const CLIENTS: usize = LARGEST_CLIENT as usize + 1;

/// Of each client a team number, or none.
#[derive(Clone, Debug, PartialEq)]
pub struct Teams([Option<i32>; CLIENTS]);

impl Teams {
    pub fn none() -> Teams {
        Teams([None; CLIENTS])
    }
    /// What an item leaves. Other clients have no place.
    pub fn apply(&mut self, item: &Item) {
        let Item::PlayerTeam(said) = item else {
            return;
        };
        let client = usize::try_from(said.cid).ok();
        if let Some(team) = client.and_then(|client| self.0.get_mut(client)) {
            *team = Some(said.team);
        }
    }
    /// The clients that have a team, rising, each with it.
    pub fn list(&self) -> Vec<(i32, i32)> {
        let each = (0..).zip(self.0);
        each.filter_map(|(client, team)| Some((client, team?)))
            .collect()
    }
}

#[cfg(test)]
mod tests;
