//! What is changed of a board, one number at a time.

use crate::entries::Held;
use crate::entries::Player;
use crate::entries::Team;
use crate::entries::Wanted;

/// A change takes so many bytes, after its length.
pub const WIDTH: usize = 6;

#[derive(Clone, Copy, Debug, PartialEq)]
pub enum What {
    /// The number of the inputs at this place.
    Number(u8),
    Mark,
    X,
    Y,
    Held,
    Tick,
    Outside,
    TeamMark,
    TeamNumber,
}

/// Behind the ten numbers of the inputs.
const WHATS: [What; 8] = [
    What::Mark,
    What::X,
    What::Y,
    What::Held,
    What::Tick,
    What::Outside,
    What::TeamMark,
    What::TeamNumber,
];

#[derive(Clone, Copy, Debug, PartialEq)]
pub struct Change {
    pub what: What,
    pub client: u8,
    /// Of a mark of a position or of inputs the low byte counts.
    pub number: i32,
}

impl Change {
    pub fn make(&self, board: &mut Wanted) {
        let client = usize::from(self.client);
        match self.what {
            What::Tick => board.tick = Some(self.number),
            What::Outside => board.tick = None,
            _ if client >= board.entries.players.len() => (),
            What::Number(place) => {
                board.entries.inputs[client].ten[usize::from(place)] = self.number;
            }
            What::Mark => board.entries.players[client].mark = self.number as u8,
            What::X => board.entries.players[client].x = self.number,
            What::Y => board.entries.players[client].y = self.number,
            What::Held => board.entries.inputs[client].mark = self.number as u8,
            What::TeamMark => board.entries.teams[client].mark = self.number,
            What::TeamNumber => board.entries.teams[client].number = self.number,
        }
    }
    /// After its length.
    pub fn framed(&self) -> Vec<u8> {
        let what = match self.what {
            What::Number(place) => place,
            what => {
                let place = WHATS.iter().position(|other| *other == what);
                10 + place.expect("a change of the list") as u8
            }
        };
        let head = [WIDTH as u8, what, self.client];
        [&head, &self.number.to_le_bytes()[..]].concat()
    }
    pub fn read(framed: &[u8]) -> Option<Change> {
        let [6, what, client, number @ ..] = framed else {
            return None;
        };
        Some(Change {
            what: match what {
                0..=9 => What::Number(*what),
                what => *WHATS.get(usize::from(what - 10))?,
            },
            client: *client,
            number: i32::from_le_bytes(number.try_into().ok()?),
        })
    }
    /// A word and numbers, with colons between: `tick:T`, `outside`, `player:C:X:Y`, `gone:C`, `inputs:C` and ten numbers, `lost:C`,
    /// `team:C:N`, `teamless:C`; or a part alone, `mark:C:M`, `x:C:X`, `y:C:Y`, `held:C:M`, `number:C:PLACE:N`, `teammark:C:M`,
    /// `teamnumber:C:N`.
    pub fn listed(text: &str) -> Option<Vec<Change>> {
        let mut words = text.split(':');
        let word = words.next()?;
        let numbers = words.map(|word| word.parse().ok());
        let numbers = numbers.collect::<Option<Vec<i32>>>()?;
        if let ("tick" | "outside", number) = (word, &numbers[..]) {
            let (what, number) = match number {
                [tick] if word == "tick" => (What::Tick, *tick),
                [] if word == "outside" => (What::Outside, 0),
                _ => return None,
            };
            return Some(changes_of(0, &[(what, number)]));
        }
        let (client, numbers) = numbers.split_first()?;
        let parts = match (word, numbers) {
            ("mark", [mark]) => vec![(What::Mark, *mark)],
            ("x", [x]) => vec![(What::X, *x)],
            ("y", [y]) => vec![(What::Y, *y)],
            ("held", [mark]) => vec![(What::Held, *mark)],
            ("number", [place @ 0..=9, number]) => vec![(What::Number(*place as u8), *number)],
            ("player", [x, y]) => player_parts(&Player::at(*x, *y)),
            ("gone", []) => player_parts(&Player::default()),
            ("inputs", ten) => held_parts(&Held::of(ten.try_into().ok()?)),
            ("lost", []) => held_parts(&Held::default()),
            ("team", [team]) => team_parts(&Team::of(*team)),
            ("teamless", []) => team_parts(&Team::default()),
            ("teammark", [mark]) => vec![(What::TeamMark, *mark)],
            ("teamnumber", [number]) => vec![(What::TeamNumber, *number)],
            _ => return None,
        };
        Some(changes_of(u8::try_from(*client).ok()?, &parts))
    }
}

type Part = (What, i32);

fn player_parts(player: &Player) -> Vec<Part> {
    vec![
        (What::Mark, i32::from(player.mark)),
        (What::X, player.x),
        (What::Y, player.y),
    ]
}

fn held_parts(held: &Held) -> Vec<Part> {
    let numbers = (0..).zip(held.ten).map(|(k, n)| (What::Number(k), n));
    let mark = (What::Held, i32::from(held.mark));
    std::iter::once(mark).chain(numbers).collect()
}

fn team_parts(team: &Team) -> Vec<Part> {
    vec![(What::TeamMark, team.mark), (What::TeamNumber, team.number)]
}

fn changes_of(client: u8, parts: &[Part]) -> Vec<Change> {
    let change = |(what, number): &Part| Change {
        what: *what,
        client,
        number: *number,
    };
    parts.iter().map(change).collect()
}

/// What makes one board of another.
pub fn between(from: &Wanted, to: &Wanted) -> Vec<Change> {
    let parts = |board: &Wanted, client: usize| {
        let entries = &board.entries;
        [
            player_parts(&entries.players[client]),
            held_parts(&entries.inputs[client]),
            team_parts(&entries.teams[client]),
        ]
        .concat()
    };
    let mut changes = Vec::new();
    if from.tick != to.tick {
        changes.extend(changes_of(
            0,
            &[match to.tick {
                Some(tick) => (What::Tick, tick),
                None => (What::Outside, 0),
            }],
        ));
    }
    for client in 0..to.entries.players.len() {
        let before = parts(from, client);
        let mut after = parts(to, client);
        after.retain(|part| !before.contains(part));
        changes.extend(changes_of(client as u8, &after));
    }
    changes
}
