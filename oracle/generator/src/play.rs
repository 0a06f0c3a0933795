//! Plausible matches.

use crate::body::Body;
use crate::extension;
use crate::random::Random;
use crate::record::Command;

const CLIENTS: usize = 128;

#[derive(Clone, Copy, PartialEq)]
pub enum Style {
    Match,
    Moves,
    Inputs,
    Chat,
    /// Players that come, go and act, few at a time.
    Reels,
}

/// How often each thing happens in a style: once in this many chances, or never for 0.
struct Habits {
    join: usize,
    leave: usize,
    rest: usize,
    input: usize,
    talk: usize,
    skip: usize,
}

impl Style {
    fn habits(self) -> Habits {
        let (join, leave, rest, input, talk, skip) = match self {
            Style::Match => (12, 80, 4, 3, 20, 8),
            Style::Moves => (4, 400, 6, 0, 0, 40),
            Style::Inputs => (4, 200, 3, 1, 0, 20),
            Style::Chat => (10, 60, 2, 0, 2, 4),
            Style::Reels => (2, 6, 3, 2, 25, 6),
        };
        Habits {
            join,
            leave,
            rest,
            input,
            talk,
            skip,
        }
    }
}

/// What a match has come to, as far as the next records depend on it.
pub struct Play {
    body: Body,
    version: u8,
    habits: Habits,
    /// Clients from 0 up to this one take part.
    clients: usize,
    present: [bool; CLIENTS],
    has_input: [bool; CLIENTS],
    last_player: Option<usize>,
}

enum Step {
    New,
    Old,
    Diff,
}

pub fn input(style: Style, random: &mut Random) -> Vec<u8> {
    let size = match random.below(20) {
        0 => random.below(20000),
        1..=5 => random.below(3000),
        _ => random.below(600),
    };
    let odd = random.pick(&[0, 0, 0, 50, 4]);
    let mut play = Play::new(style, odd, random);
    play.until(size, random);
    if random.one_in(4) {
        return play.body.done();
    }
    play.body.finish().done()
}

/// Of some hundred events up to two thousand, one in six without an end.
pub fn reels(random: &mut Random) -> Vec<u8> {
    let size = 1500 + random.below(6000);
    let mut play = Play::new(Style::Reels, 0, random);
    play.clients = random.pick(&[1, 2, 4, 8]);
    play.until(size, random);
    if random.one_in(6) {
        return play.body.done();
    }
    play.body.finish().done()
}

pub fn sized(style: Style, size: usize, random: &mut Random) -> Vec<u8> {
    sized_with_odd_forms(style, size, 0, random)
}

/// One integer in `odd` is not in its plain form.
pub fn sized_with_odd_forms(style: Style, size: usize, odd: usize, random: &mut Random) -> Vec<u8> {
    let mut play = Play::new(style, odd, random);
    play.version = 2;
    play.body = Body::new(2).with_odd_forms(odd, random);
    play.clients = 64;
    play.until(size, random);
    play.body.finish().done()
}

/// The beginning of a match, to be continued by something else.
pub fn prelude(random: &mut Random) -> Body {
    let style = random.pick(&[Style::Match, Style::Moves, Style::Inputs, Style::Chat]);
    let mut play = Play::new(style, 0, random);
    let size = random.below(200);
    play.until(size, random);
    play.body
}

impl Play {
    fn new(style: Style, odd: usize, random: &mut Random) -> Play {
        let version = random.between(1, 2) as u8;
        Play {
            body: Body::new(version).with_odd_forms(odd, random),
            version,
            habits: style.habits(),
            clients: random.pick(&[2, 4, 8, 16, 64, 128]),
            present: [false; CLIENTS],
            has_input: [false; CLIENTS],
            last_player: None,
        }
    }
    fn change(&mut self, f: impl FnOnce(Body) -> Body) {
        let body = std::mem::replace(&mut self.body, Body::bare());
        self.body = f(body);
    }
    fn until(&mut self, size: usize, random: &mut Random) {
        while self.body.len() < size {
            self.tick(random);
        }
    }
    fn tick(&mut self, random: &mut Random) {
        let steps = self.steps(random);
        self.begin_tick(steps.first().map(|(client, _)| *client), random);
        for (client, step) in steps {
            self.player(client, step, random);
        }
        for client in 0..self.clients {
            self.beside(client, random);
        }
    }
    /// What each player does in the tick, in the order of the clients.
    fn steps(&self, random: &mut Random) -> Vec<(usize, Step)> {
        (0..self.clients)
            .filter_map(|client| Some((client, self.step(client, random)?)))
            .collect()
    }
    fn step(&self, client: usize, random: &mut Random) -> Option<Step> {
        match self.present[client] {
            false if random.one_in(self.habits.join) => Some(Step::New),
            false => None,
            true if random.one_in(self.habits.leave) => Some(Step::Old),
            true if random.one_in(self.habits.rest) => None,
            true => Some(Step::Diff),
        }
    }
    /// A tick follows from a client that does not rise; where none comes, or at will, a TickSkip says it. It forgets the client, so that
    /// a tick in which nobody acts behind one is not ended by the next.
    fn begin_tick(&mut self, first: Option<usize>, random: &mut Random) {
        let implied = match (first, self.last_player) {
            (Some(first), Some(last)) => first <= last,
            _ => false,
        };
        if !implied || random.one_in(self.habits.skip) {
            let dt = if random.one_in(8) {
                random.between(0, 500)
            } else {
                random.between(0, 2)
            };
            self.change(|body| body.skip(dt));
        }
    }
    fn player(&mut self, client: usize, step: Step, random: &mut Random) {
        let number = client as i32;
        self.last_player = Some(client);
        match step {
            Step::New => {
                let (x, y) = (position(random), position(random));
                self.present[client] = true;
                self.change(|body| body.player_new(number, x, y));
            }
            Step::Old => {
                self.present[client] = false;
                self.change(|body| body.player_old(number));
            }
            Step::Diff => {
                let (dx, dy) = (distance(random), distance(random));
                self.change(|body| body.player_diff(number, dx, dy));
            }
        }
    }
    /// Inputs and talk of a client in the tick.
    fn beside(&mut self, client: usize, random: &mut Random) {
        if self.present[client] && chance(self.habits.input, random) {
            self.input(client, random);
        }
        if chance(self.habits.talk, random) {
            let extensions = self.version == 2;
            self.change(|body| talk(body, client as i32, extensions, random));
        }
    }
    fn input(&mut self, client: usize, random: &mut Random) {
        let mut numbers = [0; 10];
        let number = client as i32;
        if !self.has_input[client] || random.one_in(50) {
            numbers.fill_with(|| random.number());
            self.has_input[client] = true;
            self.change(|body| body.input_new(number, &numbers));
        } else {
            numbers.fill_with(|| difference(random));
            self.change(|body| body.input_diff(number, &numbers));
        }
    }
}

fn chance(habit: usize, random: &mut Random) -> bool {
    habit != 0 && random.one_in(habit)
}

fn position(random: &mut Random) -> i32 {
    if random.one_in(30) {
        return random.number();
    }
    random.between(0, 20000)
}

fn distance(random: &mut Random) -> i32 {
    if random.one_in(60) {
        return random.number();
    }
    random.between(-20, 20)
}

fn difference(random: &mut Random) -> i32 {
    match random.below(40) {
        0 => random.number(),
        1..=9 => random.between(-200, 200),
        _ => 0,
    }
}

/// A record that is handed on as it stands.
pub fn talk(body: Body, client: i32, extensions: bool, random: &mut Random) -> Body {
    let length = if random.one_in(20) {
        random.below(300)
    } else {
        random.below(30)
    };
    match random.below(if extensions { 9 } else { 4 }) {
        0 => body.message(client, &random.bytes(length)),
        1 => body.join(client),
        2 => body.drop(client, &random.text(length)),
        3 => command(body, client, random),
        _ => extension::add_any(body, client, random),
    }
}

fn command(body: Body, client: i32, random: &mut Random) -> Body {
    let count = random.below(17);
    let mut part = || {
        let length = random.below(8);
        random.text(length)
    };
    let name = part();
    let arguments: Vec<Vec<u8>> = (0..count).map(|_| part()).collect();
    body.command(&Command {
        client,
        flags: random.number(),
        name: &name,
        count: count as i32,
        arguments: &arguments,
    })
}
