//! What the replay program must print: libtw2's answers, with the two ends that libtw2 does not have.

use crate::run::Answer;
use crate::run::Pace;
use crate::run::Run;
use crate::text;
use libtw2_teehistorian::raw::Item;

const WINDOW: usize = 65536;
pub const LARGEST_CLIENT: i32 = 127;

#[derive(Clone, Copy, PartialEq)]
pub enum Left {
    /// libtw2 takes a client above 127, where the replay program refuses 10.
    Client,
    /// A call needs more than a window.
    TooLong,
}

pub struct Expected {
    pub text: String,
    /// How the body left the domain of comparison, if it did.
    pub left: Option<Left>,
}

pub fn expected(input: &[u8]) -> Expected {
    let mut text = String::new();
    let end = read(input, |event| {
        text.push_str(&text::event(event));
        text.push('\n');
    });
    text.push_str(&end.line);
    text.push('\n');
    Expected {
        text,
        left: end.left,
    }
}

/// The replay program's last line, and how the body left the domain of comparison, if it did.
pub struct End {
    pub line: String,
    pub left: Option<Left>,
}

/// Shows each event that the replay program has a line for.
pub fn read(input: &[u8], mut show: impl FnMut(&Item)) -> End {
    let Some(mut run) = start(input) else {
        return End {
            line: "refused 2".to_string(),
            left: None,
        };
    };
    loop {
        let (line, left) = match run.call() {
            Answer::Event(event) if has_large_client(&event) => {
                ("refused 10".to_string(), Some(Left::Client))
            }
            Answer::Event(event) => {
                show(&event);
                continue;
            }
            Answer::Finish => ("finish".to_string(), None),
            Answer::Refused(number) => (format!("refused {number}"), None),
            Answer::Stopped => ("too long".to_string(), Some(Left::TooLong)),
        };
        return End { line, left };
    }
}

/// None if there is no version, or another than 1 and 2.
pub fn start(input: &[u8]) -> Option<Run<'_>> {
    let (version, body) = input.split_first()?;
    let pace = if body.len() < WINDOW {
        Pace::Whole
    } else {
        Pace::AtMost(WINDOW)
    };
    Run::new(*version, body, pace)
}

pub fn has_large_client(event: &Item) -> bool {
    match event {
        Item::PlayerNew(i) => i.cid > LARGEST_CLIENT,
        Item::Input(i) => i.cid > LARGEST_CLIENT,
        _ => false,
    }
}
