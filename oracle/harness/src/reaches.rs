//! `oracle compare_reach N SEED PROGRAM`: reach_vectors against the model and libtw2's reader, on generated pairs, many in one run.

use crate::aims::aimed;
use crate::gathered::Case;
use crate::gathered::Gathered;
use crate::reach::told;
use crate::reach::Answer;
use crate::reach::Cause;
use crate::reach::Told;
use crate::reach::PLAYER_TEAM;
use crate::subject::Task;
use generator::Sort;
use std::io;
use std::process::ExitCode;

/// Longer inputs are left out.
const LONGEST: usize = 8000;

/// The lengths that are counted: none, a few bytes, and so on up to these.
const LENGTHS: [usize; 6] = [0, 9, 99, 999, 7999, 16384];

#[derive(Default)]
struct Count {
    pairs: u64,
    left_out: u64,
    lost: u64,
    events: u64,
    bytes: u64,
    longest: usize,
    lengths: [u64; LENGTHS.len()],
    commands: u64,
    /// PlayerTeam records.
    teams: u64,
    /// By number.
    refused: [u64; 24],
    /// Of 23, with other causes beside and alone.
    outside: u64,
    tick: [u64; 2],
    inputs: [u64; 2],
    team: [u64; 2],
    version: [u64; 2],
    player: [u64; 2],
}

impl Count {
    fn count(&mut self, told: &Told) {
        self.pairs += 1;
        self.lost += u64::from(told.is_lost);
        match &told.answer {
            Answer::Written(bytes) => {
                let size = bytes.len();
                let place = LENGTHS.iter().position(|most| size <= *most);
                self.lengths[place.expect("no choice is longer")] += 1;
                self.events += told.events;
                self.bytes += size as u64;
                self.longest = self.longest.max(size);
                self.commands += u64::from(bytes.ends_with(&[0x49, 0x40, 0, 0, 0]));
                let teams = bytes.windows(PLAYER_TEAM.len());
                self.teams += teams.filter(|bytes| **bytes == PLAYER_TEAM).count() as u64;
            }
            Answer::Refused(number) => self.refused[usize::from(*number)] += 1,
        }
        for cause in &told.causes {
            let alone = usize::from(told.causes.len() == 1);
            match cause {
                Cause::Outside => self.outside += 1,
                Cause::Tick => self.tick[alone] += 1,
                Cause::Inputs => self.inputs[alone] += 1,
                Cause::Team => self.team[alone] += 1,
                Cause::Version => self.version[alone] += 1,
                Cause::Player => self.player[alone] += 1,
            }
        }
    }
    fn summary(&self, seed: u64, parts: &[String], differences: u64) -> String {
        let refused = |number: usize| self.refused[number];
        let written: u64 = self.lengths.iter().sum();
        let lengths = LENGTHS.iter().zip(self.lengths);
        let lengths: Vec<String> = lengths
            .map(|(most, count)| format!("{count} up to {most}"))
            .collect();
        let each = |[beside, alone]: [u64; 2]| format!("{} ({alone} alone)", beside + alone);
        format!(
            "reach: seed {seed}; {}; {} pairs, {} left out; written: {written}, of bytes {}, the longest {}; {} bytes, {} events; {} end with the empty command; {} PlayerTeams; brought libtw2 elsewhere: {}; refused 9: {}, 17: {}, 18: {}, 22: {}, 23: {}: outside a tick {}, tick {}, inputs {}, team {}, team in version 1 {}, player {}; differences: {differences}",
            parts.join(", "),
            self.pairs,
            self.left_out,
            lengths.join(", "),
            self.longest,
            self.bytes,
            self.events,
            self.commands,
            self.teams,
            self.lost,
            refused(9),
            refused(17),
            refused(18),
            refused(22),
            refused(23),
            self.outside,
            each(self.tick),
            each(self.inputs),
            each(self.team),
            each(self.version),
            each(self.player),
        )
    }
}

/// So many readers of each sort, but `long`, each with a board made for it; the other input is that of the index before.
pub fn command(count: u64, seed: u64, sorts: &[Sort], program: &str) -> io::Result<ExitCode> {
    let mut gathered = Gathered::new(program);
    let mut total = Count::default();
    let mut parts = Vec::new();
    for &sort in sorts.iter().filter(|sort| **sort != Sort::Long) {
        let mut other = Vec::new();
        for index in 0..count {
            let input = generator::input(sort, seed, index);
            let origin = format!("generate {} {seed} {index}", sort.name());
            let aim = if input.len() <= LONGEST {
                aimed(&input, &other, &[seed, sort as u64, index, 2])
            } else {
                None
            };
            match aim {
                Some((reader, goal)) => {
                    let told = told(&reader, &goal);
                    total.count(&told);
                    let case = Case {
                        input: reader,
                        task: Task::Reach(goal),
                        origin,
                    };
                    total.left_out += u64::from(!gathered.add(case, &told.text)?);
                }
                None => total.left_out += 1,
            }
            if input.len() <= LONGEST {
                other = input;
            }
        }
        parts.push(format!("{} {count}", sort.name()));
    }
    gathered.compare()?;
    let differences = gathered.differences();
    println!("{}", total.summary(seed, &parts, differences));
    Ok(ExitCode::from(u8::from(differences + total.lost > 0)))
}
