//! `oracle compare N SEED REPLAY LOOKUPS LADDER REWIND GOING`: the programs against libtw2 on generated inputs.

use crate::batch::Batch;
use crate::expected::expected;
use crate::expected::Left;
use crate::goings::Goings;
use crate::invalid;
use crate::lists::Lists;
use crate::rewinds::Rewinds;
use crate::skips::Skips;
use crate::subject::Subject;
use crate::subject::Task;
use generator::Sort;
use std::io;
use std::process::ExitCode;

/// Inputs of the sort `long` take a second or two each: there is one for this many of each other sort.
const LONG_SHARE: u64 = 200;

/// The programs' files.
pub struct Programs<'a> {
    pub replay: &'a str,
    pub lookups: &'a str,
    pub ladder: &'a str,
    pub rewind: &'a str,
    pub going: &'a str,
}

#[derive(Default)]
struct Count {
    inputs: u64,
    negative: u64,
    client: u64,
    too_long: u64,
    skips: Skips,
    differences: u64,
}

/// The sorts named, with spaces between; all if none is.
pub fn sorts(names: &str) -> io::Result<Vec<Sort>> {
    let named = |name| Sort::named(name).ok_or_else(|| invalid(&format!("{name} is not a sort")));
    let chosen: Vec<Sort> = names
        .split_whitespace()
        .map(named)
        .collect::<Result<_, _>>()?;
    if chosen.is_empty() {
        return Ok(generator::SORTS.to_vec());
    }
    Ok(chosen)
}

pub fn command(count: u64, seed: u64, sorts: &[Sort], programs: &Programs) -> io::Result<ExitCode> {
    let mut total = Count::default();
    let mut batch = Batch::new(programs.lookups);
    let mut lists = Lists::new(programs.ladder);
    let mut rewinds = Rewinds::new(programs.rewind);
    let mut goings = Goings::new(programs.going);
    let mut parts = Vec::new();
    for &sort in sorts {
        let inputs = sort_count(sort, count);
        for index in 0..inputs {
            let input = generator::input(sort, seed, index);
            let origin = format!("generate {} {seed} {index}", sort.name());
            compare_one(programs.replay, &input, &origin, &mut total)?;
            lists.compare(&input, &origin)?;
            rewinds.add(&[seed, sort as u64, index], input.clone(), origin.clone())?;
            goings.add(
                &[seed, sort as u64, index, 1],
                input.clone(),
                origin.clone(),
            )?;
            batch.add(index, input, origin)?;
        }
        parts.push(format!("{} {inputs}", sort.name()));
    }
    batch.compare()?;
    rewinds.compare()?;
    goings.compare()?;
    println!("{}", summary(seed, &parts, &total));
    println!("{}", batch.summary());
    println!("{}", lists.summary());
    println!("{}", rewinds.summary());
    println!("{}", goings.summary());
    let differences = [
        total.differences,
        batch.differences(),
        lists.differences(),
        rewinds.differences(),
        goings.differences(),
    ];
    Ok(ExitCode::from(u8::from(
        differences.iter().any(|count| *count > 0),
    )))
}

fn sort_count(sort: Sort, count: u64) -> u64 {
    match sort {
        Sort::Long => count.div_ceil(LONG_SHARE),
        _ => count,
    }
}

fn compare_one(program: &str, input: &[u8], origin: &str, total: &mut Count) -> io::Result<()> {
    let subject = Subject {
        program,
        task: Task::Replay,
    };
    let wanted = expected(input);
    total.inputs += 1;
    total.skips.add(input);
    total.negative += u64::from(wanted.text.ends_with("refused 21\n"));
    total.client += u64::from(wanted.left == Some(Left::Client));
    total.too_long += u64::from(wanted.left == Some(Left::TooLong));
    if subject.prints(input, &wanted.text)? {
        return Ok(());
    }
    total.differences += 1;
    if total.differences == 1 {
        subject.show(input, origin)?;
    }
    Ok(())
}

fn summary(seed: u64, parts: &[String], total: &Count) -> String {
    format!(
        "replay: seed {seed}; {}; {} inputs, of which {} end in refused 21; TickSkips before a player: inside a tick {}, outside {}; left the domain: {} by refused 10, {} by too long; differences: {}",
        parts.join(", "),
        total.inputs,
        total.negative,
        total.skips.inside,
        total.skips.outside,
        total.client,
        total.too_long,
        total.differences
    )
}
