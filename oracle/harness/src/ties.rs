//! Lists of rows, compared without the order of equal times, which is free.

/// The text with each run of rows of one time in the order of their clients. All else stays in its place, so a text whose
/// rows fall in time, or that has other rows, is not made into the text wanted.
pub fn settled(text: &str) -> String {
    let mut lines: Vec<(Option<Row>, &str)> = text
        .split_inclusive('\n')
        .map(|line| (Row::read(line), line))
        .collect();
    let runs = lines.chunk_by_mut(|(first, _), (second, _)| match (first, second) {
        (Some(first), Some(second)) => first.time == second.time,
        _ => false,
    });
    for run in runs {
        run.sort_by_key(|(row, _)| row.as_ref().map(|row| (row.client, row.tick)));
    }
    lines.into_iter().map(|(_, line)| line).collect()
}

struct Row {
    client: i32,
    time: i32,
    tick: i32,
}

impl Row {
    /// None unless the line is just as a row is written.
    fn read(line: &str) -> Option<Row> {
        let mut words = line.strip_suffix('\n')?.strip_prefix("row ")?.split(' ');
        let mut number = || words.next()?.parse().ok();
        let row = Row {
            client: number()?,
            time: number()?,
            tick: number()?,
        };
        (format!("row {} {} {}\n", row.client, row.time, row.tick) == line).then_some(row)
    }
}

#[cfg(test)]
mod tests {
    use super::settled;

    const WANTED: &str =
        "row 3 -5 1\nrow 0 7 2\nrow 2 7 1\nrow 9 7 3\nrow 1 8 0\nothers 0\nfinish\n";

    #[test]
    fn equal_times_in_any_order_are_the_same() {
        let text = "row 3 -5 1\nrow 9 7 3\nrow 0 7 2\nrow 2 7 1\nrow 1 8 0\nothers 0\nfinish\n";
        assert_eq!(settled(text), WANTED);
        assert_eq!(settled(WANTED), WANTED);
    }

    #[test]
    fn anything_else_differs() {
        for text in [
            // rows that fall in time
            "row 0 7 2\nrow 2 7 1\nrow 9 7 3\nrow 3 -5 1\nrow 1 8 0\nothers 0\nfinish\n",
            "row 3 -5 1\nrow 0 7 2\nrow 2 7 1\nrow 1 8 0\nrow 9 7 3\nothers 0\nfinish\n",
            // a row lost, twice, or with another tick
            "row 3 -5 1\nrow 0 7 2\nrow 2 7 1\nrow 1 8 0\nothers 0\nfinish\n",
            "row 3 -5 1\nrow 0 7 2\nrow 0 7 2\nrow 2 7 1\nrow 9 7 3\nrow 1 8 0\nothers 0\nfinish\n",
            "row 3 -5 1\nrow 0 7 2\nrow 2 7 2\nrow 9 7 3\nrow 1 8 0\nothers 0\nfinish\n",
            // a row behind the count, and rows written otherwise
            "row 3 -5 1\nrow 0 7 2\nrow 2 7 1\nrow 1 8 0\nothers 0\nrow 9 7 3\nfinish\n",
            "row 3 -5 1\nrow 0 +7 2\nrow 2 7 1\nrow 9 7 3\nrow 1 8 0\nothers 0\nfinish\n",
            "row 3 -5 1\nrow 0 7 2 \nrow 2 7 1\nrow 9 7 3\nrow 1 8 0\nothers 0\nfinish\n",
            "row 3 -5 1\nrow 0 7 2\nrow 2 7 1\nrow 9 7 3\nrow 1 8 0\nothers 1\nfinish\n",
            "row 3 -5 1\nrow 0 7 2\nrow 2 7 1\nrow 9 7 3\nrow 1 8 0\nothers 0\nfinish",
        ] {
            assert_ne!(settled(text), WANTED, "{text}");
        }
    }
}
