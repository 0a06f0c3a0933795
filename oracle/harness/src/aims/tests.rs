//! Of a few inputs all that can come of a pair is made.

use super::aimed;
use crate::reach::told;
use crate::reach::Answer;
use crate::reach::Cause;
use generator::Sort;

#[test]
fn all_is_made() {
    let mut written = [0; 2];
    let mut refused = [0; 24];
    let mut causes = [0; 6];
    for index in 0..400 {
        let input = generator::input(Sort::Match, 1, index);
        let other = generator::input(Sort::Inputs, 1, index);
        let (reader, goal) = aimed(&input, &other, &[index]).expect("a pair");
        assert_eq!(
            aimed(&input, &other, &[index]),
            Some((reader.clone(), goal.clone()))
        );
        let told = told(&reader, &goal);
        assert!(!told.is_lost, "{index}");
        match told.answer {
            Answer::Written(bytes) => written[usize::from(bytes.is_empty())] += 1,
            Answer::Refused(number) => refused[usize::from(number)] += 1,
        }
        for cause in told.causes {
            causes[cause as usize] += 1;
        }
    }
    assert!(written.iter().all(|count| *count > 0), "{written:?}");
    assert!(causes.iter().all(|count| *count > 0), "{causes:?}");
    assert!(causes[Cause::Tick as usize] < refused[23]);
    for (number, count) in refused.iter().enumerate() {
        let can = [9, 17, 18, 22, 23].contains(&number);
        assert_eq!(*count > 0, can, "{number}");
    }
}

#[test]
fn no_version() {
    assert!(aimed(&[], &[1], &[1]).is_none());
    assert!(aimed(&[3, 0x40], &[1], &[1]).is_none());
    for seed in 0..50 {
        assert!(aimed(&[1], &[], &[seed]).is_some());
        assert!(aimed(&[2, 0x40], &[0, 1], &[seed]).is_some());
    }
}
