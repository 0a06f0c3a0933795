//! Scripts as they are written and read.

use super::listed;
use super::Script;
use super::Step;
use super::What;
use crate::framed::parted;

const STEPS: &str = "read:258,start:0:2147483647,go:1:4294967295,board:2:0,look:2:-1,splits:0:7";

#[test]
fn read_as_written() {
    let script = Script::listed(STEPS).expect("steps");
    assert_eq!(script.to_string(), STEPS);
    assert_eq!(
        script.0[4],
        Step {
            what: What::Look,
            place: 2,
            number: u32::MAX
        }
    );
    let case = script.framed(&[0x01, 0x40]);
    let head = [
        40, 0, 0, 6, 0, 0, 0, 2, 1, 0, 0, 1, 0, 0xff, 0xff, 0xff, 0x7f,
    ];
    assert_eq!(case[..17], head);
    let (inner, rest) = parted(&case).expect("a case");
    assert_eq!(Script::read(inner), Some((script, &[0x01, 0x40][..])));
    assert!(rest.is_empty());
    assert_eq!(listed("- 0140"), Some(vec![4, 0, 0, 0, 0, 1, 0x40]));
    assert_eq!(listed(&format!("{STEPS} 0140")), Some(case));
}

#[test]
fn refused() {
    for steps in [
        "",
        "read",
        "read:0:1",
        "read:-2147483649",
        "read:4294967296",
        "go:0",
        "go:3:1",
        "go:-1:1",
        "stop:0:1",
        "read:1,",
    ] {
        assert_eq!(Script::listed(steps), None, "{steps}");
    }
    // too few bytes for a step, a step that isn't there, a place that isn't there
    assert_eq!(Script::read(&[1]), None);
    assert_eq!(Script::read(&[1, 0, 0, 0, 0, 0, 0]), None);
    assert_eq!(Script::read(&[1, 0, 6, 0, 0, 0, 0, 0]), None);
    assert_eq!(Script::read(&[1, 0, 2, 3, 0, 0, 0, 0]), None);
}

#[test]
fn one_step_less() {
    let script = Script::listed("read:1,go:0:2,go:1:3").expect("steps");
    let shorter: Vec<String> = script.shorter().map(|one| one.to_string()).collect();
    assert_eq!(shorter, ["go:0:2,go:1:3", "read:1,go:1:3", "read:1,go:0:2"]);
}
