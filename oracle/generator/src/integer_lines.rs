//! Lines of hex for the integers command.

use crate::hex;
use crate::integer::forms;
use crate::integer::TELLING;
use crate::noise;
use crate::random::Random;
use std::collections::HashSet;

/// The fixed list, then random bytes, up to `count` lines.
pub fn integer_lines(seed: u64, count: usize) -> Vec<String> {
    let mut random = Random::new(&[seed, 101]);
    let mut lines = fixed();
    lines.truncate(count);
    while lines.len() < count {
        lines.push(hex(&random_bytes(&mut random)));
    }
    lines
}

/// Each single byte, each last byte after several beginnings, and every form of the telling numbers,
/// whole and cut at every length.
fn fixed() -> Vec<String> {
    let mut list: Vec<Vec<u8>> = (0..=255).map(|byte| vec![byte]).collect();
    for last in 0..=255 {
        list.push(vec![0x80, last]);
        list.push(vec![0xc1, 0x80, last]);
        list.push(vec![0xbf, 0x80, 0xff, 0x80, last]);
        list.push(vec![0xff, 0xff, 0xff, 0xff, last]);
    }
    for form in TELLING.into_iter().flat_map(forms) {
        list.extend((0..=form.len()).map(|end| form[..end].to_vec()));
        list.push([form, vec![0x40]].concat());
    }
    let mut seen = HashSet::new();
    list.into_iter()
        .map(|bytes| hex(&bytes))
        .filter(|line| seen.insert(line.clone()))
        .collect()
}

fn random_bytes(random: &mut Random) -> Vec<u8> {
    let length = random.below(7);
    let mut bytes = if random.one_in(2) {
        random.bytes(length)
    } else {
        noise::telling(length, random)
    };
    if random.one_in(2) {
        bytes.iter_mut().take(4).for_each(|byte| *byte |= 0x80);
    }
    bytes
}
