//! Places against a search (RULES N5): a place is found by asking of every
//! leading part whether some acceptable name begins so. Two searches are made:
//! one over the states of a grammar that knows the limits only as "the whole
//! name has at most so many octets", one over whole names.

use crate::common::Numbers;
use crate::states::{Search, Text, Wire};
use dnr_reference::{check_text, check_wire};
use std::collections::HashSet;

/// All strings over the alphabet up to a length.
fn strings(alphabet: &[u8], longest: usize) -> Vec<Vec<u8>> {
    let mut all = vec![Vec::new()];
    let mut start = 0;
    for _ in 0..longest {
        let end = all.len();
        for index in start..end {
            for octet in alphabet {
                let mut longer = all[index].clone();
                longer.push(*octet);
                all.push(longer);
            }
        }
        start = end;
    }
    all
}

const WIRE_ALPHABET: &[u8] = &[0, 1, 2, b'a', b'-', b'.', 64];
const TEXT_ALPHABET: &[u8] = &[0, b'a', b'Z', b'9', b'-', b'.', b'_'];

#[test]
fn short_wire_names_by_states() {
    let mut search = Search::<Wire>::new();
    for name in strings(WIRE_ALPHABET, 6) {
        assert_eq!(check_wire(&name), search.check(&name), "{name:?}");
    }
}

#[test]
fn short_text_names_by_states() {
    let mut search = Search::<Text>::new();
    for name in strings(TEXT_ALPHABET, 6) {
        assert_eq!(check_text(&name), search.check(&name), "{name:?}");
    }
}

/// A label as RULES N2 allows it, whole.
fn is_label(label: &[u8]) -> bool {
    let good = |octet: &u8| octet.is_ascii_alphanumeric();
    (1..=63).contains(&label.len())
        && label.iter().all(|octet| good(octet) || *octet == b'-')
        && label.first().is_some_and(good)
        && label.last().is_some_and(good)
}

fn is_text(name: &[u8]) -> bool {
    name.len() <= 253 && name.split(|octet| *octet == b'.').all(is_label)
}

fn is_wire(name: &[u8]) -> bool {
    fn labels(rest: &[u8], some: bool) -> bool {
        match rest {
            [0] => some,
            [length, after @ ..] if *length > 0 && after.len() >= usize::from(*length) => {
                let (label, behind) = after.split_at(usize::from(*length));
                is_label(label) && labels(behind, true)
            }
            _ => false,
        }
    }
    name.len() <= 255 && labels(name, false)
}

/// The leading parts, up to a length, that some whole name begins with.
fn viable_parts(
    alphabet: &[u8],
    longest: usize,
    endings: &[Vec<u8>],
    is_whole: fn(&[u8]) -> bool,
) -> HashSet<Vec<u8>> {
    let mut viable = HashSet::from([Vec::new()]);
    let mut level = vec![Vec::new()];
    for _ in 0..longest {
        let mut longer = Vec::new();
        for part in &level {
            for octet in alphabet {
                let part = [&part[..], &[*octet]].concat();
                let ends = |ending: &Vec<u8>| is_whole(&[&part[..], ending].concat());
                if endings.iter().any(ends) {
                    longer.push(part);
                }
            }
        }
        viable.extend(longer.iter().cloned());
        level = longer;
    }
    viable
}

fn check_by_parts(viable: &HashSet<Vec<u8>>, name: &[u8], whole: bool) -> Result<(), usize> {
    let bad = (0..name.len()).find(|place| !viable.contains(&name[..=*place]));
    match bad {
        Some(place) => Err(place),
        None if whole => Ok(()),
        None => Err(name.len()),
    }
}

#[test]
fn short_wire_names_by_whole_names() {
    // Any few octets, or the rest of a label and the root.
    let mut endings = strings(&[0, 1, b'a'], 3);
    endings.extend((0..=63).map(|left| [vec![b'a'; left], vec![0]].concat()));
    let viable = viable_parts(WIRE_ALPHABET, 6, &endings, is_wire);
    for name in strings(WIRE_ALPHABET, 6) {
        let expected = check_by_parts(&viable, &name, is_wire(&name));
        assert_eq!(check_wire(&name), expected, "{name:?}");
    }
}

#[test]
fn short_text_names_by_whole_names() {
    let viable = viable_parts(TEXT_ALPHABET, 6, &strings(b"a-.", 2), is_text);
    for name in strings(TEXT_ALPHABET, 6) {
        let expected = check_by_parts(&viable, &name, is_text(&name));
        assert_eq!(check_text(&name), expected, "{name:?}");
    }
}

/// Labels of many lengths that come near the limits, damaged here and there.
fn long_name(numbers: &mut Numbers, wire: bool) -> Vec<u8> {
    let goal = 240 + numbers.below(25);
    let long = numbers.below(2) == 0;
    let mut name = Vec::new();
    while name.len() < goal {
        let left = goal - name.len();
        let length = match numbers.below(4) {
            0 if long => 63,
            0 => 1,
            1 => left.min(63),
            2 => 1 + numbers.below(if long { 64 } else { 9 }),
            _ => 1 + numbers.below(left.min(63)),
        };
        if wire {
            name.push(length as u8);
        } else if !name.is_empty() {
            name.push(b'.');
        }
        for _ in 0..length {
            name.push(if numbers.below(400) == 0 { b'-' } else { b'x' });
        }
    }
    if wire && numbers.below(4) != 0 {
        name.push(0);
    }
    for _ in 0..numbers.below(3) {
        let from = name.len() - numbers.below(20).min(name.len() - 1) - 1;
        name[from] = numbers.pick(&[0, 1, 2, 9, 62, 63, 64, b'a', b'-', b'.', b'_']);
    }
    if numbers.below(3) == 0 {
        name.truncate(name.len() - numbers.below(20));
    }
    name
}

#[test]
fn long_names_by_states() {
    let mut numbers = Numbers(1);
    let (mut wire, mut text) = (Search::<Wire>::new(), Search::<Text>::new());
    let (mut good_wire, mut good_text) = (0, 0);
    for _ in 0..6_000 {
        let name = long_name(&mut numbers, true);
        assert_eq!(check_wire(&name), wire.check(&name), "{name:?}");
        assert_eq!(check_wire(&name).is_ok(), is_wire(&name));
        good_wire += usize::from(is_wire(&name));
        let name = long_name(&mut numbers, false);
        assert_eq!(check_text(&name), text.check(&name), "{name:?}");
        assert_eq!(check_text(&name).is_ok(), is_text(&name));
        good_text += usize::from(is_text(&name));
    }
    assert!(
        good_wire > 150 && good_text > 150,
        "{good_wire} {good_text}"
    );
}
