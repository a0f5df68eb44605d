//! The words of every number, against tests/command/words.txt, in buffers of every size.

use dnr::{raw, words, Fault, Refusal, MAX_WORDS};
use std::os::raw::c_char;

const MARK: u8 = 0xa5;
const GUARD: usize = 16;

/// The numbers and their words: a line has the number, a blank and the words.
fn listed() -> Vec<(usize, &'static str)> {
    let lines = include_str!("../../../tests/command/words.txt").lines();
    lines.map(|line| line.split_once(' ').unwrap()).map(|(number, words)| (number.parse().unwrap(), words)).collect()
}

/// The listed numbers, and others beside and far from them, some of which have the lowest octet of a listed one.
fn all() -> Vec<(usize, &'static str)> {
    let mut all = listed();
    let known: Vec<usize> = all.iter().map(|(number, _)| *number).collect();
    let more = [256, 257, 276, 0x1_0014, usize::MAX - 235, usize::MAX];
    all.extend((0..=255).chain(more).filter(|number| !known.contains(number)).map(|number| (number, "unknown number")));
    all
}

/// Calls the library with `room` octets between guards: what it gives back, and all the octets.
fn said(number: usize, room: usize) -> (usize, Vec<u8>) {
    let mut octets = vec![MARK; GUARD + room + GUARD];
    // SAFETY: `room` octets stand there.
    let length = unsafe { raw::dnr_words(number, octets[GUARD..].as_mut_ptr().cast::<c_char>(), room) };
    (length, octets)
}

#[test]
fn every_number_that_is_given_back_is_listed() {
    let numbers: Vec<usize> = listed().iter().map(|(number, _)| *number).collect();
    assert_eq!(numbers, (0..=5).chain(20..=29).chain(40..=44).collect::<Vec<_>>());
}

#[test]
fn words_of_every_number() {
    for (number, text) in all() {
        assert_eq!(words(number), text, "{number}");
        assert!(text.len() < MAX_WORDS && text.bytes().all(|octet| (0x20..0x7f).contains(&octet)));
    }
}

#[test]
fn refusals_and_faults_say_them() {
    let listed = listed();
    let of = |number: u8| listed.iter().find(|(n, _)| *n == usize::from(number)).unwrap().1;
    for fault in [Fault::FIELD, Fault::NAME, Fault::HINT, Fault::VALUE, Fault::PADDING] {
        assert_eq!(fault.words(), of(fault.number()));
        assert_eq!(fault.to_string(), format!("fault {}: {}", fault.number(), of(fault.number())));
        assert_eq!(Refusal::from(fault).words(), of(fault.number()));
    }
    for refusal in [Refusal::CARRIER, Refusal::FRAMING, Refusal::SHEET, Refusal::TILING, Refusal::LARGE] {
        assert_eq!(refusal.to_string(), format!("refusal {}: {}", refusal.number(), of(refusal.number())));
    }
}

/// As many octets as fit, a closing 0, and nothing else changed.
#[test]
fn every_room() {
    for (number, text) in all() {
        for room in (0..=text.len() + 2).chain([MAX_WORDS, 4096]) {
            let fits = text.len().min(room.saturating_sub(1));
            let mut wanted = vec![MARK; GUARD + room + GUARD];
            if room > 0 {
                wanted[GUARD..GUARD + fits].copy_from_slice(&text.as_bytes()[..fits]);
                wanted[GUARD + fits] = 0;
            }
            assert_eq!(said(number, room), (fits, wanted), "{number} with {room}");
        }
    }
}

#[test]
fn no_room_at_null() {
    for number in [0, 22, usize::MAX] {
        // SAFETY: a null pointer goes with length 0.
        assert_eq!(unsafe { raw::dnr_words(number, std::ptr::null_mut(), 0) }, 0);
    }
}
