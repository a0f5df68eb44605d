//! Boundary cases of reading and writing, in octets.
//!
//! The file `stdin` holds the cases one after another. An area to read: the
//! octet `r`, the carrier (1 octet), the room of the output (4 octets), the
//! length (4 octets) and so many octets. A sheet to write: the octet `w`, the
//! room (4), the length (4) and so many octets. Numbers stand with the most
//! significant octet first.
//!
//! The file `stdout` has one line a case, `r NUMBER LENGTH FOUND DISCARDED
//! FAULT PLACE OCTETS KEPT` or `w NUMBER LENGTH PLACE OCTETS KEPT`. The numbers
//! are decimal. PLACE is that of a bad name, 0 where fault or number is not 22
//! (RULES N5, W11, T8). OCTETS are the first LENGTH octets of the output, two
//! lower-case hexadecimal digits each, or `-` for none. KEPT is always `kept`:
//! every octet of the output buffer from LENGTH to the room is as it was before
//! the call.
//!
//! What a case answers is stated here, from docs/RULES.md and docs/DECISIONS.md,
//! with octets laid out by hand. The files are written only if the reference
//! gives the same answers, so each line has two sources.
//!
//! Every case names where its answer comes from: `RULES N1` a rule, and
//! `RFC 9464 §A.1` an RFC's example. A call that several sources speak of stands
//! once, with all of them.

mod blocks;
mod cuts;
mod dhcp4;
mod ike;
mod inputs;
mod layout;
mod limits;
mod names;
mod params;
mod pieces;
mod places;
mod places_given;
mod rfc8973;
mod rfc9460;
mod rfc9463;
mod rfc9464;
mod router;
mod sheets;
mod table;
mod wrong_readings;

use std::path::Path;
use std::{fs, io};
use table::Table;

/// All cases together stay below so many octets.
const MAX_STDIN: usize = 1_048_576;

/// The whole table.
fn all_cases() -> Table {
    let mut table = Table::default();
    for add in [
        pieces::add,
        inputs::add,
        limits::add,
        names::add,
        places::add,
        places_given::add,
        params::add,
        sheets::add,
        blocks::add,
        dhcp4::add,
        router::add,
        ike::add,
        wrong_readings::add,
        cuts::add,
        rfc9463::add,
        rfc9464::add,
        rfc9460::add,
        rfc8973::add,
    ] {
        add(&mut table);
    }
    table
}

/// The table, if the reference agrees with all of it and it is not too long.
fn agreed_cases() -> io::Result<Table> {
    let table = all_cases();
    let disagreements = table.disagreements();
    if !disagreements.is_empty() {
        return Err(io::Error::other(disagreements.join("\n")));
    }
    match table.stdin().len() {
        ..MAX_STDIN => Ok(table),
        length => Err(io::Error::other(format!("{length} octets are too many"))),
    }
}

/// Writes `stdin` and `stdout` into the directory and, if it is asked for, a
/// list that tells which line has which source.
pub fn write_files(directory: &Path, list: Option<&Path>) -> io::Result<()> {
    let table = agreed_cases()?;
    fs::write(directory.join("stdin"), table.stdin())?;
    fs::write(directory.join("stdout"), table.stdout())?;
    list.map_or(Ok(()), |file| fs::write(file, table.sources()))
}

#[cfg(test)]
mod tests {
    use super::*;
    use std::collections::HashSet;

    /// The second source of every line.
    #[test]
    fn the_reference_agrees() {
        let disagreements = all_cases().disagreements();
        assert!(disagreements.is_empty(), "{}", disagreements.join("\n"));
    }

    /// The cases as a reader of the file takes them off: letter, octets of the
    /// whole case, room.
    fn cases_of(stdin: &[u8]) -> Vec<(u8, &[u8], u32)> {
        let number = |octets: &[u8]| u32::from_be_bytes(octets.try_into().expect("4 octets"));
        let mut cases = Vec::new();
        let mut rest = stdin;
        while let Some(letter) = rest.first() {
            let sizes = match letter {
                b'r' => 2,
                b'w' => 1,
                _ => panic!("no such letter: {letter}"),
            };
            let room = number(&rest[sizes..sizes + 4]);
            let length = number(&rest[sizes + 4..sizes + 8]) as usize;
            let (case, behind) = rest.split_at(sizes + 8 + length);
            cases.push((*letter, case, room));
            rest = behind;
        }
        cases
    }

    /// The format: every case has its line, of its kind, and stands there once.
    #[test]
    fn cases_and_lines() {
        let table = all_cases();
        let (stdin, stdout) = (table.stdin(), table.stdout());
        assert!(stdin.len() < MAX_STDIN, "{} octets", stdin.len());
        let cases = cases_of(&stdin);
        let lines: Vec<&str> = stdout.lines().collect();
        assert_eq!(cases.len(), lines.len());
        assert_eq!(table.sources().lines().count(), lines.len());
        let mut seen = HashSet::new();
        for ((letter, case, room), line) in cases.into_iter().zip(lines) {
            let words: Vec<&str> = line.split(' ').collect();
            assert_eq!(words.len(), if letter == b'r' { 9 } else { 6 }, "{line}");
            assert_eq!(words[0].as_bytes(), [letter], "{line}");
            assert_eq!(words[words.len() - 1], "kept", "{line}");
            let length: u32 = words[2].parse().expect("a length");
            assert!(length <= room && room <= 65_536, "{line}");
            assert!(seen.insert(case), "twice: {line}");
        }
        assert_eq!(all_cases().stdin(), stdin);
    }

    /// Every number that reading and writing can answer, and every fault.
    #[test]
    fn every_number_is_met() {
        let stdout = all_cases().stdout();
        let met = |letter: &str, place: usize, number: u32| {
            stdout.lines().any(|line| {
                let words: Vec<&str> = line.split(' ').collect();
                words[0] == letter && words[place] == number.to_string()
            })
        };
        for number in 0..=5 {
            assert!(met("r", 1, number), "reading, {number}");
        }
        for fault in 20..=29 {
            assert!(met("r", 5, fault), "fault {fault}");
        }
        for number in [0, 2, 4, 5].into_iter().chain(21..=28).chain(40..=44) {
            assert!(met("w", 1, number), "writing, {number}");
        }
    }

    /// A statement that is wrong in any part is found.
    #[test]
    fn wrong_statements_are_found() {
        let done = table::Done::kept(0, b"RSV\x00\x01\x02\x00");
        let mut wrong = vec![done.clone(); 4];
        wrong[0].found = 1;
        wrong[1].discarded = 1;
        wrong[2].fault = table::fault(20);
        wrong[3].sheet[5] = 3;
        let mut table = Table::default();
        table.read("right", 2, 7, &[], &done);
        for (done, room) in wrong.iter().zip(8..) {
            table.read("wrong counts or sheet", 2, room, &[], done);
        }
        table.read_refused("wrong refusal", 2, 6, &[], 3);
        table.write("wrong octets", 8, &done.sheet, &[0]);
        table.write_refused("wrong refusal", 9, &done.sheet, 5);
        let empty_name = b"\x00\x90\x00\x04\x00\x01\x00\x00";
        table.discarded("wrong place", 2, empty_name, table::bad_name(7));
        let empty_name = b"RSV\x00\x01\x02\x01\x00\x01\x00\x00\x00\x00\x00\x00";
        table.write_refused("wrong place", 0, empty_name, table::bad_name(16));
        let found = table.disagreements();
        assert_eq!(found.len(), 9);
        assert!(found.iter().all(|told| told.starts_with("wrong")));
    }
}
