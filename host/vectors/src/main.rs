//! Writes test vectors into a directory, as files `stdin` and `stdout`. The
//! same octets every time.
//!
//! - `vectors DIRECTORY`: vectors over names, addresses and parameters, one a
//!   line, and for each the line that the reference answers; what the rules
//!   say of the first of them is stated, and the reference must confirm it.
//! - `vectors boundaries DIRECTORY [LIST]`: boundary cases of reading and
//!   writing, in octets, and for each the line that the rules state and the
//!   reference confirms. The file LIST tells the source of each line.

mod addresses;
mod boundaries;
mod cases;
mod names;
mod numbers;
mod params;
mod stated;

use cases::Cases;
use numbers::Numbers;
use std::ffi::OsString;
use std::path::Path;
use std::{env, fs, io, process};

/// The reader of the vectors holds them whole, in 65,536 octets.
const MAX_STDIN: usize = 64_000;

fn all_cases() -> Cases {
    let mut numbers = Numbers::new(9463);
    let mut cases = Cases::default();
    stated::add(&mut cases);
    names::add_wire(&mut cases, &mut numbers, 600);
    names::add_text(&mut cases, &mut numbers, 600);
    addresses::add_ipv4(&mut cases, &mut numbers, 150);
    addresses::add_ipv6(&mut cases, &mut numbers, 150);
    params::add(&mut cases, &mut numbers, 910);
    cases
}

fn write_files(directory: &Path) -> io::Result<()> {
    let cases = all_cases();
    let disagreements = cases.disagreements();
    if !disagreements.is_empty() {
        return Err(io::Error::other(disagreements.join("\n")));
    }
    let stdin = cases.stdin();
    assert!(stdin.len() < MAX_STDIN, "{} octets", stdin.len());
    fs::write(directory.join("stdin"), stdin)?;
    fs::write(directory.join("stdout"), cases.stdout())
}

/// Does what the arguments ask for; none if they ask for nothing known.
fn run(arguments: &[OsString]) -> Option<io::Result<()>> {
    match arguments {
        [directory] => Some(write_files(Path::new(directory))),
        [kind, directory, list @ ..] if kind == "boundaries" && list.len() < 2 => {
            let list = list.first().map(Path::new);
            Some(boundaries::write_files(Path::new(directory), list))
        }
        _ => None,
    }
}

fn main() {
    let arguments: Vec<OsString> = env::args_os().skip(1).collect();
    match run(&arguments) {
        Some(Ok(())) => {}
        Some(Err(error)) => {
            eprintln!("vectors: {error}");
            process::exit(1);
        }
        None => {
            eprintln!("usage: vectors DIRECTORY | vectors boundaries DIRECTORY [LIST]");
            process::exit(2);
        }
    }
}

#[cfg(test)]
mod tests {
    use super::*;
    use cases::Kind;

    #[test]
    fn size_and_counts() {
        let cases = all_cases();
        let stdin = cases.stdin();
        assert!(stdin.len() < MAX_STDIN, "{} octets", stdin.len());
        assert_eq!(stdin.lines().count(), cases.stdout().lines().count());
        let kinds = [Kind::Wire, Kind::Text, Kind::Ipv4, Kind::Ipv6, Kind::Params];
        assert_eq!(
            kinds.map(|kind| cases.count(kind)),
            [600, 600, 150, 150, 910]
        );
        assert_eq!(all_cases().stdin(), stdin);
    }

    /// What the rules say of the cases that are stated.
    #[test]
    fn the_reference_agrees() {
        let disagreements = all_cases().disagreements();
        assert!(disagreements.is_empty(), "{}", disagreements.join("\n"));
    }

    /// A statement that is wrong is found.
    #[test]
    fn wrong_statements_are_found() {
        let mut cases = Cases::default();
        cases.state("right", Kind::Params, [], "0");
        cases.state("wrong fault", Kind::Params, [0], "0");
        cases.state("wrong place", Kind::Wire, *b"\x03a--\0", "bad 2");
        cases.state("wrong list", Kind::Ipv4, [127, 0, 0, 1], "1 0 7f000001");
        let found = cases.disagreements();
        assert_eq!(found.len(), 3);
        assert!(found.iter().all(|told| told.starts_with("wrong")));
    }

    #[test]
    fn every_answer_is_met_often() {
        let stdout = all_cases().stdout();
        let lines = |start: &str| {
            stdout
                .lines()
                .filter(|line| line.starts_with(start))
                .count()
        };
        for start in [
            "w ok", "w bad", "t ok", "t bad", "p 0", "p 26", "p 27", "p 28",
        ] {
            assert!(lines(start) >= 50, "{start}: {}", lines(start));
        }
        for start in [
            "a 0 1", "a 1 0", "a 1 1", "a 0 0", "b 0 1", "b 1 0", "b 1 1", "b 0 0",
        ] {
            assert!(lines(start) >= 1, "{start}");
        }
    }
}
