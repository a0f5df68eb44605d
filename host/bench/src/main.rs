//! One table: the proved library against the reference implementation and against memcpy of the same octets, in one run.
//!
//! The three are timed in turn within each of many short rounds, so that they meet the same machine. A time is the best round's; the ratio of
//! library and reference is the median of the rounds' ratios, which other work on the machine moves least. The buffers are not cleared
//! between calls, and what a call gives back stays where the call left it: a copy in pieces wider than the stores before it waits for those.
//! Growth is the library's time on input of twice the size, divided by its time here. Given words, it times the rows that have one of them in
//! their name. Given `--before` it leaves out the rows that the library, which then is another version's, answers differently.

use std::hint::black_box;
use std::time::{Duration, Instant};

/// The argument that says that the library is another version's.
const BEFORE: &str = "--before";
const ROUNDS: usize = 301;
const ROUND: Duration = Duration::from_micros(300);

/// The best time of one call of library, reference and memcpy, in nanoseconds, and the median ratio of library and reference.
struct Times {
    best: [f64; 3],
    ratio: f64,
}

/// The time of one call, in nanoseconds.
fn timed(call: &mut dyn FnMut()) -> f64 {
    let start = Instant::now();
    let mut n = 0u32;
    while start.elapsed() < ROUND {
        for _ in 0..8 {
            call();
        }
        n += 8;
    }
    start.elapsed().as_nanos() as f64 / f64::from(n)
}

fn times(calls: [&mut dyn FnMut(); 3]) -> Times {
    let mut best = [f64::MAX; 3];
    let mut ratios = Vec::with_capacity(ROUNDS);
    for round in 0..ROUNDS {
        let mut now = [0.0; 3];
        // the library first in one round, the reference first in the next
        for turn in if round % 2 == 0 { [0, 1, 2] } else { [1, 0, 2] } {
            now[turn] = timed(calls[turn]);
            best[turn] = best[turn].min(now[turn]);
        }
        ratios.push(now[0] / now[1]);
    }
    ratios.sort_by(f64::total_cmp);
    Times { best, ratio: ratios[ROUNDS / 2] }
}

/// Whether the library answers as the reference does. Only another version's may answer differently.
fn alike<A: PartialEq + std::fmt::Debug>(library: A, reference: A) -> bool {
    let same = library == reference;
    assert!(same || std::env::args().any(|a| a == BEFORE), "{library:?} of the library, {reference:?} of the reference");
    same
}

fn timed_reading(carrier: u8, area: &[u8]) -> Option<Times> {
    let (mut one, mut two, mut three) = (vec![0u8; 36_775], vec![0u8; 36_775], vec![0u8; 40_960]);
    let number = usize::from(carrier);
    let same = alike(compare::read(number, area, &mut one), dnr_reference::read(carrier, area, &mut two));
    same.then(|| times([
        &mut || { black_box(&compare::read_raw(number, black_box(area), black_box(&mut one))); },
        &mut || { black_box(&dnr_reference::read(carrier, black_box(area), black_box(&mut two))); },
        &mut || { black_box(&mut three[..area.len()]).copy_from_slice(black_box(area)); },
    ]))
}

/// A sheet that is written, or refused with this number.
fn timed_sheet(sheet: &[u8], number: usize) -> Option<Times> {
    let (mut one, mut two, mut three) = (vec![0u8; 40_960], vec![0u8; 40_960], vec![0u8; 40_960]);
    let answer = dnr_reference::write(sheet, &mut two);
    assert_eq!(answer.number, number);
    let same = alike(compare::write(sheet, &mut one), answer);
    same.then(|| times([
        &mut || { black_box(&compare::write_raw(black_box(sheet), black_box(&mut one))); },
        &mut || { black_box(&dnr_reference::write(black_box(sheet), black_box(&mut two))); },
        &mut || { black_box(&mut three[..sheet.len()]).copy_from_slice(black_box(sheet)); },
    ]))
}

fn timed_writing(sheet: &[u8]) -> Option<Times> {
    timed_sheet(sheet, 0)
}

/// A sheet with a bad name.
fn timed_refusal(sheet: &[u8]) -> Option<Times> {
    timed_sheet(sheet, 22)
}

/// Prints a row that was timed, with the times of the same on twice the input where there are some.
fn print(what: &str, octets: usize, times: Option<Times>, doubled: Option<Times>) {
    let Some(times) = times else { return };
    let [library, reference, copy] = times.best;
    let growth = doubled.map_or("-".into(), |d| format!("{:.2}", d.best[0] / library));
    println!(
        "| {what} | {octets} | {library:.1} | {reference:.1} | {:.3} | {:.1} | {:.2} | {growth} |",
        times.ratio,
        octets as f64 / library * 1000.0,
        library / copy,
    );
}

/// Whether a row is to be timed.
fn wanted(what: &str) -> bool {
    let mut words = std::env::args().skip(1).filter(|a| a != BEFORE).peekable();
    words.peek().is_none() || words.any(|w| what.contains(&w))
}

fn row(what: &str, carrier: u8, area: &[u8], doubled: Option<&[u8]>) {
    let what = format!("reading {what}");
    if wanted(&what) {
        let more = doubled.and_then(|d| timed_reading(carrier, d));
        print(&what, area.len(), timed_reading(carrier, area), more);
    }
}

/// The sheet that an area is read to.
fn sheet(carrier: u8, area: &[u8]) -> Vec<u8> {
    let mut s = vec![0u8; 36_775];
    let done = dnr_reference::read(carrier, area, &mut s);
    assert_eq!(done.number, 0);
    s.truncate(done.length);
    s
}

fn write_row(what: &str, carrier: u8, area: &[u8], doubled: Option<&[u8]>) {
    let what = format!("writing {what}");
    if wanted(&what) {
        let more = doubled.and_then(|d| timed_writing(&sheet(carrier, d)));
        let s = sheet(carrier, area);
        print(&what, s.len(), timed_writing(&s), more);
    }
}

fn refuse_row(what: &str, sheet: &[u8]) {
    let what = format!("refusing {what}");
    if wanted(&what) {
        print(&what, sheet.len(), timed_refusal(sheet), None);
    }
}

const NAME: &[u8] = b"\x04doh1\x07example\x03com\x00";
const TEXT: &[u8] = b"doh1.example.com";

fn hints() -> Vec<u8> {
    let mut p = b"\x00\x01\x00\x07\x02h2\x03dot\x00\x03\x00\x02\x01\xbb\x00\x07\x00\x10/dns-query{?dns}".to_vec();
    p.extend([0xff, 0x00, 0x03, 0x00]);
    p.extend([7; 768]);
    p
}

/// A body in full form with `many` addresses.
fn body(carrier: u8, priority: u16, name: &[u8], many: usize, params: &[u8]) -> Vec<u8> {
    let address: &[u8] = if carrier == 1 || carrier == 4 { &[192, 0, 2, 1] } else { &[0x20, 1, 0xd, 0xb8, 1, 0x22, 3, 0, 0, 0, 0, 0, 0, 0, 0, 1] };
    let addresses = address.repeat(many);
    let mut b = priority.to_be_bytes().to_vec();
    match carrier {
        1 => {
            b.push(name.len() as u8);
            b.extend(name);
            b.push(addresses.len() as u8);
            b.extend(addresses);
            b.extend(params);
        }
        4 | 5 => {
            b.push(many as u8);
            b.push(name.len() as u8);
            b.extend(addresses);
            b.extend(name);
            b.extend(params);
        }
        _ => {
            if carrier == 3 {
                b.extend(3600u32.to_be_bytes());
            }
            b.extend((name.len() as u16).to_be_bytes());
            b.extend(name);
            b.extend((addresses.len() as u16).to_be_bytes());
            b.extend(addresses);
            if carrier == 3 {
                b.extend((params.len() as u16).to_be_bytes());
            }
            b.extend(params);
            while carrier == 3 && (b.len() + 2) % 8 != 0 {
                b.push(0);
            }
        }
    }
    b
}

fn option(carrier: u8, body: &[u8]) -> Vec<u8> {
    let mut o = match carrier {
        1 => vec![162, body.len() as u8],
        2 => [&144u16.to_be_bytes()[..], &(body.len() as u16).to_be_bytes()].concat(),
        3 => vec![144, ((body.len() + 2) / 8) as u8],
        4 => [&27u16.to_be_bytes()[..], &(body.len() as u16).to_be_bytes()].concat(),
        _ => [&28u16.to_be_bytes()[..], &(body.len() as u16).to_be_bytes()].concat(),
    };
    o.extend(body);
    o
}

/// `records` records of falling priority: every pair is exchanged.
fn area(carrier: u8, records: usize, many: usize, params: &[u8]) -> Vec<u8> {
    let name = if carrier >= 4 { TEXT } else { NAME };
    let bodies: Vec<Vec<u8>> = (0..records).map(|i| body(carrier, (100 - i) as u16, name, many, params)).collect();
    framed(carrier, &bodies)
}

/// Bodies in options, in carrier 1 as instances of the joined data.
fn framed(carrier: u8, bodies: &[Vec<u8>]) -> Vec<u8> {
    if carrier > 1 {
        return bodies.iter().flat_map(|b| option(carrier, b)).collect();
    }
    let joined: Vec<u8> = bodies.iter().flat_map(|b| [&(b.len() as u16).to_be_bytes()[..], b].concat()).collect();
    joined.chunks(255).flat_map(|c| option(1, c)).collect()
}

/// The longest name: labels of 63, 63, 63 and 61 octets.
fn longest() -> Vec<u8> {
    let mut n = Vec::new();
    for l in [63u8, 63, 63, 61] {
        n.push(l);
        n.extend(vec![b'a'; l as usize]);
    }
    n.push(0);
    n
}

/// The longest name as the carrier has it, with an underscore for its last letter.
fn bad_at_its_end(carrier: u8) -> Vec<u8> {
    let mut n = longest();
    n[253] = b'_';
    if carrier < 4 {
        return n;
    }
    for dot in [64, 128, 192] {
        n[dot] = b'.';
    }
    n[1..254].to_vec()
}

/// A block that is discarded for its name, in three carriers.
fn bad_name_rows(params: &[u8]) {
    for (carrier, what) in CARRIERS.into_iter().filter(|(carrier, _)| [1, 2, 5].contains(carrier)) {
        let b = body(carrier, 1, &bad_at_its_end(carrier), 1, params);
        row(&format!("a 255-octet name bad at its end, {what}"), carrier, &framed(carrier, &[b]), None);
    }
}

/// Sheets that are refused for the name of their only record, and of their sixteenth.
fn refused_rows(k1: &[u8]) {
    let mut only = sheet(2, k1);
    only[7 + 8 + 16] = b'_';
    refuse_row("K1 with a name bad at its end", &only);
    let mut last = sheet(2, &area(2, 16, 63, &hints()));
    let start = 7 + (last.len() - 7) / 16 * 15;
    last[start + 8 + 16] = b'_';
    refuse_row("16 full records, the last name bad at its end, DHCPv6", &last);
}

/// A list of `keys` mandatory keys, each present and empty.
fn mandatory(keys: u16) -> Vec<u8> {
    let named: Vec<u8> = (0..keys).flat_map(|k| (1000 + k).to_be_bytes()).collect();
    let mut p = vec![0, 0];
    p.extend((named.len() as u16).to_be_bytes());
    p.extend(&named);
    p.extend(bare(keys));
    p
}

/// Parameters without values.
fn bare(keys: u16) -> Vec<u8> {
    (0..keys).flat_map(|k| [(1000 + k).to_be_bytes(), [0, 0]].concat()).collect()
}

const CARRIERS: [(u8, &str); 5] = [(1, "DHCPv4"), (2, "DHCPv6"), (3, "router advertisement"), (4, "ENCDNS_IP4"), (5, "ENCDNS_IP6")];

/// 16 full records of each carrier, and 8 with the growth to 16.
fn full_rows(print_row: fn(&str, u8, &[u8], Option<&[u8]>)) {
    let p = hints();
    for (carrier, what) in CARRIERS {
        let many = if carrier == 3 { 40 } else { 63 };
        let (sixteen, eight) = (area(carrier, 16, many, &p), area(carrier, 8, many, &p));
        print_row(&format!("16 full records, {what}"), carrier, &sixteen, None);
        print_row(&format!("8 full records, {what}"), carrier, &eight, Some(&sixteen));
    }
}

/// A list of 168 mandatory keys, and one of 84 with the growth to 168.
fn mandatory_rows(print_row: fn(&str, u8, &[u8], Option<&[u8]>)) {
    let listing = |keys| option(2, &body(2, 1, NAME, 1, &mandatory(keys)));
    let (all, half) = (listing(168), listing(84));
    print_row("168 mandatory keys", 2, &all, None);
    print_row("84 mandatory keys", 2, &half, Some(&all));
}

/// no-default-alpn without alpn, and behind it `keys` other parameters: fault 28.
fn alone(keys: u16) -> Vec<u8> {
    let p = [vec![0, 2, 0, 0], bare(keys)].concat();
    option(2, &body(2, 1, NAME, 1, &p))
}

fn main() {
    println!("| call | octets | library ns | reference ns | ratio | octets/µs | against memcpy | growth ×2 |");
    println!("|---|---|---|---|---|---|---|---|");
    let dot = b"\x00\x01\x00\x04\x03dot";
    let k1 = option(2, &body(2, 1, NAME, 1, dot));
    let no_default = option(2, &body(2, 1, NAME, 1, b"\x00\x01\x00\x04\x03dot\x00\x02\x00\x00"));
    row("K1", 2, &k1, None);
    row("K1 with no-default-alpn", 2, &no_default, None);
    full_rows(row);
    let one = area(1, 1, 20, &hints()[..39]);
    row("a record in one option 162", 1, &one, None);
    row("2 records in two options 162", 1, &area(1, 2, 20, &hints()[..39]), None);
    let foreign = |n: usize| [0u8, 1, 0, 4, 9, 9, 9, 9].repeat(n / 8);
    row("foreign options", 2, &foreign(20_480), Some(&foreign(40_960)));
    row("foreign options", 2, &foreign(40_960), None);
    let small = |n: usize| option(2, &body(2, 0, NAME, 1, dot)).repeat(n);
    row("787 blocks with a fault", 2, &small(787), None);
    row("a 255-octet name", 2, &option(2, &body(2, 1, &longest(), 1, dot)), None);
    bad_name_rows(dot);
    mandatory_rows(row);
    row("no-default-alpn alone before 255 keys", 2, &alone(255), None);
    row("no-default-alpn alone before 127 keys", 2, &alone(127), Some(&alone(255)));
    write_row("K1", 2, &k1, None);
    write_row("K1 with no-default-alpn", 2, &no_default, None);
    full_rows(write_row);
    write_row("a 255-octet name", 2, &option(2, &body(2, 1, &longest(), 1, dot)), None);
    mandatory_rows(write_row);
    refused_rows(&k1);
}
