//! RULES D1 to D3 over generated sheets and areas.

use crate::common::*;

/// A record of a sheet that the writer accepts for this carrier.
fn some_record(numbers: &mut Numbers, carrier: u8, priority: u16) -> Vec<u8> {
    let mut name = Vec::new();
    for _ in 0..=numbers.below(3) {
        let longest = if numbers.below(8) == 0 { 63 } else { 6 };
        let length = 1 + numbers.below(longest);
        name.push(length as u8);
        name.extend((0..length).map(|_| numbers.pick(b"abcXYZ019")));
    }
    name.push(0);
    let lifetime = if carrier == 3 {
        numbers.next() as u32
    } else {
        0
    };
    if carrier < 4 && numbers.below(3) == 0 {
        return record(carrier, priority, lifetime, (&name, None));
    }
    let address = if carrier == 1 || carrier == 4 { A4 } else { A };
    let addresses = address.repeat(1 + numbers.below(4));
    let mut params = Vec::new();
    if numbers.below(2) == 0 {
        params.extend(P);
    }
    if numbers.below(2) == 0 {
        let bound = if numbers.below(6) == 0 { 600 } else { 9 };
        let length = numbers.below(bound);
        params.extend([0xff, 0]);
        params.extend((length as u16).to_be_bytes());
        params.extend((0..length).map(|_| numbers.next() as u8));
    }
    record(
        carrier,
        priority,
        lifetime,
        full(&name, &addresses, &params),
    )
}

fn some_records(numbers: &mut Numbers, carrier: u8) -> Vec<Vec<u8>> {
    let mut priority = 1;
    (0..numbers.below(6))
        .map(|_| {
            priority += numbers.below(3) as u16;
            some_record(numbers, carrier, priority)
        })
        .collect()
}

fn written(carrier: u8, records: &[Vec<u8>]) -> Vec<u8> {
    let (number, octets) = write_in(40_960, &sheet(carrier, records));
    assert_eq!(number, 0);
    octets
}

/// The octets before they are cut into options 162.
fn uncut(octets: &[u8]) -> Vec<u8> {
    let mut joined = Vec::new();
    let mut rest = octets;
    while let [162, length, after @ ..] = rest {
        let (data, behind) = after.split_at(usize::from(*length));
        assert!(*length == 255 || (behind.is_empty() && *length > 0));
        joined.extend(data);
        rest = behind;
    }
    assert!(rest.is_empty());
    joined
}

/// RULES D2: reading what is written gives the sheet back.
#[test]
fn sheets_go_round() {
    let mut numbers = Numbers(2);
    for round in 0..2_000 {
        let carrier = 1 + (round % 5) as u8;
        let records = some_records(&mut numbers, carrier);
        let octets = written(carrier, &records);
        goes_round(carrier, &octets, &sheet(carrier, &records));
        let found = read_done(carrier, &octets).0.found;
        let expected = if carrier == 1 {
            records.len().min(1)
        } else {
            records.len()
        };
        assert_eq!(found, expected);
    }
}

/// RULES D3: every cut of carriers 2 to 5.
#[test]
fn cuts() {
    let mut numbers = Numbers(3);
    for round in 0..60 {
        let carrier = 2 + (round % 4) as u8;
        let records = some_records(&mut numbers, carrier);
        let octets = written(carrier, &records);
        let ends: Vec<usize> = (0..=records.len())
            .map(|count| written(carrier, &records[..count]).len())
            .collect();
        for cut in 0..=octets.len() {
            let part = &octets[..cut];
            match ends.iter().position(|end| *end == cut) {
                Some(count) => {
                    let expected = sheet(carrier, &records[..count]);
                    let (reading, read_sheet) = read_in(expected.len(), carrier, part);
                    assert_eq!((reading.number, reading.found), (0, count));
                    assert_eq!((reading.discarded, reading.fault), (0, 0));
                    assert_eq!(read_sheet, expected);
                }
                None => {
                    assert_eq!(read_in(40_000, carrier, part).0.number, 3);
                    assert_eq!(read_in(0, carrier, part).0.number, 3);
                }
            }
        }
    }
}

/// RULES D3: leading octets exactly for leading records.
#[test]
fn leading_parts() {
    let mut numbers = Numbers(4);
    for round in 0..600 {
        let carrier = 1 + (round % 5) as u8;
        let first = some_records(&mut numbers, carrier);
        let mut second = some_records(&mut numbers, carrier);
        if round % 2 == 0 {
            let last = first
                .last()
                .map_or(1, |one| u16::from_be_bytes([one[0], one[1]]));
            second = [&first[..], &[some_record(&mut numbers, carrier, last)]].concat();
        }
        let octets = |records: &[Vec<u8>]| match carrier {
            1 => uncut(&written(1, records)),
            _ => written(carrier, records),
        };
        let leads = octets(&second).starts_with(&octets(&first));
        assert_eq!(leads, second.starts_with(&first));
    }
}

/// RULES D1: any octets, any room; damaged areas and sheets among them.
#[test]
fn any_octets_and_any_room() {
    let mut numbers = Numbers(5);
    for round in 0..20_000 {
        let carrier = 1 + (round % 5) as u8;
        let records = some_records(&mut numbers, carrier);
        let mut octets = match numbers.below(3) {
            0 => sheet(carrier, &records),
            1 => (0..numbers.below(80))
                .map(|_| numbers.next() as u8)
                .collect(),
            _ => written(carrier, &records),
        };
        for _ in 0..numbers.below(4) {
            if let Some(last) = octets.len().checked_sub(1) {
                let index = numbers.below(last.min(60) + 1);
                octets[index] = numbers.pick(&[0, 1, 2, 3, 4, 16, 27, 28, 127, 144, 162, 255]);
            }
        }
        let room = numbers.pick(&[0, 6, 7, 60, 500, 40_960]);
        let reading = read_in(room, numbers.below(7) as u8, &octets).0;
        assert!(reading.length <= room && reading.discarded <= reading.found);
        assert_eq!(reading.fault == 0, reading.discarded == 0);
        write_in(room, &octets);
    }
}
