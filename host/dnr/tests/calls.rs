//! The two calls through the binding: the boundary pieces (RULES K1 to K13), every refusal and fault, and no octet past a result.

use dnr::{read, read_to_vec, write, write_to_vec, Carrier, Fault, Reading, Refusal};

const MARK: u8 = 0xa5;

/// doh1.example.com in wire form.
const N: &[u8] = b"\x04doh1\x07example\x03com\x00";

fn hex(text: &str) -> Vec<u8> {
    let digits: Vec<char> = text.chars().filter(|c| !c.is_whitespace()).collect();
    digits.chunks(2).map(|pair| u8::from_str_radix(&String::from_iter(pair), 16).unwrap()).collect()
}

macro_rules! piece {
    ($name:literal) => {
        hex(include_str!(concat!("../../../examples/", $name, ".hex")))
    };
}

fn done(length: usize, found: usize, discarded: usize, first_fault: Option<Fault>) -> Reading {
    Reading { length, found, discarded, first_fault, first_place: None }
}

/// A sheet of one name-only record with this priority and lifetime.
fn name_only(carrier: u8, priority: u16, lifetime: u32) -> Vec<u8> {
    let mut sheet = vec![b'R', b'S', b'V', 0, 1, carrier, 1];
    sheet.extend(priority.to_be_bytes());
    sheet.extend(lifetime.to_be_bytes());
    sheet.extend([0, 18]);
    sheet.extend(N);
    sheet
}

/// A sheet of one full record with priority 1.
fn full(carrier: u8, addresses: &[u8], parameters: &[u8]) -> Vec<u8> {
    let width = if carrier == 1 || carrier == 4 { 4 } else { 16 };
    let mut sheet = name_only(carrier, 1, 0);
    sheet[13] = 1;
    sheet.push((addresses.len() / width) as u8);
    sheet.extend(addresses);
    sheet.extend((parameters.len() as u16).to_be_bytes());
    sheet.extend(parameters);
    sheet
}

#[test]
fn k1_is_read_with_60_octets_of_room_and_not_with_59() {
    let sheet = hex(
        "52 53 56 00 01 02 01 00 01 00 00 00 00 01 12
         04 64 6f 68 31 07 65 78 61 6d 70 6c 65 03 63 6f 6d 00
         01 20 01 0d b8 01 22 03 00 00 00 00 00 00 00 00 01
         00 08 00 01 00 04 03 64 6f 74",
    );
    let mut room = [MARK; 70];
    assert_eq!(read(Carrier::Dhcp6, &piece!("k01-dhcp6"), &mut room[..59]), Err(Refusal::ROOM));
    assert_eq!(room, [MARK; 70]);
    assert_eq!(read(Carrier::Dhcp6, &piece!("k01-dhcp6"), &mut room), Ok(done(60, 1, 0, None)));
    assert_eq!(room[..60], sheet);
    assert_eq!(room[60..], [MARK; 10]);
}

#[test]
fn pieces_go_round() {
    let pieces = [
        (Carrier::Dhcp6, piece!("k01-dhcp6"), 60),
        (Carrier::Dhcp4, piece!("k02-dhcp4"), 33),
        (Carrier::Ra, piece!("k03-ra"), 33),
        (Carrier::Ra, piece!("k04-ra"), 60),
        (Carrier::Ike6, piece!("k05-ike6"), 60),
        (Carrier::Dhcp4, piece!("k08-dhcp4"), 7 + 8 + 18 + 1 + 4 + 2 + 272),
        (Carrier::Dhcp4, piece!("k09-dhcp4"), 7 + 8 + 18 + 1 + 4 + 2 + 227),
    ];
    for (carrier, octets, length) in pieces {
        let (sheet, reading) = read_to_vec(carrier, &octets).unwrap();
        assert_eq!(reading, done(length, 1, 0, None));
        assert_eq!((sheet.len(), sheet.capacity()), (length, length));
        let written = write_to_vec(&sheet).unwrap();
        assert_eq!((written.len(), written.capacity()), (octets.len(), octets.len()));
        assert_eq!(written, octets);
        let mut room = vec![MARK; octets.len() + 1];
        assert_eq!(write(&sheet, &mut room[..octets.len() - 1]), Err(Refusal::ROOM));
        assert!(room.iter().all(|octet| *octet == MARK));
        assert_eq!(write(&sheet, &mut room), Ok(octets.len()));
        assert_eq!(room[octets.len()], MARK);
    }
}

#[test]
fn empty_buffers() {
    for carrier in Carrier::ALL {
        let header = [b'R', b'S', b'V', 0, 1, carrier.number(), 0];
        assert_eq!(read_to_vec(carrier, &[]), Ok((header.to_vec(), done(7, 0, 0, None))));
        assert_eq!(read(carrier, &[], &mut []), Err(Refusal::ROOM));
        assert_eq!(write(&header, &mut []), Ok(0));
        assert_eq!(write_to_vec(&header), Ok(Vec::new()));
    }
    assert_eq!(write(&[], &mut []), Err(Refusal::SHEET));
}

#[test]
fn faults_of_a_reading() {
    let k7 = piece!("k07-dhcp6");
    assert_eq!(read_to_vec(Carrier::Dhcp6, &k7).unwrap().1, done(7, 1, 1, Some(Fault::PRIORITY)));
    let k10 = piece!("k10-dhcp6");
    assert_eq!(read_to_vec(Carrier::Dhcp6, &k10).unwrap().1, done(7, 1, 1, Some(Fault::DROPPED)));
    let k11 = piece!("k11-ra");
    assert_eq!(read_to_vec(Carrier::Ra, &k11).unwrap().1, done(7, 1, 1, Some(Fault::PADDING)));
    assert_eq!(read_to_vec(Carrier::Ike4, &[0, 27, 0, 0]).unwrap().1, done(7, 1, 1, Some(Fault::FIELD)));
    // The first of two faults, and the record between them.
    let area = [k10, piece!("k01-dhcp6"), k7].concat();
    assert_eq!(read_to_vec(Carrier::Dhcp6, &area).unwrap().1, done(60, 3, 2, Some(Fault::DROPPED)));
}

/// A hyphen as the first octet of the name's first label, or of the name as text, in a piece of each carrier (RULES N5, W11).
#[test]
fn places_of_bad_names() {
    // In carrier 1 the header of the option, 2 octets, is not counted; the name stands 5 octets behind the start of the instance.
    let pieces = [
        (Carrier::Dhcp4, piece!("k02-dhcp4"), 2 + 5 + 1, 5 + 1),
        (Carrier::Dhcp6, piece!("k01-dhcp6"), 8 + 1, 8 + 1),
        (Carrier::Ra, piece!("k03-ra"), 10 + 1, 10 + 1),
        // Behind a foreign attribute of 8 octets, and before an attribute with fault 20.
        (Carrier::Ike4, piece!("escaped-ike4"), 8 + 8 + 4, 8 + 4),
        (Carrier::Ike6, piece!("k05-ike6"), 8 + 16, 8 + 16),
    ];
    for (carrier, mut octets, at, place) in pieces {
        octets[at] = b'-';
        let (sheet, reading) = read_to_vec(carrier, &octets).unwrap();
        assert_eq!(sheet.len(), 7);
        assert_eq!((reading.first_fault, reading.first_place), (Some(Fault::NAME), Some(place)));
    }
    // Two discarded blocks, of which the first gives the fault and the place.
    let (alias, mut bad) = (piece!("k07-dhcp6"), piece!("k01-dhcp6"));
    bad[8 + 1] = b'-';
    let first_is_bad = Reading { first_place: Some(8 + 1), ..done(7, 2, 2, Some(Fault::NAME)) };
    assert_eq!(read_to_vec(Carrier::Dhcp6, &[bad.clone(), alias.clone()].concat()).unwrap().1, first_is_bad);
    assert_eq!(read_to_vec(Carrier::Dhcp6, &[alias, bad].concat()).unwrap().1, done(7, 2, 2, Some(Fault::PRIORITY)));
}

/// A name that is cut short and ends its block: the place is the length of the block or of the joined data, of a sheet that of the sheet
/// (RULES N5, W11, T8).
#[test]
fn places_behind_the_last_octet() {
    // Names without their root, and texts that end in a hyphen or a dot.
    let blocks = [
        (Carrier::Dhcp4, b"\xa2\x07\x00\x05\x00\x01\x02\x01a".to_vec(), 2),
        (Carrier::Dhcp6, b"\x00\x90\x00\x06\x00\x01\x00\x02\x01a".to_vec(), 0),
        (Carrier::Ra, b"\x90\x02\x00\x01\x00\x00\x00\x09\x00\x06\x05abcde".to_vec(), 0),
        (Carrier::Ike4, b"\x00\x1b\x00\x0a\x00\x01\x01\x02\xc0\x00\x02\x01a-".to_vec(), 0),
        (Carrier::Ike6, [&b"\x00\x1c\x00\x16\x00\x01\x01\x02"[..], &[32; 16], b"a."].concat(), 0),
    ];
    for (carrier, area, headers) in blocks {
        let wanted = Reading { first_place: Some(area.len() - headers), ..done(7, 1, 1, Some(Fault::NAME)) };
        assert_eq!(read_to_vec(carrier, &area).unwrap().1, wanted);
    }
    // A second record, name only, behind a good one.
    for carrier in 1..=5 {
        let mut sheet = full(carrier, &[32; 16], &[]);
        sheet[6] = 2;
        sheet.extend(b"\x00\x02\x00\x00\x00\x00\x00\x02\x01a");
        let refusal = write_to_vec(&sheet).unwrap_err();
        assert_eq!((refusal.fault(), refusal.place()), (Some(Fault::NAME), Some(sheet.len())));
    }
}

#[test]
fn refusals_of_a_reading() {
    let refused = |carrier, area: &[u8]| read_to_vec(carrier, area).unwrap_err();
    assert_eq!(refused(Carrier::Dhcp6, &piece!("cut-dhcp6")), Refusal::FRAMING);
    assert_eq!(refused(Carrier::Ra, &[1, 0, 0, 0, 0, 0, 0, 0]), Refusal::FRAMING);
    assert_eq!(refused(Carrier::Dhcp4, &[0; dnr::MAX_INPUT + 1]), Refusal::INPUT);
    assert_eq!(read_to_vec(Carrier::Dhcp4, &[0; dnr::MAX_INPUT]).unwrap().1.found, 0);
    let option = piece!("k12-dhcp6")[..19].to_vec();
    assert_eq!(refused(Carrier::Dhcp6, &option.repeat(17)), Refusal::RECORDS);
    assert_eq!(read_to_vec(Carrier::Dhcp6, &option.repeat(16)).unwrap().0[6], 16);
}

/// The sheet of one name with an underscore in the place of the root.
fn damaged_name(sheet: &[u8]) -> Vec<u8> {
    let mut damaged = sheet.to_vec();
    *damaged.last_mut().unwrap() = b'_';
    damaged
}

#[test]
fn refusals_of_a_writing() {
    let sheet = name_only(2, 1, 0);
    let damaged = |place: usize, octet: u8| {
        let mut damaged = sheet.clone();
        damaged[place] = octet;
        write_to_vec(&damaged).unwrap_err()
    };
    assert_eq!(write_to_vec(&sheet[..6]), Err(Refusal::SHEET));
    assert_eq!(damaged(0, b'r'), Refusal::SHEET);
    assert_eq!(damaged(4, 2), Refusal::VERSION);
    assert_eq!(damaged(5, 6), Refusal::SHEET_CARRIER);
    assert_eq!(damaged(6, 17), Refusal::RECORDS);
    assert_eq!(damaged(6, 2), Refusal::TILING);
    assert_eq!(damaged(13, 2), Refusal::TILING);
    assert_eq!(write_to_vec(&name_only(2, 1, 9)), Err(Refusal::TILING));
    assert_eq!(write_to_vec(&name_only(2, 0, 0)), Err(Fault::PRIORITY.into()));
    // The name stands behind 7 octets of the head and 8 of the record, the length octet of its first label first.
    assert_eq!((damaged(16, b'-').fault(), damaged(16, b'-').place()), (Some(Fault::NAME), Some(7 + 8 + 1)));
    assert!(damaged(16, b'-').to_string().starts_with("refusal 22 at octet 16: "));
    assert_eq!(write(&damaged_name(&sheet), &mut []).unwrap_err().place(), Some(7 + 8 + 17));
    assert_eq!(write_to_vec(&name_only(4, 1, 0)), Err(Fault::ADDRESSES.into()));
    assert_eq!(write_to_vec(&vec![0; dnr::MAX_INPUT + 1]), Err(Refusal::INPUT));
    assert_eq!(write_to_vec(&full(1, &[10, 0, 0, 1].repeat(64), &[])), Err(Fault::LIMIT.into()));
    assert_eq!(write_to_vec(&full(1, &[127, 0, 0, 1], &[])), Err(Fault::DROPPED.into()));
    assert_eq!(write_to_vec(&full(1, &[10, 0, 0, 1], &[0])), Err(Fault::PARAMETERS.into()));
    assert_eq!(write_to_vec(&full(1, &[10, 0, 0, 1], &[0, 4, 0, 0])), Err(Fault::HINT.into()));
    assert_eq!(write_to_vec(&full(1, &[10, 0, 0, 1], &[0, 1, 0, 0])), Err(Fault::VALUE.into()));
    // no-default-alpn without alpn (RULES P6).
    assert_eq!(write_to_vec(&full(1, &[10, 0, 0, 1], &[0, 2, 0, 0])), Err(Fault::VALUE.into()));
    assert_eq!(write_to_vec(&full(3, &[32; 16 * 63], &[&[9, 0, 3, 252][..], &[0; 1020]].concat())), Err(Refusal::LARGE));
}

/// 16 records with the longest name, 63 addresses and 1,024 octets of parameters.
#[test]
fn the_largest_sheet() {
    let mut record = vec![0, 1, 0, 0, 0, 0, 1, 255];
    for length in [63, 63, 63, 61] {
        record.push(length);
        record.extend(vec![b'a'; usize::from(length)]);
    }
    record.extend([0, 63]);
    record.extend([32; 16 * 63]);
    record.extend([4, 0, 9, 0, 3, 252]);
    record.extend([0; 1020]);
    let sheet = [&b"RSV\x00\x01\x02\x10"[..], &record.repeat(16)].concat();
    assert_eq!(sheet.len(), dnr::MAX_SHEET);
    let octets = write_to_vec(&sheet).unwrap();
    assert_eq!(octets.len(), 16 * (4 + 6 + 255 + 16 * 63 + 1024));
    assert_eq!(read_to_vec(Carrier::Dhcp6, &octets), Ok((sheet, done(36_775, 16, 0, None))));
}

#[test]
fn the_version_is_that_of_the_repository() {
    assert_eq!(env!("CARGO_PKG_VERSION"), include_str!("../../../VERSION").trim());
}
