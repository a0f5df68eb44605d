//! Names (RULES N1 to N4) and places (RULES N5).

use crate::common::*;
use dnr_reference::{check_text, check_wire, text_to_wire, wire_to_text};

/// A name of these label lengths, all of the letter x.
fn wire(lengths: &[usize]) -> Vec<u8> {
    let mut name = Vec::new();
    for length in lengths {
        name.push(*length as u8);
        name.extend(vec![b'x'; *length]);
    }
    name.push(0);
    name
}

fn text(lengths: &[usize]) -> Vec<u8> {
    let labels: Vec<String> = lengths.iter().map(|length| "x".repeat(*length)).collect();
    labels.join(".").into_bytes()
}

#[test]
fn good_names_and_their_other_form() {
    for name in [
        "a",
        "0",
        "a-b",
        "xn--bcher-kva",
        "DoH1.Example.COM",
        "1.2.3",
        "a--b.c",
    ] {
        let name = name.as_bytes();
        assert_eq!(check_text(name), Ok(()));
        let wire = text_to_wire(name);
        assert_eq!(check_wire(&wire), Ok(()));
        assert_eq!(wire_to_text(&wire), name);
        assert_eq!(wire.len(), name.len() + 2);
    }
    assert_eq!(text_to_wire(b"doh1.example.com"), N);
    for lengths in [&[63, 63, 63, 61][..], &[63], &[1; 127], &[3, 63, 1]] {
        assert_eq!(text_to_wire(&text(lengths)), wire(lengths));
        assert_eq!(wire_to_text(&wire(lengths)), text(lengths));
        assert_eq!(check_wire(&wire(lengths)), Ok(()));
        assert_eq!(check_text(&text(lengths)), Ok(()));
    }
}

#[test]
fn wire_places() {
    let cases: [(&[u8], usize); 20] = [
        (b"", 0),
        (b"\0", 0),
        (b"\0\0", 0),
        (b"\x01a\0\0", 3),
        (b"\x01a\0x", 3),
        (b"\x01a", 2),
        (b"\x05abc", 4),
        (b"\x40", 0),
        (b"\x01a\xc0\x0c", 2),
        (b"\xc0\x0c", 0),
        (b"\x01a\x80", 2),
        (b"\x01-\0", 1),
        (b"\x02-a\0", 1),
        (b"\x02a-\0", 2),
        (b"\x03a-b\0x", 5),
        (b"\x03a-", 3),
        (b"\x02a-", 2),
        (b"\x02a_\0", 2),
        (b"\x03a.b\0", 2),
        (b"\x02a\0\0", 2),
    ];
    for (name, place) in cases {
        assert_eq!(check_wire(name), Err(place), "{name:?}");
    }
}

/// The 255 limit is noticed at the length octet that breaks it.
#[test]
fn wire_limit() {
    assert_eq!(wire(&[63, 63, 63, 61]).len(), 255);
    assert_eq!(check_wire(&wire(&[63, 63, 63, 62])), Err(192));
    assert_eq!(check_wire(&wire(&[63, 63, 63, 63])), Err(192));
    assert_eq!(check_wire(&wire(&[63, 63, 63, 59, 1])), Ok(()));
    assert_eq!(check_wire(&wire(&[63, 63, 63, 60, 1])), Err(192 + 61));
    assert_eq!(check_wire(&wire(&[63, 63, 63, 61, 1])), Err(192 + 62));
    assert_eq!(check_wire(&wire(&[1; 127])), Ok(()));
    assert_eq!(check_wire(&wire(&[1; 128])), Err(254));
    // Cut right behind the length octet: it is still the place.
    assert_eq!(check_wire(&wire(&[63, 63, 63, 62])[..193]), Err(192));
    assert_eq!(check_wire(&wire(&[63, 63, 63, 61])[..193]), Err(193));
    // Cut before the root, and an octet behind it.
    assert_eq!(check_wire(&wire(&[63, 63, 63, 61])[..254]), Err(254));
    let longer = [wire(&[63, 63, 63, 61]), vec![0]].concat();
    assert_eq!(check_wire(&longer), Err(255));
}

#[test]
fn text_places() {
    let cases: [(&[u8], usize); 13] = [
        (b"", 0),
        (b".", 0),
        (b"-", 0),
        (b"a.", 2),
        (b"a-", 2),
        (b"a..b", 2),
        (b"a.-b", 2),
        (b"a-.b", 2),
        (b"a--.b", 3),
        (b"a_b", 1),
        (b"a\0", 1),
        (b"a.b\r", 3),
        (b"ab c", 2),
    ];
    for (name, place) in cases {
        assert_eq!(check_text(name), Err(place), "{name:?}");
    }
}

#[test]
fn text_label_limit() {
    let label = |length: usize, last: u8| [vec![b'x'; length - 1], vec![last]].concat();
    assert_eq!(check_text(&label(63, b'x')), Ok(()));
    assert_eq!(check_text(&label(64, b'x')), Err(63));
    // A hyphen as 63rd octet can't end and can't go on; as 62nd it is cut
    // short; behind 63 octets there is a dot or nothing.
    assert_eq!(check_text(&label(63, b'-')), Err(62));
    assert_eq!(check_text(&label(62, b'-')), Err(62));
    assert_eq!(
        check_text(&[label(62, b'-'), b"x".to_vec()].concat()),
        Ok(())
    );
    assert_eq!(check_text(&label(64, b'-')), Err(63));
    assert_eq!(
        check_text(&[label(63, b'x'), b".a".to_vec()].concat()),
        Ok(())
    );
}

#[test]
fn text_limit() {
    let long = text(&[63, 63, 63, 61]);
    assert_eq!((long.len(), check_text(&long)), (253, Ok(())));
    assert_eq!(check_text(&text(&[63, 63, 63, 62])), Err(253));
    for (index, octet, place) in [
        // Last of all: no dot, no hyphen.
        (252, b'.', Err(252)),
        (252, b'-', Err(252)),
        // One octet more fits behind these.
        (251, b'.', Ok(())),
        (251, b'-', Ok(())),
    ] {
        let mut name = long.clone();
        name[index] = octet;
        assert_eq!(check_text(&name), place);
        assert_eq!(
            check_text(&name[..252]),
            if index == 251 { Err(252) } else { Ok(()) }
        );
    }
    for octet in *b".-x_" {
        assert_eq!(check_text(&[&long[..], &[octet]].concat()), Err(253));
        assert_eq!(check_text(&[&long[..], &[octet, octet]].concat()), Err(253));
    }
}

/// Every name fault is 22 in every carrier, and when written.
#[test]
fn a_bad_name_is_22() {
    for name in [
        &b""[..],
        b"\0",
        b"\x01-\0",
        b"\x01a\0\0",
        b"\x01a",
        b"\x01a\xc0\0",
    ] {
        for carrier in [1, 2, 3] {
            let block = block(carrier, 1, (name, None));
            let area = if carrier == 1 {
                option(1, &block)
            } else {
                block
            };
            assert_eq!(fault_of(carrier, &area), 22);
        }
        for carrier in 1..=5 {
            let address = if carrier == 1 || carrier == 4 { A4 } else { A };
            let octets = sheet(carrier, &[record(carrier, 1, 0, full(name, address, P))]);
            assert_eq!(write_number(&octets), 22);
        }
    }
    for name in [&b""[..], b"a.", b"a_b", &text(&[63, 63, 63, 62])] {
        assert_eq!(fault_of(5, &block(5, 1, full(name, A, P))), 22);
    }
}
