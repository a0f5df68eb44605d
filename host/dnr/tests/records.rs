//! The view of a sheet: what it shows of sheets that a reading gave, and that it ends where octets do not fit.

use dnr::{read_to_vec, records, Carrier, Record};
use std::net::IpAddr;

fn hex(text: &str) -> Vec<u8> {
    let digits: Vec<char> = text.chars().filter(|c| !c.is_whitespace()).collect();
    digits.chunks(2).map(|pair| u8::from_str_radix(&String::from_iter(pair), 16).unwrap()).collect()
}

macro_rules! sheet_of {
    ($carrier:expr, $name:literal) => {
        read_to_vec($carrier, &hex(include_str!(concat!("../../../examples/", $name, ".hex")))).unwrap().0
    };
}

/// Looks at every part of every record.
fn look(sheet: &[u8]) -> (usize, usize) {
    let octets = |record: Record| {
        let labels: usize = record.name().labels().map(str::len).sum();
        let addresses = record.addresses().len();
        let values: usize = record.parameters().map(|(_, value)| value.len()).sum();
        labels + addresses + values + record.name().to_string().len() + format!("{record:?}").len()
    };
    (records(sheet).count(), records(sheet).map(octets).sum())
}

#[test]
fn a_full_record() {
    let sheet = sheet_of!(Carrier::Ra, "k04-ra");
    let mut all = records(&sheet);
    assert_eq!(all.carrier(), Some(Carrier::Ra));
    let record = all.next().unwrap();
    assert_eq!((record.priority(), record.lifetime(), record.is_name_only()), (1, 3_600, false));
    assert_eq!(record.name().labels().collect::<Vec<_>>(), ["doh1", "example", "com"]);
    assert_eq!(record.name().to_string(), "doh1.example.com");
    assert_eq!(record.name().wire(), b"\x04doh1\x07example\x03com\x00");
    let expected: IpAddr = "2001:db8:122:300::1".parse().unwrap();
    assert_eq!(record.addresses().collect::<Vec<_>>(), [expected]);
    assert_eq!(record.parameters().collect::<Vec<_>>(), [(1, &b"\x03dot"[..])]);
    assert_eq!((all.next(), all.next()), (None, None));
}

#[test]
fn several_records_with_addresses_of_four_octets() {
    let sheet = sheet_of!(Carrier::Dhcp4, "several-dhcp4");
    let all: Vec<Record> = records(&sheet).collect();
    let [first, second] = all[..] else { panic!("{} records", all.len()) };
    assert_eq!((first.priority(), first.name().to_string(), first.is_name_only()), (1, "doq.example".into(), true));
    assert_eq!((first.addresses().count(), first.parameters().count()), (0, 0));
    assert_eq!((second.priority(), second.name().to_string(), second.is_name_only()), (2, "dot.example".into(), false));
    let addresses: Vec<String> = second.addresses().map(|address| address.to_string()).collect();
    assert_eq!(addresses, ["192.0.2.53", "198.51.100.53"]);
    assert_eq!(second.parameters().collect::<Vec<_>>(), [(1, &b"\x02h2\x03dot"[..]), (3, &[0x20, 0xfb][..])]);
}

#[test]
fn a_sheet_without_records() {
    let sheet = sheet_of!(Carrier::Dhcp6, "k06-dhcp6");
    assert_eq!(records(&sheet).carrier(), Some(Carrier::Dhcp6));
    assert_eq!(records(&sheet).next(), None);
}

#[test]
fn no_sheet() {
    for octets in [&b""[..], b"RSV", b"RSV\x00\x01\x02", b"RSD\x00\x01\x02\x01", b"RSV\x00\x02\x02\x01", b"RSV\x00\x01\x06\x01"] {
        assert_eq!(records(octets).carrier(), None);
        assert_eq!(records(octets).next(), None);
    }
}

#[test]
fn it_ends_where_the_sheet_is_cut() {
    let sheet = sheet_of!(Carrier::Dhcp6, "k12-dhcp6");
    for length in 0..sheet.len() {
        let whole = length.saturating_sub(7) / 19;
        assert_eq!(look(&sheet[..length]).0, whole, "cut after {length}");
    }
    assert_eq!(look(&sheet).0, 3);
}

#[test]
fn it_ends_at_a_part_that_does_not_fit() {
    let sheet = sheet_of!(Carrier::Dhcp6, "k01-dhcp6");
    assert_eq!(look(&sheet).0, 1);
    // The mode; a label's length, a letter, the root; the number of addresses; the length of the parameters, of one of them.
    for (place, octet) in [(13, 2), (15, 64), (16, b'_'), (16, 0xc3), (32, 1), (33, 2), (51, 9), (55, 3)] {
        let mut damaged = sheet.clone();
        damaged[place] = octet;
        assert_eq!(look(&damaged).0, 0, "place {place}");
    }
    assert_eq!(look(b"RSV\x00\x01\x01\x01\x00\x01\x00\x00\x00\x00\x00\x01\x00").0, 0);
}

/// Every octet of some sheets is replaced by every other, and cut after it: nothing panics.
#[test]
fn any_octets_do_no_harm() {
    let mut shown = 0;
    for sheet in [
        sheet_of!(Carrier::Dhcp4, "several-dhcp4"),
        sheet_of!(Carrier::Dhcp6, "k12-dhcp6"),
        sheet_of!(Carrier::Ike4, "escaped-ike4"),
        sheet_of!(Carrier::Ike6, "rfc9464-ike6"),
    ] {
        for place in 0..sheet.len() {
            for octet in 0..=u8::MAX {
                let mut damaged = sheet.clone();
                damaged[place] = octet;
                shown += look(&damaged).1 + look(&damaged[..=place]).1;
            }
        }
    }
    assert!(shown > 0);
}
