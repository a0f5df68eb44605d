//! Names in wire form and as text: good ones, every boundary, and damage.

use crate::cases::{Cases, Kind};
use crate::numbers::Numbers;

const LETTERS: &[u8] = b"abcxyzABZ0129";
/// Octets within and just outside of what a label may hold.
const EDGES: &[u8] = b"\0\x01\x20,-./09:@AMZ[_`amz{\x7f\x80\xad\xae\xb0\xc1\xda\xe1\xfa\xff";
const WIRE_DAMAGE: &[u8] = b"\x00\x01\x02\x03\x3f\x40\x80\xc0a9Z-._ /:@[`{\xff";
const TEXT_DAMAGE: &[u8] = b"a9Z--..._ /:@[`{\x00\x01\r\x80\xff";

/// A name of these label lengths, all of one letter.
pub fn wire(lengths: &[usize]) -> Vec<u8> {
    let mut name = Vec::new();
    for length in lengths {
        name.push(*length as u8);
        name.extend(vec![b'n'; *length]);
    }
    name.push(0);
    name
}

/// The same as text.
pub fn text(lengths: &[usize]) -> Vec<u8> {
    let labels: Vec<String> = lengths.iter().map(|length| "n".repeat(*length)).collect();
    labels.join(".").into_bytes()
}

/// A name with one octet set to another value.
pub fn with(mut name: Vec<u8>, index: usize, octet: u8) -> Vec<u8> {
    name[index] = octet;
    name
}

/// Label lengths of names about as long as a name can be.
const LONG: [&[usize]; 5] = [
    &[63, 63, 63, 61],
    &[63, 63, 63, 60],
    &[63, 63, 63, 59],
    &[63, 63, 63, 62],
    &[1; 127],
];

pub fn add_wire(cases: &mut Cases, numbers: &mut Numbers, count: usize) {
    let kind = Kind::Wire;
    for name in [
        &b""[..],
        b"\0",
        b"\0\0",
        b"\x01a\0",
        b"\x01a",
        b"\x01a\0\0",
        b"\x04doh1\x07example\x03com\0",
        b"\x04DoH1\x07Example\x03COM\0",
        b"\x04doh1\x07example\x03com",
        b"\x04doh1\x07example\x04com\0",
        b"\x04doh1\x07example\x03com\xc0\x00",
        b"\x0dxn--bcher-kva\0",
        b"\x03a-b\0",
        b"\x04a--b\0",
        b"\x02a-\0",
        b"\x02-a\0",
        b"\x03a-",
        b"\x02a-",
        b"\x03a.b\0",
        b"\x03a_b\0",
        b"\xc0\x0c",
        b"\x01a\xc0\x0c",
        b"\x01a\x40",
        b"\x01a\x3f",
    ] {
        cases.add(kind, name);
    }
    for octet in EDGES {
        cases.add(kind, [2, *octet, b'a', 0]);
        cases.add(kind, [3, b'a', *octet, b'a', 0]);
        cases.add(kind, [2, b'a', *octet, 0]);
    }
    for length in [1, 2, 62, 63, 64, 65, 127, 128, 191, 192, 193, 255] {
        cases.add(kind, [length]);
        cases.add(kind, [1, b'a', length]);
        cases.add(kind, [1, b'a', length, b'a', 0]);
    }
    // Labels of 62 to 64 octets, hyphens at their ends and inside.
    cases.add(kind, wire(&[62]));
    cases.add(kind, wire(&[63]));
    cases.add(kind, wire(&[63, 1]));
    cases.add(kind, wire(&[64]));
    cases.add(kind, with(wire(&[63]), 1, b'-'));
    cases.add(kind, with(wire(&[63]), 62, b'-'));
    cases.add(kind, with(wire(&[63]), 63, b'-'));
    cases.add(kind, wire(&[63])[..64].to_vec());
    // Names of 253 to 257 octets and longer.
    for lengths in LONG {
        cases.add(kind, wire(lengths));
    }
    cases.add(kind, wire(&[63, 63, 63, 59, 1]));
    cases.add(kind, wire(&[63, 63, 63, 60, 1]));
    cases.add(kind, wire(&[1; 128]));
    cases.add(kind, [wire(LONG[0]), vec![0]].concat());
    cases.add(kind, wire(LONG[0])[..254].to_vec());
    cases.add(kind, wire(LONG[3])[..193].to_vec());
    cases.add(kind, with(wire(LONG[0]), 253, b'-'));
    cases.add(kind, wire(&[63, 63, 63, 63, 40]));
    while cases.count(kind) < count {
        let mut name = Vec::new();
        for _ in 0..numbers.pick(&[1, 1, 1, 2, 2, 2, 3]) {
            let length = numbers.pick(&[1, 1, 1, 2, 2, 3]);
            name.push(length as u8);
            name.extend(label(numbers, length));
        }
        name.push(0);
        for _ in 0..numbers.pick(&[0, 1, 1, 2]) {
            numbers.damage(&mut name, WIRE_DAMAGE);
        }
        cases.add(kind, name);
    }
}

pub fn add_text(cases: &mut Cases, numbers: &mut Numbers, count: usize) {
    let kind = Kind::Text;
    for name in [
        "",
        "a",
        ".",
        "-",
        "a.",
        "a-",
        "a..b",
        "a.-b",
        "a-.b",
        "a--.b",
        "a--b",
        ".a",
        "doh1.example.com",
        "DoH1.Example.COM",
        "doh1.example.com.",
        "doh1.example-.com",
        "xn--bcher-kva.example",
        "192.0.2.1",
        "a_b",
        "a b",
        "a\0",
        "a\r\n",
    ] {
        cases.add(kind, name);
    }
    for octet in EDGES {
        cases.add(kind, [*octet, b'a']);
        cases.add(kind, [b'a', *octet, b'a']);
        cases.add(kind, [b'a', *octet]);
    }
    // Labels of 62 to 64 octets, hyphens as 62nd, 63rd and 64th.
    cases.add(kind, text(&[62]));
    cases.add(kind, text(&[63]));
    cases.add(kind, text(&[63, 1]));
    cases.add(kind, text(&[64]));
    cases.add(kind, with(text(&[62]), 61, b'-'));
    cases.add(kind, with(text(&[63]), 61, b'-'));
    cases.add(kind, with(text(&[63]), 62, b'-'));
    cases.add(kind, with(text(&[64]), 63, b'-'));
    cases.add(kind, with(text(&[64]), 63, b'.'));
    // Names of 251 to 254 octets and longer.
    for lengths in LONG {
        cases.add(kind, text(lengths));
    }
    for octet in *b".-" {
        cases.add(kind, with(text(LONG[0]), 252, octet));
        cases.add(kind, with(text(LONG[0]), 251, octet));
    }
    cases.add(kind, with(text(LONG[0]), 251, b'-')[..252].to_vec());
    cases.add(kind, with(text(LONG[3]), 253, b'.'));
    cases.add(kind, text(&[63, 63, 63, 63, 40]));
    while cases.count(kind) < count {
        let mut name = Vec::new();
        for index in 0..numbers.pick(&[1, 1, 2, 2, 3]) {
            if index > 0 {
                name.push(b'.');
            }
            let length = numbers.pick(&[1, 1, 1, 2, 2, 3]);
            name.extend(label(numbers, length));
        }
        for _ in 0..numbers.pick(&[0, 1, 1, 2]) {
            numbers.damage(&mut name, TEXT_DAMAGE);
        }
        cases.add(kind, name);
    }
}

/// A good label.
fn label(numbers: &mut Numbers, length: usize) -> Vec<u8> {
    (0..length)
        .map(|index| match numbers.below(5) {
            0 if index > 0 && index + 1 < length => b'-',
            _ => numbers.pick(LETTERS),
        })
        .collect()
}
