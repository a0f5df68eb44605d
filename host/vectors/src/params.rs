//! Parameter fields: good ones, every boundary, and damage.

use crate::cases::{Cases, Kind};
use crate::numbers::Numbers;

const DAMAGE: &[u8] = &[0, 0, 1, 1, 2, 2, 3, 3, 4, 5, 6, 7, 8, 16, 97, 254, 255];

const ALPN: &[&[u8]] = &[
    b"\x01a",
    b"\x01b",
    b"\x02h2",
    b"\x02h3",
    b"\x03dot",
    b"\x03doq",
    b"\x01a\x01b",
    b"\x02a",
    b"\x01ab",
    b"\x01a\x00",
];

pub fn param(key: u16, value: &[u8]) -> Vec<u8> {
    let length = u16::try_from(value.len()).expect("values are short");
    [&key.to_be_bytes()[..], &length.to_be_bytes(), value].concat()
}

/// The parameter mandatory, with these keys.
pub fn list(keys: &[u16]) -> Vec<u8> {
    let value: Vec<u8> = keys.iter().flat_map(|key| key.to_be_bytes()).collect();
    param(0, &value)
}

pub fn add(cases: &mut Cases, numbers: &mut Numbers, count: usize) {
    let kind = Kind::Params;
    let alpn = param(1, b"\x01a");
    let port = param(3, &[3, 0x55]);
    // One parameter, of every key that matters and many lengths.
    cases.add(kind, []);
    for key in [0, 1, 2, 3, 4, 5, 6, 7, 8, 255, 256, 65_280, 65_534, 65_535] {
        for value in [&[][..], &[0], &[1], &[0, 0], &[0, 1], &[1, 97], &[0, 3, 0]] {
            cases.add(kind, param(key, value));
        }
    }
    // alpn: one and more strings, empty ones, overruns.
    for value in [
        &b"\x03dot"[..],
        b"\x02h2\x02h3",
        b"\x02h2\x00",
        b"\x00\x02h2",
        b"\x01a\x00\x01b",
        b"\x01a\x01b\x01c",
        b"\x03do",
        b"\x04dot",
        b"\x02dot",
        b"\x01a\x01",
        b"\x01a\x02b",
        b"\xffa",
    ] {
        cases.add(kind, param(1, value));
        cases.add(kind, [param(1, value), port.clone()].concat());
    }
    cases.add(kind, param(1, &[&[255][..], &[b'x'; 255]].concat()));
    // Two keys in every order, equal ones among them.
    let keys = [0, 1, 2, 3, 4, 5, 6, 7, 65_534, 65_535];
    for first in keys {
        for second in keys {
            let value = |key| match key {
                0 => vec![0, 7],
                1 => b"\x01a".to_vec(),
                3 => vec![0, 53],
                _ => vec![],
            };
            let both = [param(first, &value(first)), param(second, &value(second))];
            cases.add(kind, both.concat());
        }
    }
    // mandatory: lists over keys present and absent.
    let lists: [&[u16]; 20] = [
        &[1],
        &[3],
        &[7],
        &[1, 3],
        &[1, 3, 7],
        &[1, 7],
        &[3, 1],
        &[1, 1],
        &[7, 7],
        &[0],
        &[0, 1],
        &[2],
        &[1, 2],
        &[1, 5],
        &[1, 3, 8],
        &[4],
        &[6],
        &[65_534],
        &[65_535],
        &[1, 65_535],
    ];
    for keys in lists {
        let rest = [alpn.clone(), port.clone(), param(7, b"/")].concat();
        cases.add(kind, list(keys));
        cases.add(kind, [list(keys), alpn.clone()].concat());
        cases.add(kind, [list(keys), rest].concat());
    }
    cases.add(kind, [list(&[4]), param(4, &[])].concat());
    cases.add(kind, [param(0, &[0, 1, 0]), alpn.clone()].concat());
    cases.add(kind, [param(0, &[0]), alpn.clone()].concat());
    // The earlier number wins over the earlier parameter.
    cases.add(kind, [param(4, &[]), vec![0, 5, 0, 1]].concat());
    cases.add(kind, [param(3, &[0]), param(6, &[])].concat());
    cases.add(kind, [param(3, &[0]), vec![0]].concat());
    cases.add(
        kind,
        [param(2, &[0]), param(4, &[]), param(65_535, &[])].concat(),
    );
    // 1,024 octets.
    let mut large = [list(&[1, 3, 65_280]), alpn, port].concat();
    large.extend(param(65_280, &vec![0xa5; 1_024 - large.len() - 4]));
    cases.add(kind, large);
    while cases.count(kind) < count {
        let mut field = some_field(numbers);
        if numbers.below(2) == 0 {
            numbers.damage(&mut field, DAMAGE);
        }
        cases.add(kind, field);
    }
}

/// A field of few parameters, most of them good.
fn some_field(numbers: &mut Numbers) -> Vec<u8> {
    let mut keys: Vec<u16> = (0..numbers.pick(&[1, 1, 1, 2, 2]))
        .map(|_| numbers.pick(&[1, 1, 1, 2, 3, 3, 4, 5, 6, 7, 8, 300, 65_534]))
        .collect();
    keys.sort_unstable();
    keys.dedup();
    let mut field = Vec::new();
    if numbers.below(4) == 0 {
        let mut listed = keys.clone();
        listed.retain(|_| numbers.below(3) > 0);
        if numbers.below(3) == 0 {
            listed.push(numbers.pick(&[0, 1, 3, 5, 7, 9, 65_535]));
        }
        field.extend(list(&listed));
    }
    let has_alpn = keys.contains(&1);
    for key in keys {
        let value = match key {
            1 => numbers.pick(ALPN).to_vec(),
            2 => vec![0; numbers.below(8) / 7],
            3 => (0..numbers.pick(&[0, 1, 2, 2, 2, 2, 3]))
                .map(|_| numbers.octet())
                .collect(),
            _ => (0..numbers.below(2)).map(|_| numbers.octet()).collect(),
        };
        // RULES P6: no-default-alpn is good only beside alpn.
        if key == 2 && !has_alpn {
            field.extend(param(1, b"\x01a"));
        }
        field.extend(param(key, &value));
    }
    field
}
