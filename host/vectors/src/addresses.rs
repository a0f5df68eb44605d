//! Lists of addresses: each kind alone and in every company.

use crate::cases::{Cases, Kind};
use crate::numbers::Numbers;

pub fn add_ipv4(cases: &mut Cases, numbers: &mut Numbers, count: usize) {
    let kind = Kind::Ipv4;
    cases.add(kind, []);
    for first in [
        0, 1, 10, 126, 127, 128, 192, 223, 224, 225, 238, 239, 240, 254, 255,
    ] {
        cases.add(kind, [first, 0, 0, 1]);
        cases.add(kind, [first, 255, 255, 255]);
    }
    cases.add(kind, [0; 4]);
    cases.add(kind, [127, 0, 0, 0]);
    cases.add(kind, [1, 127, 224, 127]);
    // As many as a record can have.
    cases.add(kind, [192, 0, 2, 1, 127, 0, 0, 1, 10, 0, 0, 1].repeat(21));
    while cases.count(kind) < count {
        let list: Vec<u8> = (0..1 + numbers.below(3))
            .flat_map(|_| {
                let first = match numbers.below(3) {
                    0 => numbers.octet(),
                    _ => numbers.pick(&[10, 126, 127, 127, 128, 192, 223, 224, 239, 239, 240]),
                };
                [first, numbers.octet(), numbers.octet(), numbers.octet()]
            })
            .collect();
        cases.add(kind, list);
    }
}

pub fn add_ipv6(cases: &mut Cases, numbers: &mut Numbers, count: usize) {
    let kind = Kind::Ipv6;
    let one = |first: u8, last: u8| {
        let mut address = [0; 16];
        address[0] = first;
        address[15] = last;
        address
    };
    // ::ffff:127.0.0.1 and ::ffff:224.0.0.1 are not looked into.
    let mapped = |first: u8| {
        let mut address = one(0, 1);
        address[10..13].copy_from_slice(&[255, 255, first]);
        address
    };
    // 2001:db8:122:300::1
    let mut good = one(0x20, 1);
    good[1..7].copy_from_slice(&[1, 0x0d, 0xb8, 1, 0x22, 3]);
    cases.add(kind, []);
    for last in [0, 1, 2, 3, 127, 128, 129, 255] {
        cases.add(kind, one(0, last));
    }
    for first in [1, 127, 128, 224, 0xfc, 0xfd, 0xfe, 0xff] {
        cases.add(kind, one(first, 0));
        cases.add(kind, one(first, 1));
    }
    // ::1 with one more bit somewhere.
    for index in 0..16 {
        let mut address = one(0, 1);
        address[index] ^= 1 << (index % 8);
        cases.add(kind, address);
    }
    cases.add(kind, mapped(127));
    cases.add(kind, mapped(224));
    cases.add(kind, good);
    cases.add(kind, [0xff; 16]);
    cases.add(kind, [one(0, 1), good].concat());
    cases.add(kind, [good, one(0, 1)].concat());
    cases.add(kind, [one(0, 1), one(0xff, 2)].concat());
    cases.add(
        kind,
        [one(0xff, 1), good, one(0, 1), one(0xfe, 1), one(0, 0)].concat(),
    );
    while cases.count(kind) < count {
        let list: Vec<u8> = (0..numbers.pick(&[1, 1, 1, 1, 2]))
            .flat_map(|_| match numbers.below(8) {
                0 => one(0, 1),
                1 => one(0xff, numbers.octet()),
                2 => one(numbers.octet(), 1),
                3 => one(0, numbers.octet()),
                _ => {
                    let mut address = [0; 16];
                    address.fill_with(|| numbers.octet());
                    address
                }
            })
            .collect();
        cases.add(kind, list);
    }
}
