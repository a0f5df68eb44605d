//! Addresses (RULES A1, A2).

use crate::common::*;
use dnr_reference::{is_dropped, kept};

#[test]
fn ipv4_by_first_octet() {
    for first in 0..=255u8 {
        let dropped = (224..240).contains(&first) || first == 127;
        for rest in [[0, 0, 0], [255, 255, 255], [0, 0, 1]] {
            let address = [&[first][..], &rest].concat();
            assert_eq!(is_dropped(&address), dropped, "{address:?}");
        }
    }
}

#[test]
fn ipv6_by_first_octet_and_loopback() {
    for first in 0..=255u8 {
        let mut address = [0; 16];
        address[0] = first;
        assert_eq!(is_dropped(&address), first == 255);
        address[15] = 1;
        assert_eq!(is_dropped(&address), first == 255 || first == 0);
    }
    for index in 0..15 {
        let mut address = [0; 16];
        address[15] = 1;
        address[index] = 1;
        assert!(!is_dropped(&address));
    }
    // ::, ::2, ::ffff:127.0.0.1, fe80::1
    for text in [
        "00000000000000000000000000000000",
        "00000000000000000000000000000002",
        "00000000000000000000ffff7f000001",
        "fe800000000000000000000000000001",
    ] {
        assert!(!is_dropped(&hex(text)));
    }
}

#[test]
fn the_rest_keep_their_order() {
    let list = hex("c0000201 7f000001 e0000001 00000000 ffffffff 7fffffff f0000000");
    assert_eq!(kept(4, &list), hex("c0000201 00000000 ffffffff f0000000"));
    let loopback = hex("00000000000000000000000000000001");
    let multicast = hex("ff020000000000000000000000000001");
    let list = [
        &loopback,
        A,
        &multicast,
        &hex("fe800000000000000000000000000001"),
    ]
    .concat();
    assert_eq!(kept(16, &list), [A, &list[48..]].concat());
    assert!(kept(16, &[]).is_empty());
    assert!(kept(16, &[loopback, multicast].concat()).is_empty());
}

/// In all carriers (RULES A1, a house rule for 4 and 5).
#[test]
fn dropped_in_every_carrier() {
    for carrier in 1..=5 {
        let (good, bad) = match carrier {
            1 | 4 => (A4.to_vec(), hex("7f000001 ef000000")),
            _ => (A.to_vec(), hex("00000000000000000000000000000001")),
        };
        let name = if carrier < 4 { N } else { b"doh1.example.com" };
        let area = |addresses: &[u8]| {
            let block = block(carrier, 1, full(name, addresses, P));
            if carrier == 1 {
                option(1, &block)
            } else {
                block
            }
        };
        let expected = sheet(carrier, &[record(carrier, 1, 0, full(N, &good, P))]);
        let list = [&bad[..], &good, &bad].concat();
        assert_eq!(read_done(carrier, &area(&list)).1, expected);
        assert_eq!(fault_of(carrier, &area(&bad)), 25);
    }
}
