//! From a block to fields (RULES B1 to B8).

use crate::common::*;

/// Instances in order, each with its first fault (RULES T2); they tile
/// (RULES B4).
#[test]
fn instances() {
    let good = block(1, 1, full(N, A4, P));
    let alias = block(1, 0, (N, None));
    let cases: [(Vec<u8>, usize); 9] = [
        ([&alias[..], &[0, 9, 1]].concat(), 21),
        ([&good[..], &[0, 9, 1]].concat(), 20),
        ([&good[..], &[0]].concat(), 20),
        ([&alias[..], &[0]].concat(), 21),
        ([&good[..], &alias].concat(), 21),
        // Field past the end of instance 2, after 21 of instance 1.
        ([&alias[..], &[0, 4, 0, 1, 2, 0]].concat(), 21),
        ([&good[..], &[0, 4, 0, 1, 2, 0]].concat(), 20),
        ([&good[..], &[0, 0]].concat(), 20),
        ([&good[..], &good].concat(), 0),
    ];
    for (joined, fault) in cases {
        assert_eq!(fault_of(1, &option(1, &joined)), fault, "{joined:?}");
    }
}

/// An instance is read from its own octets and nothing around them (RULES B4).
#[test]
fn an_instance_ends_where_it_says() {
    // The address list would fit the joined data but not the instance.
    let mut first = block(1, 1, full(N, A4, &[]));
    first[23] = 8;
    assert_eq!(
        fault_of(1, &option(1, &[first, block(1, 1, (N, None))].concat())),
        20
    );
}

/// Name only in carrier 1, and L (RULES B5).
#[test]
fn instance_lengths() {
    for (instance, fault) in [
        (&[0, 0][..], 20),
        (&[0, 1, 0], 20),
        (&[0, 2, 0, 1], 20),
        (&[0, 3, 0, 1, 0], 22),
        (&[0, 3, 0, 1, 1], 20),
        (&[0, 6, 0, 1, 3, 1, b'a', 0], 0),
        (&[0, 7, 0, 1, 3, 1, b'a', 0, 0], 23),
        (&[0, 7, 0, 1, 3, 1, b'a', 0, 1], 20),
        (&[0, 8, 0, 1, 3, 1, b'a', 0, 1, 9], 23),
        (&[0, 11, 0, 1, 3, 1, b'a', 0, 4, 9, 9, 9, 9], 0),
    ] {
        assert_eq!(fault_of(1, &option(1, instance)), fault, "{instance:?}");
    }
}

/// Carrier 2: what follows the name (RULES B5), and ADN lengths above 255
/// (RULES N1).
#[test]
fn dhcp6_lengths() {
    for (data, fault) in [
        (&[0, 1][..], 20),
        (&[0, 1, 0], 20),
        (&[0, 1, 0, 0], 22),
        (&[0, 1, 0, 3, 1, b'a'], 20),
        (&[0, 1, 0, 3, 1, b'a', 0], 0),
        (&[0, 1, 0, 3, 1, b'a', 0, 0], 20),
        (&[0, 1, 0, 3, 1, b'a', 0, 0, 0], 23),
        (&[0, 1, 0, 3, 1, b'a', 0, 0, 1], 20),
        (&[0, 1, 0, 3, 1, b'a', 0, 0, 1, 9], 23),
    ] {
        assert_eq!(fault_of(2, &option(2, data)), fault, "{data:?}");
    }
    let long = [&[0, 1, 1, 0][..], &[1; 256]].concat();
    assert_eq!(fault_of(2, &option(2, &long)), 22);
    assert_eq!(fault_of(2, &option(2, &long[..259])), 20);
}

/// An option of carrier 3, the name a single label that leaves `tail` behind
/// it to the option's end.
fn router_with(tail: &[u8]) -> Vec<u8> {
    let label = 8 + (4 + 64 - tail.len() % 8) % 8;
    let name = [vec![label as u8], vec![b'a'; label], vec![0]].concat();
    let octets = option(3, &[body(3, 1, 5, (&name, None)), tail.to_vec()].concat());
    assert_eq!(octets.len(), 10 + name.len() + tail.len());
    octets
}

/// Carrier 3: name only, full form and padding (RULES B5 to B7, T2).
#[test]
fn router_padding() {
    for zeros in 0..40 {
        let fault = match zeros {
            0..8 => 0,
            8..12 => 23,
            _ => 29,
        };
        assert_eq!(fault_of(3, &router_with(&vec![0; zeros])), fault, "{zeros}");
        if (1..8).contains(&zeros) {
            for index in 0..zeros {
                let mut tail = vec![0; zeros];
                tail[index] = 16;
                assert_eq!(fault_of(3, &router_with(&tail)), 29);
            }
        }
    }
    // The full form, padded by hand.
    let full = [&[0, 16][..], A, &[0, 0]].concat();
    for zeros in 0..16 {
        let mut tail = [&full[..], &vec![0; zeros]].concat();
        assert_eq!(
            fault_of(3, &router_with(&tail)),
            if zeros < 8 { 0 } else { 29 }
        );
        if zeros > 0 {
            *tail.last_mut().unwrap() = 1;
            assert_eq!(fault_of(3, &router_with(&tail)), 29);
        }
    }
    // 20 before 29 before 21.
    assert_eq!(fault_of(3, &router_with(&[0, 16, 1, 1, 1, 1, 1, 1])), 20);
    assert_eq!(fault_of(3, &router_with(&[0, 6, 1, 1, 1, 1, 1, 1])), 20);
    assert_eq!(fault_of(3, &router_with(&[0, 5, 1, 1, 1, 1, 1, 0])), 20);
    assert_eq!(fault_of(3, &router_with(&[0, 4, 1, 1, 1, 1, 0, 1])), 20);
    assert_eq!(fault_of(3, &router_with(&[0, 4, 1, 1, 1, 1, 0, 0])), 23);
    let mut both = router_with(&[0, 0, 1]);
    both[3] = 0;
    assert_eq!(fault_of(3, &both), 29);
    // ADN length past the end; above 255 within it.
    let mut name = router_with(&[]);
    name[9] += 1;
    assert_eq!(fault_of(3, &name), 20);
    let long = [&[0, 1, 0, 0, 0, 0, 1, 0][..], &[1; 262]].concat();
    assert_eq!(long.len() % 8, 6);
    assert_eq!(fault_of(3, &option(3, &long)), 29);
    let long = [&[0, 1, 0, 0, 0, 0, 1, 0][..], &[1; 256], &[0; 6]].concat();
    assert_eq!(fault_of(3, &option(3, &long)), 22);
}

/// Lifetimes of every kind, with either mode (RULES S4).
#[test]
fn router_lifetime() {
    for lifetime in [0, 1, u32::MAX] {
        for fields in [(N, None), full(N, A, P), full(N, A, &[])] {
            let octets = option(3, &body(3, 1, lifetime, fields));
            goes_round(3, &octets, &sheet(3, &[record(3, 1, lifetime, fields)]));
        }
    }
}

/// Carriers 4 and 5 (RULES B1, R23, N4).
#[test]
fn ike_lengths() {
    for (data, fault) in [
        (&[0, 1, 0][..], 20),
        (&[0, 1, 0, 0], 22),
        (&[0, 0, 0, 0], 21),
        (&[0, 1, 0, 1, b'a'], 23),
        (&[0, 1, 0, 1], 20),
        (&[0, 1, 1, 0, 9, 9, 9, 9], 22),
        (&[0, 1, 1, 1, 9, 9, 9, 9], 20),
        (&[0, 1, 1, 1, 9, 9, 9, 9, b'a'], 0),
        (&[0, 1, 1, 1, 9, 9, 9, 9, b'a', 0], 26),
        (&[0, 1, 0, 1, b'a', 0, 1, 0, 4, 3, b'd', b'o', b't'], 23),
    ] {
        assert_eq!(fault_of(4, &option(4, data)), fault, "{data:?}");
    }
    let name =
        |length: usize| vec![[&[b'a'; 49][..], b"."].concat(); 6].concat()[..length].to_vec();
    assert_eq!(fault_of(4, &block(4, 1, full(&name(253), A4, P))), 0);
    assert_eq!(fault_of(4, &block(4, 1, full(&name(254), A4, P))), 22);
    assert_eq!(fault_of(4, &block(4, 1, full(&name(255), A4, P))), 22);
    // 63 and 64 addresses in both.
    for (carrier, address) in [(4, A4), (5, A)] {
        let area = |count| block(carrier, 1, full(b"a", &address.repeat(count), P));
        assert_eq!(fault_of(carrier, &area(63)), 0);
        assert_eq!(fault_of(carrier, &area(64)), 24);
        assert_eq!(fault_of(carrier, &area(255)), 24);
    }
}

/// RFC 9464 §A.1, Figure 6: 1, 1, 15, 2001:db8:99:88:77:66:55:44,
/// doh.example.com, alpn=h2 dohpath=/dns-query{?dns}.
#[test]
fn rfc_9464_example() {
    let address = hex("20010db8009900880077006600550044");
    let params = hex("0001 0003 026832 0007 0010 2f646e732d71756572797b3f646e737d");
    let octets = block(5, 1, full(b"doh.example.com", &address, &params));
    assert_eq!(octets[4..8], [0, 1, 1, 15]);
    let wire = b"\x03doh\x07example\x03com\0";
    goes_round(
        5,
        &octets,
        &sheet(5, &[record(5, 1, 0, full(wire, &address, &params))]),
    );
    // Figures 8, 9, 10, requests: no name, no address.
    assert_eq!(fault_of(5, &block(5, 1, full(b"", &address, &[]))), 22);
    assert_eq!(
        fault_of(5, &block(5, 1, full(b"doh.example.com", &[], &[]))),
        23
    );
    assert_eq!(
        fault_of(5, &block(5, 1, full(b"", &[], b"\0\x01\0\x04\x03dot"))),
        22
    );
}

/// The order 21 to 28 within one block (RULES T2).
#[test]
fn first_fault_of_a_block() {
    let bad_params = hex("0003 0001 00 0006 0000 00");
    let long = [&bad_params[..], &[0; 1_024]].concat();
    let loopback = [vec![0; 15], vec![1]].concat();
    let cases = [
        (0, &b"\0"[..], vec![], &long[..], 21),
        (1, b"\0", vec![], &long, 22),
        (1, N, vec![1; 17], &long, 23),
        (1, N, loopback.repeat(64), &bad_params, 24),
        (1, N, loopback.clone(), &long, 24),
        (1, N, loopback, &bad_params, 25),
        (1, N, A.to_vec(), &bad_params, 26),
        (1, N, A.to_vec(), &bad_params[..9], 27),
    ];
    for (priority, name, addresses, params, fault) in cases {
        let area = block(2, priority, full(name, &addresses, params));
        assert_eq!(fault_of(2, &area), fault);
    }
}
