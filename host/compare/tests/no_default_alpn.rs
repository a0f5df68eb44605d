//! no-default-alpn only beside alpn (RULES P6) by the proved library, by the reference and by the rule itself: the same fault of all three, when
//! options are read and when their sheet is written, in every carrier, and the same octets. RFC 9460 §7.1.1: a record with no-default-alpn
//! is self-consistent (§2.4.3) only if it has alpn too.

use compare::parameters::{agree, good_value, parameter};
use std::slice::from_ref;

/// A parameter, and whether its value alone is good.
#[derive(Clone)]
struct Parameter {
    key: u16,
    value: Vec<u8>,
    good: bool,
}

fn good(key: u16) -> Parameter {
    Parameter { key, value: good_value(key), good: true }
}

/// A value that its key does not take: alpn without a string, no-default-alpn with an octet, a port of one.
fn bad(key: u16) -> Parameter {
    let value = if key == 1 { vec![] } else { vec![0] };
    Parameter { key, value, good: false }
}

fn octets_of(field: &[Parameter]) -> Vec<u8> {
    field.iter().flat_map(|one| parameter(one.key, &one.value)).collect()
}

/// The fault of parameters that tile and whose keys rise: 26 for key 65535 (RULES P2), then 27 for a hint (RULES P3), then 28 for a value that is
/// not good, and for key 2 without key 1 (RULES P6).
fn fault(field: &[Parameter]) -> usize {
    let has = |key: u16| field.iter().any(|parameter| parameter.key == key);
    if has(65_535) {
        26
    } else if has(4) || has(6) {
        27
    } else if field.iter().any(|parameter| !parameter.good) || (has(2) && !has(1)) {
        28
    } else {
        0
    }
}

/// Mandatory lists, and whether each rises and is not empty.
const LISTS: [(&[u16], bool); 8] =
    [(&[1], true), (&[2], true), (&[3], true), (&[1, 2], true), (&[2, 3], true), (&[1, 2, 3, 8], true), (&[], false), (&[2, 1], false)];

/// A mandatory list before parameters with these keys: each that it names must be there (RULES P4).
fn mandatory((list, rises): (&[u16], bool), keys: &[u16]) -> Parameter {
    let value = list.iter().flat_map(|key| key.to_be_bytes()).collect();
    Parameter { key: 0, value, good: rises && list.iter().all(|key| keys.contains(key)) }
}

/// Parameters with these keys, none of them 0, in every choice of good and bad values of the keys 1, 2 and 3.
fn valued(keys: &[u16]) -> Vec<Vec<Parameter>> {
    keys.iter().fold(vec![vec![]], |shorter, &key| {
        let values = if key <= 3 { vec![good(key), bad(key)] } else { vec![good(key)] };
        shorter.iter().flat_map(|field| values.iter().map(|value| [&field[..], from_ref(value)].concat())).collect()
    })
}

/// Every choice of the keys 0 to 8 and 65535, with good and bad values, and with each of the lists where 0 is chosen: 27 fields over the keys 1 to 3,
/// with 64 choices of the others, once without a list and once with each of the 8. One in two has key 65535, and of the others three in four a hint.
///
/// Of the 1,944 that are left these are good, for 8 choices of 5, 7 and 8 each: without a list 6, since key 2 is not there without 1; with the list
/// of 1 four, of 2 two, of 3 three, of 1 and 2 two, of 2 and 3 one, and with that which names 8 one for 4 choices. In 48 nothing is wrong but that
/// key 2 stands without 1: without a list and with that of 2 two for 8 choices each, with that of 3 and that of 2 and 3 one.
#[test]
fn every_choice_of_keys() {
    let (mut met, mut alone) = ([0usize; 29], 0);
    for choice in 0..512u16 {
        let chosen = [1, 2, 3, 4, 5, 6, 7, 8, 65_535].into_iter().enumerate().filter(|(bit, _)| choice >> bit & 1 == 1);
        let keys: Vec<u16> = chosen.map(|(_, key)| key).collect();
        for field in valued(&keys) {
            let listed = LISTS.iter().map(|&list| [&[mandatory(list, &keys)], &field[..]].concat());
            for field in listed.chain([field.clone()]) {
                let wrong = fault(&field);
                agree(1..=5, &[(octets_of(&field), wrong)]);
                met[wrong] += 1;
                alone += usize::from(wrong == 28 && field.iter().all(|parameter| parameter.good));
            }
        }
    }
    println!("done {}, 26 to 28 {:?}, of which {alone} for key 2 without 1 alone", met[0], &met[26..]);
    let done = 8 * (6 + 4 + 2 + 3 + 2 + 1) + 4;
    assert_eq!([met[0], met[26], met[27], met[28]], [done, 7_776, 5_832, 1_944 - done]);
    assert_eq!(alone, 48);
}

/// Parameters cut after each octet, with and without a list of key 2 before them: those that are whole have the fault of the rule, the others 26
/// (RULES T3).
#[test]
fn cut_after_every_octet() {
    for keys in [&[1, 2, 3, 5][..], &[2, 3, 5], &[2, 4, 6], &[1, 2, 4], &[1, 3], &[2]] {
        for list in [None, Some((&[2][..], true))] {
            let first = |many: usize| -> Vec<Parameter> {
                let listed = list.map(|list| mandatory(list, &keys[..many]));
                listed.into_iter().chain(keys[..many].iter().map(|&key| good(key))).collect()
            };
            let all = octets_of(&first(keys.len()));
            for cut in 1..=all.len() {
                let whole = (0..=keys.len()).map(first).find(|field| octets_of(field).len() == cut);
                agree(1..=5, &[(all[..cut].to_vec(), whole.map_or(26, |field| fault(&field)))]);
            }
        }
    }
}

/// alpn behind no-default-alpn, either of them behind the port, or one of them twice: 26, whether both are there or not (RULES P2).
#[test]
fn keys_that_do_not_rise() {
    for keys in [&[2, 1][..], &[2, 1, 3], &[2, 3, 1], &[1, 3, 2], &[3, 1, 2], &[3, 2], &[2, 2], &[1, 2, 2], &[1, 1, 2]] {
        let field: Vec<Parameter> = keys.iter().map(|&key| good(key)).collect();
        agree(1..=5, &[(octets_of(&field), 26)]);
    }
}

/// alpn counts in the same parameters alone: up to three resolvers with neither, with alpn, with no-default-alpn and with both, in any order; and
/// sixteen with both but one, at each place, that has no-default-alpn alone.
#[test]
fn alpn_of_another_resolver() {
    let kinds = [vec![], vec![good(1)], vec![good(2)], vec![good(1), good(2)]].map(|field| (octets_of(&field), fault(&field)));
    assert_eq!(kinds.each_ref().map(|(_, fault)| *fault), [0, 0, 28, 0]);
    let mut some = vec![vec![]];
    for _ in 0..3 {
        some = some.iter().flat_map(|fields| kinds.iter().map(|kind| [&fields[..], from_ref(kind)].concat())).collect();
        some.iter().for_each(|fields| agree(1..=5, fields));
    }
    for place in 0..16 {
        let mut fields = vec![kinds[3].clone(); 16];
        agree(1..=5, &fields);
        fields[place] = kinds[2].clone();
        agree(1..=5, &fields);
    }
}
