//! Mandatory lists (RULES P4) by the proved library, by the reference and by the rule in terms of sets: the same fault of all three, when an
//! option is read and when its sheet is written, and the same octets.

use compare::parameters::{agree, good_value, parameter};
use compare::random::Random;
use std::collections::BTreeSet;

/// The most octets of parameters (RULES L4).
const MOST: usize = 1_024;

/// A mandatory list as octets, and the keys of the parameters after it, each with its value.
struct Field {
    list: Vec<u8>,
    after: Vec<(u16, Vec<u8>)>,
}

fn octets_of(keys: &[u16]) -> Vec<u8> {
    keys.iter().flat_map(|key| key.to_be_bytes()).collect()
}

impl Field {
    fn new(list: &[u16], after: &[u16]) -> Self {
        Field { list: octets_of(list), after: after.iter().map(|&key| (key, good_value(key))).collect() }
    }

    fn octets(&self) -> Vec<u8> {
        let after: Vec<u8> = self.after.iter().flat_map(|(key, value)| parameter(*key, value)).collect();
        [parameter(0, &self.list), after].concat()
    }

    /// The keys of a list that is not cut within one.
    fn listed(&self) -> Vec<u16> {
        self.list.chunks(2).map(|two| u16::from_be_bytes([two[0], two[1]])).collect()
    }

    /// The fault as the rules have it, where the other values are good. Keys that rise strictly are a set in its order. The parameters' keys
    /// after 0 are one without 0 and 65535 (RULES P2), and without 4 and 6 (RULES P3); those of the list are one that is not empty, without 0,
    /// and a part of the parameters' (RULES P4).
    fn fault(&self) -> usize {
        let keys: Vec<u16> = self.after.iter().map(|(key, _)| *key).collect();
        let present: BTreeSet<u16> = keys.iter().copied().collect();
        if !present.iter().eq(&keys) || present.contains(&0) || present.contains(&65_535) {
            return 26;
        }
        if present.contains(&4) || present.contains(&6) {
            return 27;
        }
        if self.list.len() % 2 != 0 {
            return 28;
        }
        let listed = self.listed();
        let named: BTreeSet<u16> = listed.iter().copied().collect();
        let good = !named.is_empty() && named.iter().eq(&listed) && !named.contains(&0) && named.is_subset(&present);
        if good { 0 } else { 28 }
    }
}

/// Asserts that both implementations have the fault of the rules, in carrier 2, and gives it back.
fn agreed(field: &Field) -> usize {
    let (parameters, fault) = (field.octets(), field.fault());
    assert!(parameters.len() <= MOST);
    agree(2..=2, &[(parameters, fault)]);
    fault
}

/// How often each fault was met.
#[derive(Default)]
struct Counts([usize; 29]);

impl Counts {
    fn add(&mut self, field: &Field) {
        self.0[agreed(field)] += 1;
    }

    fn of(&self, faults: &[usize]) -> Vec<usize> {
        faults.iter().map(|&fault| self.0[fault]).collect()
    }
}

/// Every list of so many of these keys, in any order and with any of them repeated.
fn lists(keys: &[u16], long: usize) -> Vec<Vec<u16>> {
    (0..long).fold(vec![vec![]], |shorter, _| {
        shorter.iter().flat_map(|list| keys.iter().map(|&key| [&list[..], &[key]].concat())).collect()
    })
}

/// Every field with some of the keys 1, 2, 3, 5, 7 and 8, where 2 stands only beside 1 (RULES P6), and before them every list of up to four of
/// these keys and 0, as it is and with an octet more. Good are one to four of a field's keys in their order: 507 lists over the 48 fields.
#[test]
fn every_short_list() {
    let short: Vec<Vec<u16>> = (0..=4).flat_map(|long| lists(&[0, 1, 2, 3, 5, 7, 8], long)).collect();
    let mut counts = Counts::default();
    let mut odd = Counts::default();
    for some in 0..64u8 {
        let keys = [1, 2, 3, 5, 7, 8].into_iter().enumerate().filter(|(bit, _)| some >> bit & 1 == 1);
        let keys: Vec<u16> = keys.map(|(_, key)| key).collect();
        if keys.contains(&2) && !keys.contains(&1) {
            continue;
        }
        let mut field = Field::new(&[], &keys);
        for list in &short {
            field.list = octets_of(list);
            counts.add(&field);
            field.list.push(0);
            odd.add(&field);
        }
    }
    println!("lists: done {}, 28 {}; with an octet behind: done {}, 28 {}", counts.0[0], counts.0[28], odd.0[0], odd.0[28]);
    assert_eq!(counts.of(&[0, 28]), [507, 48 * 2_801 - 507]);
    assert_eq!(odd.of(&[0, 28]), [0, 48 * 2_801]);
}

/// `many` keys far apart, by rising high octet; the low ones are 128 and 0 in turn.
fn apart(many: u16) -> Vec<u16> {
    (1..=many).map(|nth| 384 * nth).collect()
}

/// Lists that are wrong in one place: its key is less by 256 or by 1, or more by 1, and so absent; or 0, or 65535, or the one before it; or
/// is exchanged with that one.
fn wrong_at(good: &[u16], place: usize) -> Vec<Vec<u16>> {
    let put = |key: u16| {
        let mut list = good.to_vec();
        list[place] = key;
        list
    };
    let key = good[place];
    let mut wrong = vec![put(key - 256), put(key - 1), put(key + 1), put(0), put(65_535)];
    if place > 0 {
        wrong.push(put(good[place - 1]));
        let mut list = good.to_vec();
        list.swap(place - 1, place);
        wrong.push(list);
    }
    wrong
}

/// Lists of all keys of a field, up to 170, which are as many as fit, and what can be wrong at each place: the list's key; its parameter, which
/// is absent or has another key; all parameters from there on, or up to there, which are absent. Lists of all keys but that one, and of that
/// one alone, are good.
#[test]
fn one_key_at_every_place() {
    let mut counts = Counts::default();
    let mut add = |list: &[u16], after: &[u16], fault: usize| {
        let field = Field::new(list, after);
        assert_eq!(field.fault(), fault, "{list:?} before {after:?}");
        counts.add(&field);
    };
    for many in [2, 3, 17, 84, 169, 170] {
        let all = apart(many);
        add(&all, &all, 0);
        for place in 0..all.len() {
            for list in wrong_at(&all, place) {
                add(&list, &all, 28);
            }
            let (before, behind) = (&all[..place], &all[place + 1..]);
            let less = [before, behind].concat();
            add(&less, &all, 0);
            add(&all, &less, 28);
            add(&all, &[before, &[all[place] - 1], behind].concat(), 28);
            add(&all, &[before, &[all[place] + 1], behind].concat(), 28);
            add(&all, before, 28);
            add(&all, behind, 28);
            add(&[all[place]], &all, 0);
        }
    }
    assert_eq!(Field::new(&apart(170), &apart(170)).octets().len(), MOST);
    println!("done {}, 28 {}", counts.0[0], counts.0[28]);
}

/// A good field of two parameters or more, some of them with values, and a list of two of them or more, up to all.
fn long_field(r: &mut Random) -> Field {
    let mut keys: Vec<u16> = [1, 3].into_iter().filter(|_| r.once_in(2)).collect();
    let most = 2 + r.below(199);
    let (mut key, gap) = (6 + r.below(500), r.pick(&[1, 2, 30, 320]));
    for _ in 0..most {
        key += 1 + r.below(gap);
        keys.push(key as u16);
    }
    let valued = r.pick(&[4, 30, 10_000]);
    let left_out = r.pick(&[2, 10, 10_000]);
    let mut list: Vec<u16> = keys.iter().copied().filter(|_| !r.once_in(left_out)).collect();
    let mut field = Field::new(&[], &keys);
    for (_, value) in field.after.iter_mut().filter(|(key, _)| *key > 6) {
        if r.once_in(valued) {
            *value = (0..1 + r.below(9)).map(|_| r.octet()).collect();
        }
    }
    while field.octets().len() + 2 * list.len() > MOST {
        let last = field.after.pop().map(|(key, _)| key);
        list.retain(|&key| Some(key) != last);
    }
    if list.len() < 2 {
        list = field.after.iter().map(|(key, _)| *key).take(2).collect();
    }
    field.list = octets_of(&list);
    field
}

/// Spoils one thing in the list or in the parameters; the field gets no longer.
fn spoil(r: &mut Random, field: &mut Field, kind: usize) {
    let mut list = field.listed();
    let keys: Vec<u16> = field.after.iter().map(|(key, _)| *key).collect();
    let (least, largest) = (usize::from(keys[0]), usize::from(keys[keys.len() - 1]));
    let (end, place, pair) = (list.len() - 1, r.below(list.len()), r.below(list.len() - 1));
    let parameter = r.below(keys.len());
    match kind {
        0 => list[place] = (list[place]..=65_535).find(|key| !keys.contains(key)).unwrap_or(65_535),
        1 => list.swap(pair, pair + 1),
        2 => list[pair + 1] = list[pair],
        3 => drop(field.after.remove(parameter)),
        4 => list[0] = 0,
        5 => list[end] = 65_535,
        6 => list[end] = (largest + 1 + r.below(65_535 - largest)) as u16,
        7 => list[0] = r.below(least) as u16,
        8 => field.after[parameter].0 = r.pick(&[4, 6]),
        9 => field.after[0].0 = r.pick(&[4, 6]),
        10 => field.after[keys.len() - 1].0 = 65_535,
        _ => field.after.swap(0, parameter),
    }
    field.list = octets_of(&list);
}

/// The kinds of `spoil`, and how many of them, the first ones, leave no fault but 28.
const KINDS: usize = 12;
const OF_THE_LIST: usize = 8;

/// Long fields, up to those in which nothing more fits: good, then with the list spoilt, and once in three times with a parameter's key
/// spoilt too, so that 26 and 27 are asked for behind keys that give 28 (RULES T3).
#[test]
fn long_lists() {
    let mut r = Random::new(31);
    let mut counts = Counts::default();
    let (mut listed, mut present, mut kinds) = (0, 0, [0usize; KINDS]);
    for _ in 0..6_000 {
        let mut field = long_field(&mut r);
        listed = listed.max(field.list.len() / 2);
        present = present.max(field.after.len());
        assert_eq!(agreed(&field), 0);
        let kind = r.below(OF_THE_LIST);
        spoil(&mut r, &mut field, kind);
        counts.add(&field);
        kinds[kind] += usize::from(field.fault() == 28);
        if r.once_in(3) {
            let kind = OF_THE_LIST + r.below(KINDS - OF_THE_LIST);
            spoil(&mut r, &mut field, kind);
            counts.add(&field);
            kinds[kind] += usize::from([26, 27].contains(&field.fault()));
        }
    }
    println!("up to {listed} keys listed and {present} after key 0; spoilt: done {}, 26 to 28 {:?}, by kind {kinds:?}", counts.0[0], &counts.0[26..]);
    assert!(counts.of(&[0, 26, 27, 28]).iter().chain(&kinds).all(|&met| met > 100));
    assert_eq!(listed, 170);
}
