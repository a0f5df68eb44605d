//! Record sheets: valid ones, and ones damaged in a field, the form, the head or any octet.

use crate::generate::{address, name, parameters, priority, width, Health};
use crate::random::Random;

/// Addresses in one list: all usable, and in damaged lists one to be dropped, none at all or too many.
fn addresses(r: &mut Random, carrier: u8, health: Health, most: usize) -> Vec<u8> {
    let hurt = health == Health::Hurt;
    let many = match r.below(12) {
        0 => most,
        1 if hurt => 64,
        2 if hurt => 0,
        _ => 1 + r.below(4),
    };
    let bad = if hurt && r.once_in(5) { r.below(many.max(1)) } else { many };
    (0..many).flat_map(|i| address(r, carrier, i != bad)).collect()
}

/// One record: priority, lifetime, mode, name after its length; in mode 1 addresses and parameters.
fn record(r: &mut Random, carrier: u8, priority: u16, health: Health) -> Vec<u8> {
    let hurt = health == Health::Hurt;
    let mut b = priority.to_be_bytes().to_vec();
    let lifetime = if carrier == 3 { r.pick(&[0u32, 1, 3600, u32::MAX]) } else { u32::from(hurt && r.once_in(40)) };
    b.extend(lifetime.to_be_bytes());
    let bare = if carrier <= 3 { r.once_in(4) } else { hurt && r.once_in(20) };
    b.push(if hurt && r.once_in(60) { 2 } else { u8::from(!bare) });
    let mut n = name(r, 1, health);
    n.truncate(255);
    b.push(n.len() as u8);
    b.extend(&n);
    if !bare {
        let most = if carrier == 3 && !hurt { 40 } else { 63 };
        let a = addresses(r, carrier, health, most);
        let p = parameters(r, health);
        b.push((a.len() / width(carrier)) as u8);
        b.extend(&a);
        b.extend((p.len() as u16).to_be_bytes());
        b.extend(&p);
    }
    b
}

/// A sheet of so many records, by rising priority but for some damaged ones.
pub fn sheet(r: &mut Random, carrier: u8, records: usize, health: Health) -> Vec<u8> {
    let hurt = health == Health::Hurt;
    let mut ranks: Vec<u16> = (0..records).map(|_| priority(r, health)).collect();
    if !(hurt && r.once_in(12)) {
        ranks.sort_unstable();
    }
    let hurt_at = r.below(records.max(1));
    let mut s = b"RSV\x00\x01".to_vec();
    s.push(carrier);
    s.push(records as u8);
    for (i, rank) in ranks.into_iter().enumerate() {
        let h = if hurt && (i == hurt_at || r.once_in(4)) { Health::Hurt } else { Health::Good };
        s.extend(record(r, carrier, rank, h));
    }
    s
}

/// A carrier 3 sheet of one record whose option has `size` octets before it is rounded (1,100 to 2,060).
pub fn sized(r: &mut Random, size: usize) -> Vec<u8> {
    let name = b"\x01a\x07example\x00";
    let a: Vec<u8> = (0..63).flat_map(|_| address(r, 3, true)).collect();
    let filler = size - 14 - name.len() - a.len() - 4;
    let mut s = b"RSV\x00\x01\x03\x01\x00\x01\x00\x00\x0e\x10\x01".to_vec();
    s.push(name.len() as u8);
    s.extend(name);
    s.push(63);
    s.extend(a);
    s.extend(((filler + 4) as u16).to_be_bytes());
    s.extend([0xff, 0]);
    s.extend((filler as u16).to_be_bytes());
    s.extend(vec![0; filler]);
    s
}

/// Damage to a sheet as a whole: its head, its count, a changed octet, a cut, octets behind it.
pub fn damage(r: &mut Random, sheet: &mut Vec<u8>) {
    match r.below(8) {
        0 => sheet[r.below(3)] ^= 1,
        1 => sheet[3 + r.below(2)] ^= 1 + r.octet() % 3,
        2 => sheet[5] = r.pick(&[0, 6, 7, 255]),
        3 => sheet[6] = r.pick(&[0, 1, 15, 16, 17, 255]),
        4 => sheet.truncate(r.below(sheet.len())),
        5 => sheet.extend(vec![r.octet(); 1 + r.below(3)]),
        _ => {
            let i = r.below(sheet.len());
            sheet[i] = r.octet();
        }
    }
}
