//! Areas for the five carriers: valid ones, and ones damaged in a field, a length, the framing or any octet.

use crate::parameters::parameter;
use crate::random::Random;

/// The octets of an address.
pub fn width(carrier: u8) -> usize {
    if carrier == 1 || carrier == 4 { 4 } else { 16 }
}

/// How much damage the fields of a record have.
#[derive(Clone, Copy, PartialEq)]
pub enum Health {
    Good,
    Hurt,
}

const LETTERS: &[u8] = b"abcdefghijklmnopqrstuvwxyzABCXYZ0123456789";

fn label(r: &mut Random, long: usize) -> Vec<u8> {
    let mut l: Vec<u8> = (0..long).map(|_| r.pick(LETTERS)).collect();
    if long > 2 && r.once_in(3) {
        l[1 + r.below(long - 2)] = b'-';
    }
    l
}

fn labels(r: &mut Random) -> Vec<Vec<u8>> {
    match r.below(20) {
        // 255 octets in wire form, 253 as text: the longest name.
        0 => [63, 63, 63, 61].iter().map(|&n| label(r, n)).collect(),
        1 => vec![label(r, 63)],
        _ => (0..1 + r.below(4)).map(|_| { let n = 1 + r.below(12); label(r, n) }).collect(),
    }
}

fn wire(labels: &[Vec<u8>]) -> Vec<u8> {
    let mut out = Vec::new();
    for l in labels {
        out.push(l.len() as u8);
        out.extend(l);
    }
    out.push(0);
    out
}

/// A name as the carrier has it; damaged ones break the label rule, a length or the ending.
pub(crate) fn name(r: &mut Random, carrier: u8, health: Health) -> Vec<u8> {
    let parts = labels(r);
    let mut n = if carrier >= 4 { parts.join(&b'.') } else { wire(&parts) };
    if health == Health::Hurt && r.once_in(4) {
        match r.below(6) {
            0 => { n.pop(); }
            1 => n.push(r.pick(&[0, b'.', b'-', b'a'])),
            2 => { let i = r.below(n.len()); n[i] = r.pick(&[b'-', b'.', b'_', 0, 64, 192]); }
            3 => n.clear(),
            4 => n.extend(std::iter::repeat(b'a').take(200)),
            _ => { let i = r.below(n.len()); n[i] = r.octet(); }
        }
    }
    n
}

pub(crate) fn address(r: &mut Random, carrier: u8, usable: bool) -> Vec<u8> {
    let mut a: Vec<u8> = (0..width(carrier)).map(|_| r.octet()).collect();
    if usable {
        a[0] = r.pick(&[10, 32, 192, 223, 240, 254]);
    } else if width(carrier) == 4 {
        a[0] = r.pick(&[127, 224, 231, 239]);
    } else if r.once_in(2) {
        a[0] = 255;
    } else {
        a = vec![0; 15];
        a.push(1);
    }
    a
}

fn addresses(r: &mut Random, carrier: u8, health: Health) -> Vec<u8> {
    let many = match r.below(12) {
        0 => 63,
        1 if health == Health::Hurt => 64,
        2 if health == Health::Hurt => 0,
        _ => 1 + r.below(4),
    };
    let keep = r.below(many.max(1));
    let none_stays = health == Health::Hurt && r.once_in(6);
    let mut out = Vec::new();
    for i in 0..many {
        let usable = !none_stays && (i == keep || !r.once_in(4));
        out.extend(address(r, carrier, usable));
    }
    if health == Health::Hurt && r.once_in(12) {
        out.push(r.octet());
    }
    out
}

/// Parameters with rising keys; damaged ones break a rule of keys or values, or a length.
pub(crate) fn parameters(r: &mut Random, health: Health) -> Vec<u8> {
    let hurt = health == Health::Hurt;
    let mut list: Vec<(u16, Vec<u8>)> = Vec::new();
    let alpn = r.once_in(2);
    if alpn {
        list.push((1, b"\x03dot".to_vec()));
    }
    // RULES P6: good ones have key 2 only beside key 1.
    if r.once_in(4) && (alpn || hurt) {
        list.push((2, Vec::new()));
    }
    if r.once_in(2) {
        list.push((3, vec![r.octet(), r.octet()]));
    }
    if hurt && r.once_in(8) {
        list.push((4, vec![192, 0, 2, 1]));
    }
    if r.once_in(4) {
        list.push((5, (0..r.below(9)).map(|_| r.octet()).collect()));
    }
    if hurt && r.once_in(8) {
        list.push((6, vec![0; 16]));
    }
    if r.once_in(3) {
        list.push((7, b"/dns-query{?dns}".to_vec()));
    }
    if r.once_in(6) {
        let long = if r.once_in(4) { 900 } else { r.below(40) };
        list.push((65280 + r.below(250) as u16, vec![0; long]));
    }
    if hurt && r.once_in(10) {
        list.push((65535, Vec::new()));
    }
    if !list.is_empty() && r.once_in(3) {
        let mut listed: Vec<u8> = Vec::new();
        for (k, _) in &list {
            if r.once_in(2) {
                listed.extend(k.to_be_bytes());
            }
        }
        if hurt && r.once_in(3) {
            listed.extend(r.pick(&[0u16, 1, 3, 9, 65534]).to_be_bytes());
        }
        if !listed.is_empty() || hurt {
            list.insert(0, (0, listed));
        }
    }
    if hurt && list.len() > 1 && r.once_in(8) {
        let i = r.below(list.len() - 1);
        list.swap(i, i + 1);
    }
    if hurt && !list.is_empty() && r.once_in(6) {
        let i = r.below(list.len());
        let v = &mut list[i].1;
        if r.once_in(2) { v.push(r.octet()) } else { v.pop(); }
    }
    let mut out: Vec<u8> = list.iter().flat_map(|(k, v)| parameter(*k, v)).collect();
    if hurt && !out.is_empty() && r.once_in(10) {
        out.pop();
    }
    if hurt && r.once_in(20) {
        let filler = 1025usize.saturating_sub(out.len() + 4);
        out.extend(parameter(65534, &vec![0; filler + r.below(3)]));
    }
    out
}

pub(crate) fn priority(r: &mut Random, health: Health) -> u16 {
    if health == Health::Hurt && r.once_in(8) {
        return 0;
    }
    r.pick(&[1, 1, 2, 5, 5, 255, 256, 65535])
}

/// A body (in carrier 1 an instance without its length) of the carrier.
pub fn body(r: &mut Random, carrier: u8, health: Health) -> Vec<u8> {
    let mut b = priority(r, health).to_be_bytes().to_vec();
    let n = name(r, carrier, health);
    let a = addresses(r, carrier, health);
    let p = parameters(r, health);
    let name_only = carrier <= 3 && r.once_in(4);
    match carrier {
        1 => {
            b.push(n.len() as u8);
            b.extend(&n);
            if !name_only {
                let most = a.len().min(252 + 3);
                b.push(most as u8);
                b.extend(&a[..most]);
                b.extend(&p);
            }
        }
        2 | 3 => {
            if carrier == 3 {
                b.extend(r.pick(&[0u32, 3600, 1, u32::MAX]).to_be_bytes());
            }
            b.extend((n.len() as u16).to_be_bytes());
            b.extend(&n);
            if !name_only {
                b.extend((a.len() as u16).to_be_bytes());
                b.extend(&a);
                if carrier == 3 {
                    b.extend((p.len() as u16).to_be_bytes());
                }
                b.extend(&p);
            }
            if carrier == 3 {
                while (b.len() + 2) % 8 != 0 {
                    b.push(0);
                }
                if health == Health::Hurt && r.once_in(6) {
                    let zeros = if r.once_in(3) { 16 } else { 8 };
                    b.extend(vec![0; zeros]);
                }
                if health == Health::Hurt && r.once_in(8) {
                    *b.last_mut().unwrap() ^= 1;
                }
            }
        }
        _ => {
            b.push((a.len() / width(carrier)) as u8);
            b.push(n.len() as u8);
            b.extend(&a[..a.len() / width(carrier) * width(carrier)]);
            b.extend(&n);
            b.extend(&p);
        }
    }
    if health == Health::Hurt && r.once_in(6) && !b.is_empty() {
        match r.below(4) {
            0 => { let i = r.below(b.len()); b[i] = r.octet(); }
            1 => { let i = r.below(b.len()); b[i] = b[i].wrapping_add(r.pick(&[1, 255])); }
            2 => { let cut = r.below(b.len() + 1); b.truncate(cut); }
            _ => b.push(r.octet()),
        }
        while carrier == 3 && (b.len() + 2) % 8 != 0 {
            b.push(0);
        }
    }
    b
}

/// An option or attribute of a code with a body that its length can say.
fn option(carrier: u8, code: u16, reserved: bool, body: &[u8]) -> Vec<u8> {
    let mut o = Vec::new();
    match carrier {
        1 => {
            o.push(code as u8);
            o.push(body.len() as u8);
        }
        3 => {
            o.push(code as u8);
            o.push(((body.len() + 2) / 8) as u8);
        }
        _ => {
            o.extend((code | if reserved { 0x8000 } else { 0 }).to_be_bytes());
            o.extend((body.len() as u16).to_be_bytes());
        }
    }
    o.extend(body);
    o
}

fn own_code(carrier: u8) -> u16 {
    match carrier {
        1 => 162,
        2 | 3 => 144,
        4 => 27,
        _ => 28,
    }
}

/// An option of another code; in carrier 1 sometimes padding.
fn foreign(r: &mut Random, carrier: u8) -> Vec<u8> {
    if carrier == 1 && r.once_in(2) {
        return vec![0; 1 + r.below(3)];
    }
    let code = r.pick(&[1u16, 25, 29, 53, 82, 143, 145, 161, if carrier == 4 { 28 } else { 27 }]);
    let long = r.below(20);
    let long = if carrier == 3 { long / 8 * 8 + 6 } else { long };
    let code = if code == own_code(carrier) { 1 } else { code };
    option(carrier, code, r.once_in(2), &vec![r.octet(); long])
}

/// The joined data of carrier 1: instances after their lengths.
fn joined(r: &mut Random, records: usize, health: Health) -> Vec<u8> {
    let mut data = Vec::new();
    let hurt_at = r.below(records.max(1));
    for i in 0..records {
        let h = if health == Health::Hurt && i == hurt_at { Health::Hurt } else { Health::Good };
        let b = body(r, 1, h);
        let mut long = b.len() as u16;
        if h == Health::Hurt && r.once_in(8) {
            long = long.wrapping_add(r.pick(&[1, 65535, 300]));
        }
        data.extend(long.to_be_bytes());
        data.extend(b);
    }
    if health == Health::Hurt && r.once_in(8) {
        data.push(r.octet());
    }
    data
}

/// An area of at most about `records` blocks (carrier 1: instances), with foreign options between them.
pub fn area(r: &mut Random, carrier: u8, records: usize, health: Health) -> Vec<u8> {
    let mut out = Vec::new();
    if carrier == 1 {
        let data = joined(r, records, health);
        let mut rest = &data[..];
        while !rest.is_empty() || (records == 0 && r.once_in(4)) {
            let most = rest.len().min(255);
            let cut = if r.once_in(3) { r.below(most + 1) } else { most };
            if r.once_in(4) {
                out.extend(foreign(r, carrier));
            }
            out.extend(option(1, 162, false, &rest[..cut]));
            rest = &rest[cut..];
        }
        if r.once_in(3) {
            out.push(255);
            out.extend(vec![r.octet(); r.below(5)]);
        }
    } else {
        for _ in 0..records {
            let h = if r.once_in(2) { health } else { Health::Good };
            let b = body(r, carrier, h);
            if carrier == 3 && b.len() + 2 > 255 * 8 {
                continue;
            }
            out.extend(option(carrier, own_code(carrier), r.once_in(2) && carrier > 3, &b));
            if r.once_in(4) {
                out.extend(foreign(r, carrier));
            }
        }
    }
    out
}

/// Damage to an area as a whole: a changed octet, a cut, octets behind it.
pub fn damage(r: &mut Random, area: &mut Vec<u8>) {
    match r.below(5) {
        0 | 1 if !area.is_empty() => {
            let i = r.below(area.len());
            area[i] = r.octet();
        }
        2 if !area.is_empty() => area.truncate(r.below(area.len())),
        3 => area.extend(vec![r.octet(); 1 + r.below(6)]),
        _ => area.extend([0, 0, 0, 0].iter().take(1 + r.below(4))),
    }
}
