//! The place of a bad name by its definition (RULES N5): the least i such that the first i + 1 octets begin no acceptable name, or the name's length
//! where all of it begins one. Whether octets begin a name is found by trying endings on them and asking of each whole whether it is a name.

/// The form in which a name stands.
#[derive(Clone, Copy, Debug, PartialEq, Eq)]
pub enum Form {
    Wire,
    Text,
}

/// RULES N2: letters, digits and hyphens, and none of these at the ends.
fn is_label(label: &str) -> bool {
    let known = |c: char| c == '-' || c.is_ascii_alphanumeric();
    (1..=63).contains(&label.len()) && label.chars().all(known) && !label.starts_with('-') && !label.ends_with('-')
}

/// RULES N4.
fn is_text(name: &[u8]) -> bool {
    name.len() <= 253 && std::str::from_utf8(name).is_ok_and(|text| text.split('.').all(is_label))
}

/// The wire form of a text, whatever its labels are.
fn wire_of(text: &[u8]) -> Vec<u8> {
    let mut wire = Vec::with_capacity(text.len() + 2);
    for label in text.split(|&octet| octet == b'.') {
        wire.push(label.len() as u8);
        wire.extend(label);
    }
    wire.push(0);
    wire
}

/// A wire form is a name if it is the wire form of a text that is one: the octets where its lengths stand become dots, the last octet goes.
fn is_wire(name: &[u8]) -> bool {
    let mut text = name.to_vec();
    let mut at = 0;
    while at < text.len() {
        at += 1 + usize::from(std::mem::replace(&mut text[at], b'.'));
    }
    name.len() >= 3 && is_text(&text[1..name.len() - 1]) && wire_of(&text[1..name.len() - 1]) == name
}

pub fn is_name(form: Form, name: &[u8]) -> bool {
    match form {
        Form::Wire => is_wire(name),
        Form::Text => is_text(name),
    }
}

/// Whether some name begins with these octets. If one does, then also one with a short ending: nothing; in text a letter; in wire form the rest of a
/// label and the root, or the shortest name.
fn begins_a_name(form: Form, octets: &[u8]) -> bool {
    let with = |ending: &[u8]| is_name(form, &[octets, ending].concat());
    match form {
        Form::Text => with(b"") || with(b"a"),
        Form::Wire => with(b"") || with(b"\x01a\x00") || (0..=63).any(|left| with(&[&[b'a'; 63][..left], &[0]].concat())),
    }
}

/// The place in octets that are no name, as it is defined.
pub fn least_place(form: Form, name: &[u8]) -> usize {
    (0..name.len()).find(|&i| !begins_a_name(form, &name[..=i])).unwrap_or(name.len())
}

/// The same found by halving, for long names: what begins a name, each of its leading parts does too.
pub fn place(form: Form, name: &[u8]) -> usize {
    let lengths: Vec<usize> = (1..=name.len()).collect();
    lengths.partition_point(|&length| begins_a_name(form, &name[..length]))
}
