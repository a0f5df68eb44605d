//! Names (RULES N1 to N5).
//!
//! Wire form: RFC 1035 labels of 1 to 63 octets, each behind its length octet,
//! no compression, one final root octet, 3 to 255 octets in all. Text form,
//! carriers 4 and 5: the same labels joined by dots, no final dot, 1 to 253
//! octets. House rule: only letters, digits and hyphen, and a label begins and
//! ends with a letter or a digit. Case is kept.

/// RFC 1035 §2.3.4: octets of a label.
const MAX_LABEL: usize = 63;
/// RFC 1035 §2.3.4: octets of a name in wire form.
const MAX_WIRE: usize = 255;
/// Octets of a name as text; the wire form has two more (RULES N4).
const MAX_TEXT: usize = 253;

/// A name as it stands: text in blocks of carriers 4 and 5, else wire form.
#[derive(Clone, Copy)]
pub enum Name<'a> {
    Wire(&'a [u8]),
    Text(&'a [u8]),
}

impl Name<'_> {
    /// The error is the place in the name as it stands (RULES N5).
    pub fn check(self) -> Result<(), usize> {
        match self {
            Name::Wire(name) => check_wire(name),
            Name::Text(text) => check_text(text),
        }
    }

    /// Octets of the wire form, for an acceptable name.
    pub fn wire_length(self) -> usize {
        match self {
            Name::Wire(name) => name.len(),
            Name::Text(text) => text.len() + 2,
        }
    }

    /// Fills `out`, of `wire_length` octets, with the wire form.
    pub fn put_wire(self, out: &mut [u8]) {
        match self {
            Name::Wire(name) => out.copy_from_slice(name),
            Name::Text(text) => put_wire_of(text, out),
        }
    }
}

/// Checks a name in wire form. The error is the place, from 0, of the first
/// octet at which no acceptable name can continue, or the name's length if it
/// is only cut short (RULES N5).
pub fn check_wire(name: &[u8]) -> Result<(), usize> {
    // Where the next length octet stands.
    let mut place = 0;
    loop {
        let Some(&octet) = name.get(place) else {
            return Err(name.len());
        };
        let length = usize::from(octet);
        if length == 0 {
            // The root: after at least one label, and the last octet of all.
            return match (place, name.len()) {
                (0, _) => Err(0),
                (_, all) if all == place + 1 => Ok(()),
                _ => Err(place + 1),
            };
        }
        // Pointers and reserved label types (RFC 1035 §4.1.4) are no
        // lengths of 1 to 63. Behind the label there must be a place for the
        // root within 255 octets, else the length octet itself is at fault.
        let next = place + 1 + length;
        if length > MAX_LABEL || next >= MAX_WIRE {
            return Err(place);
        }
        let present = &name[place + 1..name.len().min(next)];
        if let Some(bad) = bad_in_label(present, length) {
            return Err(place + 1 + bad);
        }
        place = next;
    }
}

/// The first wrong octet among those present of a label of `length` octets.
/// The length octet tells where the label ends, so a hyphen at its end is
/// itself wrong (RULES N5).
fn bad_in_label(present: &[u8], length: usize) -> Option<usize> {
    if present.first() == Some(&b'-') {
        return Some(0);
    }
    let strange = |octet: &u8| !octet.is_ascii_alphanumeric() && *octet != b'-';
    let last = length - 1;
    let ends_badly = present.get(last) == Some(&b'-');
    present
        .iter()
        .position(strange)
        .or(ends_badly.then_some(last))
}

/// Checks a name in text form; the error is as for `check_wire`. Nothing tells
/// where a label ends, so a hyphen is wrong only where no letter or digit of
/// the same label can come behind it (RULES N5).
pub fn check_text(text: &[u8]) -> Result<(), usize> {
    // Octets of the current label so far, and whether it may end here.
    let mut length = 0;
    let mut may_end = false;
    for (place, octet) in text.iter().enumerate() {
        // Whether one octet more fits behind this one, in the name.
        let more_fit = place + 1 < MAX_TEXT;
        match octet {
            _ if place == MAX_TEXT => return Err(place),
            b'.' if may_end && more_fit => {
                length = 0;
                may_end = false;
            }
            b'-' if length > 0 && length + 1 < MAX_LABEL && more_fit => {
                length += 1;
                may_end = false;
            }
            _ if octet.is_ascii_alphanumeric() && length < MAX_LABEL => {
                length += 1;
                may_end = true;
            }
            _ => return Err(place),
        }
    }
    if may_end {
        Ok(())
    } else {
        Err(text.len())
    }
}

/// The wire form of an acceptable name in text form.
pub fn text_to_wire(text: &[u8]) -> Vec<u8> {
    let mut wire = vec![0; text.len() + 2];
    put_wire_of(text, &mut wire);
    wire
}

/// Each dot becomes the length octet of the label behind it, with one such
/// octet more in front and the root at the end.
fn put_wire_of(text: &[u8], out: &mut [u8]) {
    let mut place = 0;
    for label in text.split(|octet| *octet == b'.') {
        out[place] = label.len() as u8;
        out[place + 1..place + 1 + label.len()].copy_from_slice(label);
        place += 1 + label.len();
    }
    out[place] = 0;
}

/// The text form of an acceptable name in wire form.
pub fn wire_to_text(wire: &[u8]) -> Vec<u8> {
    let mut text = vec![0; wire.len().saturating_sub(2)];
    if wire.len() > 2 {
        put_text_of(wire, &mut text);
    }
    text
}

/// Fills `out`, two octets shorter than `wire`, with the text of an acceptable
/// name: the first length octet and the root go, each other length octet
/// becomes a dot.
pub fn put_text_of(wire: &[u8], out: &mut [u8]) {
    out.copy_from_slice(&wire[1..wire.len() - 1]);
    let mut dot = usize::from(wire[0]);
    while dot < out.len() {
        let length = usize::from(out[dot]);
        out[dot] = b'.';
        dot += 1 + length;
    }
}
