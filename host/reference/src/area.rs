//! The area walk (RULES W1 to W8).

use crate::carrier::{Carrier, Eights};
use crate::numbers::FRAMING;
use crate::octets::{take, take_u16, take_u8};
use std::borrow::Cow;

/// DHCPv4: one octet of padding, no length (RFC 2132 §3.1).
const PAD: u8 = 0;
/// DHCPv4: ends the area, no length (RFC 2132 §3.2).
const END: u8 = 255;

/// The data of the carrier's own options or attributes, in area order; others
/// are skipped. Where a header or body runs past the end, or a carrier 3
/// length is 0, the error 3 ends the walk.
pub struct OwnOptions<'a> {
    carrier: Carrier,
    rest: &'a [u8],
}

pub fn own_options(carrier: Carrier, area: &[u8]) -> OwnOptions<'_> {
    OwnOptions {
        carrier,
        rest: area,
    }
}

impl<'a> Iterator for OwnOptions<'a> {
    type Item = Result<&'a [u8], u8>;

    fn next(&mut self) -> Option<Self::Item> {
        loop {
            if self.carrier == Carrier::Dhcp4 {
                while let [PAD, rest @ ..] = self.rest {
                    self.rest = rest;
                }
                // What follows is ignored, framed or not (RULES W3).
                if let [END, ..] = self.rest {
                    self.rest = &[];
                }
            }
            if self.rest.is_empty() {
                return None;
            }
            match take_option(self.carrier, &mut self.rest) {
                Some((code, data)) if code == self.carrier.code() => return Some(Ok(data)),
                Some(_) => {}
                None => {
                    self.rest = &[];
                    return Some(Err(FRAMING));
                }
            }
        }
    }
}

/// Code and data of the first option or attribute; none where it is not whole.
fn take_option<'a>(carrier: Carrier, rest: &mut &'a [u8]) -> Option<(u16, &'a [u8])> {
    let (code, length) = match carrier {
        Carrier::Dhcp4 => (u16::from(take_u8(rest)?), usize::from(take_u8(rest)?)),
        Carrier::Dhcp6 => (take_u16(rest)?, usize::from(take_u16(rest)?)),
        // RFC 4861 §4.6: the length counts the two octets before, so a
        // length of 0 is none, for every type (RULES W6).
        Carrier::Router => (
            u16::from(take_u8(rest)?),
            Eights(usize::from(take_u8(rest)?))
                .in_octets()
                .checked_sub(2)?,
        ),
        // RFC 7296 §3.15.1: the reserved bit is ignored.
        Carrier::Ike4 | Carrier::Ike6 => (take_u16(rest)? & 0x7fff, usize::from(take_u16(rest)?)),
    };
    Some((code, take(rest, length)?))
}

/// Carrier 1: the data of all options 162 joined in order (RFC 3396), none if
/// there is no such option. They are copied only where there are two or more.
pub fn joined(area: &[u8]) -> Result<Option<Cow<'_, [u8]>>, u8> {
    let mut options = own_options(Carrier::Dhcp4, area);
    let Some(first) = options.next().transpose()? else {
        return Ok(None);
    };
    let Some(second) = options.next().transpose()? else {
        return Ok(Some(Cow::Borrowed(first)));
    };
    let mut all = Vec::with_capacity(area.len());
    all.extend_from_slice(first);
    all.extend_from_slice(second);
    for data in options {
        all.extend_from_slice(data?);
    }
    Ok(Some(Cow::Owned(all)))
}
