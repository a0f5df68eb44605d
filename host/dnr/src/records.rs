//! A view of the records in a sheet (RULES S1 to S5). It judges nothing that the library judges; it only stops where
//! the octets do not fit.

use crate::Carrier;
use std::fmt;
use std::net::IpAddr;

/// The records of a sheet, by rising priority.
///
/// This is for sheets that [`read`](crate::read) gave, or that [`write`](crate::write()) accepted. Other octets do no harm: the
/// iterator ends at the first record that does not fit, and before the first one if the header is not that of a sheet.
///
/// ```
/// # fn main() -> Result<(), dnr::Refusal> {
/// use dnr::{read_to_vec, records, Carrier};
///
/// // Name only, priority 1.
/// let area = b"\xa2\x17\x00\x15\x00\x01\x12\x04doh1\x07example\x03com\x00";
/// let (sheet, _) = read_to_vec(Carrier::Dhcp4, area)?;
/// let record = records(&sheet).next().unwrap();
/// assert_eq!(record.priority(), 1);
/// assert_eq!(record.name().to_string(), "doh1.example.com");
/// assert!(record.is_name_only());
/// # Ok(())
/// # }
/// ```
pub fn records(sheet: &[u8]) -> Records<'_> {
    let mut rest = sheet;
    Records {
        head: head(&mut rest),
        rest,
    }
}

/// The records of a sheet; see [`records`].
#[derive(Clone, Debug)]
pub struct Records<'a> {
    /// The carrier, and how many records are still to come; none once something did not fit.
    head: Option<(Carrier, u8)>,
    rest: &'a [u8],
}

impl<'a> Records<'a> {
    /// The sheet's carrier, as long as everything fitted.
    pub fn carrier(&self) -> Option<Carrier> {
        self.head.map(|(carrier, _)| carrier)
    }
}

impl<'a> Iterator for Records<'a> {
    type Item = Record<'a>;

    fn next(&mut self) -> Option<Record<'a>> {
        let (carrier, left) = self.head?;
        let fewer = left.checked_sub(1)?;
        let record = take_record(carrier, &mut self.rest);
        self.head = record.map(|_| (carrier, fewer));
        record
    }
}

impl std::iter::FusedIterator for Records<'_> {}

/// One resolver.
#[derive(Clone, Copy, Debug, PartialEq, Eq)]
pub struct Record<'a> {
    priority: u16,
    lifetime: u32,
    name: Name<'a>,
    name_only: bool,
    width: usize,
    addresses: &'a [u8],
    parameters: &'a [u8],
}

impl<'a> Record<'a> {
    /// The service priority; the smallest number is preferred.
    pub fn priority(&self) -> u16 {
        self.priority
    }

    /// Seconds for which the resolver may be used, of a router advertisement: `u32::MAX` is for ever, and with zero it must no longer be
    /// used (RFC 9463 §6.1). Zero in all other carriers, where it says nothing.
    pub fn lifetime(&self) -> u32 {
        self.lifetime
    }

    /// The authentication domain name.
    pub fn name(&self) -> Name<'a> {
        self.name
    }

    /// Whether the option had a name and nothing else. There are no addresses and no parameters then.
    pub fn is_name_only(&self) -> bool {
        self.name_only
    }

    /// The addresses, in their order.
    pub fn addresses(&self) -> impl ExactSizeIterator<Item = IpAddr> + Clone + 'a {
        self.addresses.chunks_exact(self.width).map(address)
    }

    /// The service parameters as key and value, by rising key (RFC 9460 §2.2).
    pub fn parameters(&self) -> impl Iterator<Item = (u16, &'a [u8])> + Clone + 'a {
        let mut rest = self.parameters;
        std::iter::from_fn(move || take_parameter(&mut rest))
    }
}

/// A name, held in DNS wire form and displayed as labels joined by dots, without a final dot.
#[derive(Clone, Copy, Debug, PartialEq, Eq, Hash)]
pub struct Name<'a>(&'a [u8]);

impl<'a> Name<'a> {
    /// The labels from left to right: letters, digits and hyphens. The root is not among them.
    pub fn labels(self) -> impl Iterator<Item = &'a str> + Clone + 'a {
        let mut rest = self.0;
        std::iter::from_fn(move || take_label(&mut rest))
    }

    /// The wire form: each label behind its length, and the root octet.
    pub fn wire(self) -> &'a [u8] {
        self.0
    }
}

impl fmt::Display for Name<'_> {
    fn fmt(&self, f: &mut fmt::Formatter) -> fmt::Result {
        for (place, label) in self.labels().enumerate() {
            let dot = if place == 0 { "" } else { "." };
            write!(f, "{dot}{label}")?;
        }
        Ok(())
    }
}

/// Takes `count` octets off the front; none where fewer are left.
fn take<'a>(rest: &mut &'a [u8], count: usize) -> Option<&'a [u8]> {
    let taken = rest.get(..count)?;
    *rest = &rest[count..];
    Some(taken)
}

fn take_array<const N: usize>(rest: &mut &[u8]) -> Option<[u8; N]> {
    take(rest, N)?.try_into().ok()
}

fn take_u8(rest: &mut &[u8]) -> Option<usize> {
    take_array::<1>(rest).map(|[octet]| usize::from(octet))
}

fn take_u16(rest: &mut &[u8]) -> Option<u16> {
    take_array(rest).map(u16::from_be_bytes)
}

/// The carrier and the record count of the header: RSV, version 1, carrier, count.
fn head(rest: &mut &[u8]) -> Option<(Carrier, u8)> {
    let [b'R', b'S', b'V', 0, 1, carrier, count] = take_array(rest)? else {
        return None;
    };
    Some((Carrier::try_from(carrier).ok()?, count))
}

fn take_record<'a>(carrier: Carrier, rest: &mut &'a [u8]) -> Option<Record<'a>> {
    let priority = take_u16(rest)?;
    let lifetime = take_array(rest).map(u32::from_be_bytes)?;
    let mode = take_u8(rest)?;
    let name_length = take_u8(rest)?;
    let name = take(rest, name_length).filter(|name| is_name(name))?;
    let (addresses, parameters) = match mode {
        0 => (&[][..], &[][..]),
        1 => take_full(carrier, rest)?,
        _ => return None,
    };
    Some(Record {
        priority,
        lifetime,
        name: Name(name),
        name_only: mode == 0,
        width: carrier.width(),
        addresses,
        parameters,
    })
}

/// Addresses and parameters.
fn take_full<'a>(carrier: Carrier, rest: &mut &'a [u8]) -> Option<(&'a [u8], &'a [u8])> {
    let address_count = take_u8(rest)?;
    let addresses = take(rest, address_count * carrier.width())?;
    let parameters_length = take_u16(rest)?;
    let parameters = take(rest, usize::from(parameters_length))?;
    let mut left = parameters;
    while take_parameter(&mut left).is_some() {}
    left.is_empty().then_some((addresses, parameters))
}

/// A parameter; where none fits, `rest` is unchanged.
fn take_parameter<'a>(rest: &mut &'a [u8]) -> Option<(u16, &'a [u8])> {
    let mut after = *rest;
    let key = take_u16(&mut after)?;
    let length = take_u16(&mut after)?;
    let value = take(&mut after, usize::from(length))?;
    *rest = after;
    Some((key, value))
}

/// A label of letters, digits and hyphens; none at the root, and where none fits, with `rest` unchanged.
fn take_label<'a>(rest: &mut &'a [u8]) -> Option<&'a str> {
    let mut after = *rest;
    let length = take_u8(&mut after).filter(|length| (1..=63).contains(length))?;
    let label = std::str::from_utf8(take(&mut after, length)?).ok()?;
    let fits = label.bytes().all(|octet| octet.is_ascii_alphanumeric() || octet == b'-');
    *rest = after;
    fits.then_some(label)
}

/// Whether labels and the root fill `name`.
fn is_name(name: &[u8]) -> bool {
    let mut rest = name;
    while take_label(&mut rest).is_some() {}
    rest == [0] && name.len() > 1
}

/// The address of 4 or 16 octets.
fn address(octets: &[u8]) -> IpAddr {
    if let Ok(octets) = <[u8; 4]>::try_from(octets) {
        return octets.into();
    }
    let mut wide = [0; 16];
    wide.copy_from_slice(octets);
    wide.into()
}
