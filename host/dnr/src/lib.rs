//! Encrypted DNS resolvers learned from the network (RFC 9463, RFC 9464): safe calls for libdnr, whose code is proved.
//!
//! [`read`] takes an area, which is the options field of a DHCP message or router advertisement or a run of IKEv2 configuration
//! attributes, and writes a record sheet; [`write()`] takes a sheet and writes the options or attributes that carry it; [`records`] shows
//! what a sheet holds; [`words`] says what a number that the calls give back means. The calls take any octets and any buffer, keep no state
//! and never panic. [`read_to_vec`], [`write_to_vec`] and what says words allocate their output; nothing else allocates.
//!
//! ```
//! # fn main() -> Result<(), dnr::Refusal> {
//! use dnr::{read_to_vec, records, Carrier};
//!
//! // A DHCPv6 option 144: priority 1, doh1.example.com, one address, alpn "dot".
//! let area = b"\x00\x90\x00\x30\x00\x01\x00\x12\x04doh1\x07example\x03com\x00\
//!     \x00\x10\x20\x01\x0d\xb8\x01\x22\x03\x00\x00\x00\x00\x00\x00\x00\x00\x01\x00\x01\x00\x04\x03dot";
//! let (sheet, reading) = read_to_vec(Carrier::Dhcp6, area)?;
//! assert_eq!((reading.found, reading.discarded), (1, 0));
//! for record in records(&sheet) {
//!     assert_eq!(record.name().to_string(), "doh1.example.com");
//!     assert_eq!(record.addresses().next().unwrap().to_string(), "2001:db8:122:300::1");
//!     assert_eq!(record.parameters().next(), Some((1, &b"\x03dot"[..])));
//! }
//! # Ok(())
//! # }
//! ```
//!
//! The library is linked statically, from the folder that the environment variable `DNR_LIB_DIR` names when this crate is built, else
//! from `target/staticlib` of the repository. Reading takes some 43 KiB of stack, which matters to a thread with a small one.

#![deny(missing_docs)]

mod carrier;
mod numbers;
pub mod raw;
mod records;

pub use carrier::{Carrier, UnknownCarrier};
pub use numbers::{Fault, Refusal};
pub use records::{records, Name, Record, Records};

/// The most octets of input that either call takes; more are refused with [`Refusal::INPUT`].
pub const MAX_INPUT: usize = 40_960;
/// The most records of a sheet.
pub const MAX_RECORDS: usize = 16;
/// The most octets of a sheet: a buffer of this length is never too short for [`read`].
pub const MAX_SHEET: usize = 36_775;
/// A buffer of this length is never too short for [`write()`], whose octets can always be read back.
pub const MAX_OCTETS: usize = 40_960;
/// The octets of room with which the library never cuts the words of a number, one for the closing 0 among them.
pub const MAX_WORDS: usize = 160;

/// What a reading that is done tells beside the sheet.
#[derive(Clone, Copy, Debug, PartialEq, Eq)]
pub struct Reading {
    /// Octets of the sheet that were written; past them the buffer is unchanged.
    pub length: usize,
    /// Blocks of the carrier in the area: options or attributes, in DHCPv4 all options 162 together.
    pub found: usize,
    /// Those of them that were discarded for a fault.
    pub discarded: usize,
    /// The fault of the first block that was discarded.
    pub first_fault: Option<Fault>,
    /// Where the name of that block is wrong; there exactly if its fault is [`Fault::NAME`].
    ///
    /// It is the first octet at which no host name can continue; where the name is only cut short it is the index after its last octet,
    /// which may be the length of the block: compare before looking at the octet there. It counts from 0 at the first octet of the block,
    /// which is that of the option's or attribute's header: the name begins at 8 in DHCPv6, at 10 in a router advertisement, and in IKEv2
    /// at 8 plus the octets of all addresses, where the octet is one of the name's text.
    ///
    /// In DHCPv4 the block is the data of all options 162 joined, and it counts from their first octet. The two octets of code and length
    /// before each option's data are not counted, the 16-bit length of each instance is: an instance that starts with its length at s has
    /// its name at s + 5.
    pub first_place: Option<usize>,
}

/// Reads an area of the carrier and writes the record sheet of its resolvers, by rising priority, to the front of `sheet`.
///
/// Options of other codes are skipped. A block with a fault is discarded and the reading goes on. A refusal, of 2 to 5, changes
/// nothing. [`MAX_SHEET`] octets have room for every sheet.
///
/// ```
/// # fn main() -> Result<(), dnr::Refusal> {
/// // A DHCPv6 option 144 with the name "a_b" in wire form: header 4, priority 2, length of the name 2, then the name.
/// let area = b"\x00\x90\x00\x09\x00\x01\x00\x05\x03a_b\x00";
/// let reading = dnr::read(dnr::Carrier::Dhcp6, area, &mut [0; 7])?;
/// assert_eq!((reading.first_fault, reading.first_place), (Some(dnr::Fault::NAME), Some(10)));
/// assert_eq!(area[10], b'_');
/// # Ok(())
/// # }
/// ```
pub fn read(carrier: Carrier, area: &[u8], sheet: &mut [u8]) -> Result<Reading, Refusal> {
    // SAFETY: each pointer is valid for the length beside it, the slices do not overlap, and the library keeps neither.
    let raw = unsafe { raw::dnr_read(usize::from(carrier.number()), area.as_ptr(), area.len(), sheet.as_mut_ptr(), sheet.len()) };
    if raw.number != 0 {
        return Err(Refusal::of(raw.number, raw.place));
    }
    let first_fault = Fault::of(raw.fault);
    Ok(Reading {
        length: raw.length,
        found: raw.found,
        discarded: raw.discarded,
        first_fault,
        first_place: (first_fault == Some(Fault::NAME)).then_some(raw.place),
    })
}

/// Writes the options or attributes of a record sheet to the front of `octets`, in the sheet's order, and gives back how many octets
/// they are.
///
/// The sheet is tested first; a refusal changes nothing. [`Refusal::place`] tells where a name is wrong. [`MAX_OCTETS`] octets have room
/// for what any sheet says.
///
/// ```
/// # fn main() -> Result<(), dnr::Refusal> {
/// let mut octets = [0; 100];
/// let length = dnr::write(b"RSV\x00\x01\x01\x01\x00\x01\x00\x00\x00\x00\x00\x05\x03doh\x00", &mut octets)?;
/// assert_eq!(octets[..length], *b"\xa2\x0a\x00\x08\x00\x01\x05\x03doh\x00");
/// # Ok(())
/// # }
/// ```
pub fn write(sheet: &[u8], octets: &mut [u8]) -> Result<usize, Refusal> {
    // SAFETY: each pointer is valid for the length beside it, the slices do not overlap, and the library keeps neither.
    let raw = unsafe { raw::dnr_write(sheet.as_ptr(), sheet.len(), octets.as_mut_ptr(), octets.len()) };
    if raw.number != 0 {
        return Err(Refusal::of(raw.number, raw.place));
    }
    Ok(raw.length)
}

/// As [`read`], with the sheet in a vector of exactly its length.
pub fn read_to_vec(carrier: Carrier, area: &[u8]) -> Result<(Vec<u8>, Reading), Refusal> {
    let mut sheet = vec![0; MAX_SHEET];
    let reading = read(carrier, area, &mut sheet)?;
    Ok((cut(sheet, reading.length), reading))
}

/// As [`write()`], with the octets in a vector of exactly their length.
pub fn write_to_vec(sheet: &[u8]) -> Result<Vec<u8>, Refusal> {
    let mut octets = vec![0; MAX_OCTETS];
    let length = write(sheet, &mut octets)?;
    Ok(cut(octets, length))
}

/// The first `length` octets, in an allocation of their length.
fn cut(mut octets: Vec<u8>, length: usize) -> Vec<u8> {
    octets.truncate(length);
    octets.shrink_to_fit();
    octets
}

/// What a number that a call gives back means, in the library's words: 0, or the number of a [`Refusal`] or a [`Fault`]; any other is an
/// unknown number.
///
/// ```
/// assert_eq!(dnr::words(4), "more than 16 records");
/// assert_eq!(dnr::words(1000), "unknown number");
/// ```
pub fn words(number: usize) -> String {
    let mut text = [0; MAX_WORDS];
    // SAFETY: the pointer is valid for the length beside it, and the library does not keep it.
    let length = unsafe { raw::dnr_words(number, text.as_mut_ptr().cast(), text.len()) };
    text[..length].iter().map(|octet: &u8| char::from(*octet)).collect()
}
