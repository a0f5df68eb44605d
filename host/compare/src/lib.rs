//! The proved library's calls for Rust, and the generator of input on which it is compared with the reference.

pub mod generate;
pub mod parameters;
pub mod places;
pub mod random;
pub mod sheets;

use dnr::raw;
pub use dnr_reference::{Reading, Written};

/// An implementation: what it is called, and its two calls.
pub type Side = (&'static str, fn(u8, &[u8], &mut [u8]) -> Reading, fn(&[u8], &mut [u8]) -> Written);

pub const SIDES: [Side; 2] = [
    ("library", |carrier, area, sheet| read(usize::from(carrier), area, sheet), write),
    ("reference", dnr_reference::read, dnr_reference::write),
];

/// The pointers of both buffers; an empty one is handed over as a null pointer, which the interface allows.
fn pointers(from: &[u8], to: &mut [u8]) -> (*const u8, *mut u8) {
    let source = if from.is_empty() { std::ptr::null() } else { from.as_ptr() };
    let target = if to.is_empty() { std::ptr::null_mut() } else { to.as_mut_ptr() };
    (source, target)
}

/// `dnr_read` of the proved library, with its result as the call left it.
#[inline(always)]
pub fn read_raw(carrier: usize, area: &[u8], sheet: &mut [u8]) -> raw::Reading {
    let (from, to) = pointers(area, sheet);
    // SAFETY: both pointers are valid for their lengths and the slices do not overlap; the library keeps neither.
    unsafe { raw::dnr_read(carrier, from, area.len(), to, sheet.len()) }
}

/// `dnr_read`, its numbers as the reference has them.
pub fn read(carrier: usize, area: &[u8], sheet: &mut [u8]) -> Reading {
    let raw = read_raw(carrier, area, sheet);
    Reading {
        number: raw.number,
        length: raw.length,
        found: raw.found,
        discarded: raw.discarded,
        fault: raw.fault,
        place: raw.place,
    }
}

/// `dnr_write` of the proved library, with its result as the call left it.
#[inline(always)]
pub fn write_raw(sheet: &[u8], octets: &mut [u8]) -> raw::Result {
    let (from, to) = pointers(sheet, octets);
    // SAFETY: as above.
    unsafe { raw::dnr_write(from, sheet.len(), to, octets.len()) }
}

/// `dnr_write`, its numbers as the reference has them.
pub fn write(sheet: &[u8], octets: &mut [u8]) -> Written {
    let raw = write_raw(sheet, octets);
    Written { number: raw.number, length: raw.length, place: raw.place }
}
