//! `ref_read` and `ref_write`: the reference implementation under the signatures of include/dnr.h.
//!
//! A panic of the reference ends the process, so that a fuzzer sees it.

use std::slice;

// The structs alone: this library is linked beside libdnr.a, which the crate dnr would bring a second time.
#[allow(dead_code)]
#[path = "../../dnr/src/raw.rs"]
mod raw;

/// # Safety
/// `octets` is valid for `length` octets, or `length` is 0.
unsafe fn lent<'a>(octets: *const u8, length: usize) -> &'a [u8] {
    if length == 0 { &[] } else { slice::from_raw_parts(octets, length) }
}

/// # Safety
/// `octets` is valid for `length` octets and nothing else refers to them, or `length` is 0.
unsafe fn lent_mut<'a>(octets: *mut u8, length: usize) -> &'a mut [u8] {
    if length == 0 { &mut [] } else { slice::from_raw_parts_mut(octets, length) }
}

/// As `dnr_read`.
///
/// # Safety
/// Each pointer is valid for the length beside it, or that length is 0, and the two parts do not overlap.
#[no_mangle]
pub unsafe extern "C" fn ref_read(carrier: usize, area: *const u8, area_len: usize, sheet: *mut u8, sheet_len: usize) -> raw::Reading {
    // The reference takes an octet; a number that is none is no carrier, as 0 is.
    let octet = u8::try_from(carrier).unwrap_or(0);
    let reading = dnr_reference::read(octet, lent(area, area_len), lent_mut(sheet, sheet_len));
    raw::Reading {
        number: reading.number,
        length: reading.length,
        found: reading.found,
        discarded: reading.discarded,
        fault: reading.fault,
        place: reading.place,
    }
}

/// As `dnr_write`.
///
/// # Safety
/// Each pointer is valid for the length beside it, or that length is 0, and the two parts do not overlap.
#[no_mangle]
pub unsafe extern "C" fn ref_write(sheet: *const u8, sheet_len: usize, octets: *mut u8, octets_len: usize) -> raw::Result {
    let written = dnr_reference::write(lent(sheet, sheet_len), lent_mut(octets, octets_len));
    raw::Result {
        number: written.number,
        length: written.length,
        place: written.place,
    }
}
