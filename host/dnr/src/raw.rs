//! The C interface as include/dnr.h declares it: the one place where Rust has its structs and its functions.
//!
//! A pointer is valid for the length beside it, or that length is 0; the library keeps none. The safe calls of this crate are made of these.

use std::os::raw::c_char;

/// `dnr_reading`.
#[repr(C)]
#[derive(Clone, Copy, Debug, PartialEq, Eq)]
pub struct Reading {
    /// 0, or the number of a refusal, and then the others are 0.
    pub number: usize,
    /// Octets written.
    pub length: usize,
    /// Blocks in the area.
    pub found: usize,
    /// Those of them that were discarded.
    pub discarded: usize,
    /// The fault of the first that was discarded, or 0.
    pub fault: usize,
    /// For fault 22 the octet of that block at which its name is wrong, else 0.
    pub place: usize,
}

/// `dnr_result`.
#[repr(C)]
#[derive(Clone, Copy, Debug, PartialEq, Eq)]
pub struct Result {
    /// 0, or the number of a refusal, and then the others are 0 but for the place of 22.
    pub number: usize,
    /// Octets written.
    pub length: usize,
    /// For refusal 22 the octet of the sheet at which a name is wrong, else 0.
    pub place: usize,
}

extern "C" {
    /// Reads an area under a carrier number and writes its record sheet.
    pub fn dnr_read(carrier: usize, area: *const u8, area_len: usize, sheet: *mut u8, sheet_len: usize) -> Reading;
    /// Writes the octets of a record sheet.
    pub fn dnr_write(sheet: *const u8, sheet_len: usize, octets: *mut u8, octets_len: usize) -> Result;
    /// Writes the words of a number as a C string, as far as there is room, and gives back how many octets stand before its closing 0.
    pub fn dnr_words(number: usize, text: *mut c_char, text_len: usize) -> usize;
}
