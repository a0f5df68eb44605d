//! A reference codec for encrypted DNS resolver options: DHCPv4 option 162,
//! DHCPv6 option 144, router advertisement option 144 and the IKEv2
//! attributes 27 and 28 (RFC 9463, RFC 9464, RFC 9460), read into and written
//! from record sheets as docs/RULES.md defines them.
//!
//! A comment such as `RULES B6` names the rule that is followed.

#![forbid(unsafe_code)]

mod addresses;
mod area;
mod block;
mod carrier;
mod fault;
mod judge;
mod names;
mod numbers;
mod octets;
mod params;
mod read;
mod record;
mod sheet;
mod write;

pub use addresses::{is_dropped, kept};
pub use names::{check_text, check_wire, text_to_wire, wire_to_text};
pub use params::params_fault;
pub use read::{read, Reading};
pub use write::{write, Written};

/// Octets of an area or of a sheet taken (RULES L1).
pub const MAX_INPUT: usize = 40_960;
/// Records of a sheet (RULES L2).
pub const MAX_RECORDS: usize = 16;
/// Addresses of a record (RULES L3).
pub const MAX_ADDRESSES: usize = 63;
/// Octets of a record's parameters (RULES L4).
pub const MAX_PARAMS: usize = 1_024;
/// Octets of the largest sheet (RULES L5).
pub const MAX_SHEET: usize = 36_775;
