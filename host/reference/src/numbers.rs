//! The numbers given back (RULES R1 to R44).

/// Reading: the carrier number is not 1 to 5.
pub const NO_CARRIER: u8 = 1;
/// The input is longer than 40,960 octets.
pub const INPUT_TOO_LONG: u8 = 2;
/// Area framing: a header or body past the end, or carrier 3 length 0.
pub const FRAMING: u8 = 3;
/// More than 16 records kept, or a sheet's count above 16.
pub const TOO_MANY_RECORDS: u8 = 4;
/// The output is shorter than the result.
pub const OUTPUT_TOO_SHORT: u8 = 5;

/// Block: a field past its end, an instance past the joined data, none at all.
pub const FIELD: u8 = 20;
/// Carrier 3: padding that is not 0 to 7 zeros.
pub const PADDING: u8 = 29;
/// Priority 0 (AliasMode).
pub const ALIAS: u8 = 21;
/// The name.
pub const NAME: u8 = 22;
/// No addresses, no whole number of them, or name only in carriers 4 and 5.
pub const NO_ADDRESS: u8 = 23;
/// More than 63 addresses as carried, or over 1,024 octets of parameters.
pub const OVER_LIMIT: u8 = 24;
/// Reading: no address is left; writing: one to be dropped is present.
pub const UNUSABLE: u8 = 25;
/// Parameters: tiling, order, key 65535.
pub const PARAMS_SHAPE: u8 = 26;
/// Parameters: key 4 or 6.
pub const PARAMS_HINT: u8 = 27;
/// Parameters: key 0, 1, 2 or 3 is not as RULES P4 to P7 say.
pub const PARAMS_VALUE: u8 = 28;

/// The sheet is shorter than 7 octets, or does not begin with RSV.
pub const NO_SHEET: u8 = 40;
/// The sheet's version is not 1.
pub const SHEET_VERSION: u8 = 41;
/// The sheet's carrier is not 1 to 5.
pub const SHEET_CARRIER: u8 = 42;
/// The sheet does not tile, or has a bad mode, order or lifetime.
pub const SHEET_SHAPE: u8 = 43;
/// A carrier 3 record above 2,040 octets when rounded.
pub const OPTION_TOO_LARGE: u8 = 44;
