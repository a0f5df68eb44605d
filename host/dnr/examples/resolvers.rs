//! Prints the encrypted DNS resolvers that an area carries.
//!
//!     resolvers [CARRIER FILE]
//!
//! CARRIER is dhcp4, dhcp6, ra, ike4 or ike6, or its number from 1 to 5; FILE holds the area's octets as hexadecimal digits, with blanks
//! and line breaks where one likes. Without arguments the area is the DHCPv6 option of `BUILTIN`. The exit status is 0 if the area was
//! read, 1 if it was refused, and 2 if there was nothing to read. examples/resolvers.c is the same program in C.

use dnr::{read_to_vec, records, Carrier, Record, UnknownCarrier};
use std::env;
use std::fs;
use std::process::ExitCode;

const ALPN: u16 = 1;
const PORT: u16 = 3;

/// DHCPv6 option 144: priority 1, doh1.example.com, 2001:db8:122:300::1, alpn "dot".
const BUILTIN: &[u8] = b"\x00\x90\x00\x30\x00\x01\x00\x12\x04doh1\x07example\x03com\x00\
    \x00\x10\x20\x01\x0d\xb8\x01\x22\x03\x00\x00\x00\x00\x00\x00\x00\x00\x01\x00\x01\x00\x04\x03dot";

/// ALPN ids may hold any octet; comma, backslash and all that is not visible ASCII are written as \DDD (RFC 9460 §A.1).
fn alpn(value: &[u8]) -> String {
    let mut text = String::new();
    let mut rest = value;
    while let [length, after @ ..] = rest {
        let (id, others) = after.split_at(usize::from(*length).min(after.len()));
        for octet in id {
            match octet {
                0x21..=0x7e if !b",\\".contains(octet) => text.push(char::from(*octet)),
                _ => text += &format!("\\{octet:03}"),
            }
        }
        if !others.is_empty() {
            text.push(',');
        }
        rest = others;
    }
    text
}

fn print_record(carrier: Carrier, record: &Record) {
    println!("{}", record.name());
    println!("  priority {}", record.priority());
    if carrier == Carrier::Ra {
        println!("  lifetime {}", record.lifetime());
    }
    if record.is_name_only() {
        println!("  name only");
    }
    for address in record.addresses() {
        println!("  address {address}");
    }
    for parameter in record.parameters() {
        match parameter {
            (ALPN, value) => println!("  alpn {}", alpn(value)),
            (PORT, &[high, low]) => println!("  port {}", u16::from_be_bytes([high, low])),
            (key, value) => println!("  key{key} {} octets", value.len()),
        }
    }
}

fn print_resolvers(carrier: Carrier, area: &[u8]) -> ExitCode {
    let (sheet, reading) = match read_to_vec(carrier, area) {
        Ok(read) => read,
        Err(refusal) => {
            println!("{carrier}: {refusal}");
            return ExitCode::from(1);
        }
    };
    let first = match (reading.first_fault, reading.first_place) {
        (Some(fault), Some(place)) => format!(", first fault {} at octet {place} of its block: {}", fault.number(), fault.words()),
        (Some(fault), None) => format!(", first {fault}"),
        _ => String::new(),
    };
    println!("{carrier}: {} found, {} discarded{first}", reading.found, reading.discarded);
    for record in records(&sheet) {
        print_record(carrier, &record);
    }
    ExitCode::SUCCESS
}

/// The octets of a text of hexadecimal digits in pairs.
fn octets_of(text: &str) -> Option<Vec<u8>> {
    let digits = text.chars().filter(|c| !c.is_ascii_whitespace()).map(|c| c.to_digit(16)).collect::<Option<Vec<u32>>>()?;
    let pairs = digits.chunks_exact(2);
    pairs.remainder().is_empty().then(|| pairs.map(|pair| (pair[0] << 4 | pair[1]) as u8).collect())
}

/// The carrier and the area that the arguments name.
fn asked(arguments: &[String]) -> Result<(Carrier, Vec<u8>), String> {
    match arguments {
        [] => Ok((Carrier::Dhcp6, BUILTIN.to_vec())),
        [carrier, file] => {
            let carrier = carrier.parse().map_err(|unknown: UnknownCarrier| unknown.to_string())?;
            let text = fs::read_to_string(file).map_err(|error| format!("{file}: {error}"))?;
            let area = octets_of(&text).ok_or_else(|| format!("{file}: not pairs of hexadecimal digits"))?;
            Ok((carrier, area))
        }
        _ => Err("usage: resolvers [dhcp4|dhcp6|ra|ike4|ike6 FILE]".into()),
    }
}

fn main() -> ExitCode {
    let arguments: Vec<String> = env::args().skip(1).collect();
    match asked(&arguments) {
        Ok((carrier, area)) => print_resolvers(carrier, &area),
        Err(error) => {
            eprintln!("{error}");
            ExitCode::from(2)
        }
    }
}
