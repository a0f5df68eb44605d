//! RULES D3: octets as they are written, cut after any number of octets. A cut
//! at an option's end gives exactly the records before it, any other cut gives
//! refusal 3, whatever the room. In carrier 1, which the demand leaves out, K2
//! is cut within its one option.

use super::layout::{address, area, sheet, Resolver, A, N, P};
use super::pieces::k2;
use super::table::{Done, Table, ROOM};

/// Records of each carrier to which the demand applies.
fn records(carrier: u8) -> Vec<Resolver> {
    let short = |letter: u8| [&[1, letter][..], b"\x07example\0"].concat();
    match carrier {
        // K12 in the order of its sheet.
        2 => vec![
            Resolver::named(1, &short(b'b')),
            Resolver::named(5, &short(b'a')),
            Resolver::named(5, &short(b'c')),
        ],
        // K3 and K4.
        3 => vec![
            Resolver::named(1, N).living(3_600),
            Resolver::full(1, N, A, P).living(3_600),
        ],
        _ => vec![
            Resolver::full(1, N, &address(carrier, 1), P),
            Resolver::full(2, &short(b'b'), &address(carrier, 2), &[]),
        ],
    }
}

/// Every cut, none and all included.
pub fn add(table: &mut Table) {
    for carrier in 2..=5 {
        let records = records(carrier);
        let octets = area(carrier, &records);
        let ends: Vec<usize> = (0..=records.len())
            .map(|count| area(carrier, &records[..count]).len())
            .collect();
        for cut in 0..=octets.len() {
            let source = format!("RULES D3, carrier {carrier} cut after {cut} octets");
            let part = &octets[..cut];
            match ends.iter().position(|end| *end == cut) {
                Some(count) => {
                    let done = Done::kept(count, &sheet(carrier, &records[..count]));
                    let room = done.sheet.len() + 1;
                    table.read(source, carrier, room, part, &done);
                }
                None => {
                    let room = if cut % 2 == 0 { 0 } else { ROOM };
                    table.read_refused(source, carrier, room, part, 3);
                }
            }
        }
    }
    for cut in 1..25 {
        let source = format!("RULES R3, K2 cut after {cut} octets");
        table.read_refused(source, 1, ROOM, &k2()[..cut], 3);
    }
}
