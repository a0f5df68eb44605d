//! The place of a bad name (RULES N5, W11, T8) by worked names, each in a block of every
//! carrier that has its form and in a sheet. The place of a name is laid out
//! beside it; `places_given` has what stands around a name.

use super::layout::{
    address, addresses, area, name_at, name_of, one, option, sheet, width, Resolver, FIRST_NAME, N,
    P,
};
use super::table::{bad_name, Table, ROOM};

/// A long bad name, the place in it, and what it shows.
type Row = (Vec<u8>, usize, &'static str);

/// A name in wire form with labels of these lengths, and other octets in the
/// place of the root.
fn unended(lengths: &[usize], end: &[u8]) -> Vec<u8> {
    let name = name_of(lengths);
    [&name[..name.len() - 1], end].concat()
}

/// A text with labels of these lengths, and what stands behind them.
fn labels(lengths: &[usize], end: &[u8]) -> Vec<u8> {
    let all: Vec<Vec<u8>> = lengths.iter().map(|length| vec![b'n'; *length]).collect();
    [&all.join(&b'.')[..], end].concat()
}

/// An attribute of carrier 4 or 5 with a text as it stands.
pub fn attribute(carrier: u8, priority: u8, count: u8, text: &[u8]) -> Vec<u8> {
    let head = [&[0, priority, count], &one(text.len())[..]].concat();
    option(
        carrier,
        &[&head, &addresses(carrier, count)[..], text, P].concat(),
    )
}

/// Short wire names. What follows the root, a root at 0 and octets that are no
/// length are at fault themselves. A label past the field is cut short, and the
/// place is the field's end. The length octet tells where a label ends, so a
/// hyphen there is at fault itself.
const SHORT_WIRE: [(&[u8], usize, &str); 22] = [
    (b"\x01a\0b", 3, "a letter after the root"),
    (b"\x01a\0-_", 3, "two octets after the root"),
    (b"\x01a\x01b\0\0", 5, "a second root"),
    (b"\0\x01a\0", 0, "the root at 0"),
    (b"\x01a\x40b\0", 2, "length octet 64"),
    (b"\x01a\x80b\0", 2, "length octet 128"),
    (b"\x01a\xbfb\0", 2, "length octet 191"),
    (b"\x01a\xc0", 2, "half a compression pointer"),
    (b"\x01a\xffb\0", 2, "length octet 255"),
    (b"\xff", 0, "length octet 255 alone"),
    (b"\x01", 1, "a length octet alone"),
    (b"\x3f", 1, "length octet 63 alone"),
    (b"\x3fab", 3, "a label of 63 past the field"),
    (b"\x01a\x01", 3, "the second label's length alone"),
    (b"\x03a-", 3, "a hyphen within a cut label"),
    (b"\x03com", 4, "no root"),
    (b"\x02a-", 2, "a hyphen last, and the field's end"),
    (b"\x02a-\x40", 2, "a hyphen last, and a length octet 64"),
    (b"\x01a\x02-b\0", 3, "a hyphen first in the second label"),
    (b"\x01a\x03b--\0", 5, "two hyphens last"),
    (b"\x04a--_\0", 4, "an underscore behind two hyphens"),
    (b"\x03-_-\0", 1, "a hyphen first, and more"),
];

/// Wire names at 255 octets: a length octet n at p with p + n above 253 is at
/// fault, since behind its label no place is left for the root. The labels of
/// 63 octets take 64 each.
fn long_wire() -> Vec<Row> {
    let n62 = vec![b'n'; 62];
    let with_62 = [&[62][..], &n62].concat();
    let mut first_hyphen = name_of(&[63]);
    first_hyphen[1] = b'-';
    let mut last_hyphen = name_of(&[1, 63]);
    last_hyphen[2 + 63] = b'-';
    vec![
        (unended(&[63; 3], &[61]), 193, "61 at 192, cut short"),
        (unended(&[63; 3], &[62]), 192, "62 at 192, the last octet"),
        (unended(&[63; 3], &with_62), 192, "62 at 192 and no root"),
        (unended(&[63; 3], &[63, b'_']), 192, "63 at 192 and worse"),
        (
            unended(&[63, 63, 63, 59], &[2]),
            252,
            "2 at 252, the last octet",
        ),
        (unended(&[63, 63, 63, 59], &[1]), 253, "1 at 252, cut short"),
        (unended(&[63, 63, 63, 59], b"\x01a"), 254, "no root at 254"),
        (unended(&[63, 63, 63, 60], b"\x01a"), 253, "1 at 253"),
        (unended(&[63, 63, 63, 61], &[]), 254, "nothing at 254"),
        (unended(&[63, 63, 63, 61], &[1]), 254, "1 at 254"),
        (unended(&[63, 63, 63, 61], &[64]), 254, "64 at 254"),
        (
            unended(&[1; 126], &[2, b'a']),
            252,
            "2 at 252, short labels",
        ),
        (first_hyphen, 1, "a hyphen first of 63"),
        (last_hyphen, 2 + 63, "a hyphen last of 63"),
    ]
}

/// Short texts. A hyphen or a dot at the end is cut short, and the place is the
/// text's length; of a hyphen before a dot the dot is at fault.
const SHORT_TEXT: [(&[u8], usize, &str); 14] = [
    (b"a.b.", 4, "a final dot"),
    (b"a.b-", 4, "a hyphen at the end"),
    (b"a--", 3, "two hyphens at the end"),
    (b"a--.b", 3, "a dot behind two hyphens"),
    (b"a-.", 2, "a final dot behind a hyphen"),
    (b"..", 0, "two dots"),
    (b"a..", 2, "two dots at the end"),
    (b"a.b..c", 4, "an empty label"),
    (b".a.", 0, "a leading dot and a final one"),
    (b"-", 0, "a hyphen alone"),
    (b"a.-", 2, "a hyphen first in the second label"),
    (b"a.b_", 3, "an underscore at the end"),
    (b"a-_", 2, "an underscore behind a hyphen"),
    (b"doh1.example.com\0", 16, "an octet 0 at the end"),
];

/// Texts with labels around 63 octets and texts around 253: nothing tells where
/// a label ends, so a hyphen is at fault only where no letter can follow it.
fn long_text() -> Vec<Row> {
    let in_252 = |end: &[u8]| labels(&[63, 63, 63, 60], end);
    let in_251 = |end: &[u8]| labels(&[63, 63, 63, 59], end);
    vec![
        (labels(&[63], b"n"), 63, "a letter as 64th octet"),
        (labels(&[63], b"-"), 63, "a hyphen as 64th octet"),
        (labels(&[63], b"."), 64, "63 octets and a final dot"),
        (labels(&[62], b"-"), 62, "a hyphen as 63rd octet"),
        (labels(&[62], b"-n"), 62, "a hyphen as 63rd octet of 64"),
        (
            labels(&[62], b"-.n"),
            62,
            "a hyphen as 63rd octet and a dot",
        ),
        (labels(&[61], b"-"), 62, "a hyphen as 62nd octet, cut short"),
        (labels(&[61], b"--"), 62, "hyphens as 62nd and 63rd octet"),
        (labels(&[1, 62], b"-"), 2 + 62, "the same in a second label"),
        (labels(&[1, 64], b""), 2 + 63, "64 octets in a second label"),
        (in_252(b"."), 252, "a dot at 252"),
        (in_252(b".n"), 252, "a dot at 252 and a letter"),
        (in_252(b"-"), 252, "a hyphen at 252"),
        (in_252(b"-n"), 252, "a hyphen at 252 and a letter"),
        (in_251(b"."), 252, "a dot at 251, cut short"),
        (in_251(b"-"), 252, "a hyphen at 251, cut short"),
        (in_251(b"--"), 252, "hyphens at 251 and 252"),
        (in_251(b"-."), 252, "a hyphen at 251 and a dot"),
        (in_251(b".nn"), 253, "a letter at 253 in a short label"),
        (in_252(b"nn"), 253, "a letter at 253"),
        (in_252(b"n."), 253, "a dot at 253"),
        (in_252(b"n-"), 253, "a hyphen at 253"),
        (in_252(b"n_"), 253, "an underscore at 253"),
    ]
}

/// The names around those above that are good, so that the places begin exactly
/// where they should.
fn add_good(table: &mut Table) {
    let mut hyphens = name_of(&[63]);
    hyphens[62] = b'-';
    for (name, what) in [
        (
            name_of(&[63, 63, 63, 59, 1]),
            "1 at 252 and the root at 254",
        ),
        (hyphens, "a hyphen as 62nd octet of 63"),
    ] {
        for carrier in 1..=5 {
            let source = format!("RULES N5, good: {what}, carrier {carrier}");
            let resolver = Resolver::small(carrier, 1, &name);
            table.goes_round(source, carrier, &[resolver]);
        }
    }
}

/// A wire name in a block of carriers 1 to 3 and in sheets of these carriers.
fn add_wire(table: &mut Table, name: &[u8], place: usize, what: &str, sheets: &[u8]) {
    let resolver = |carrier| [Resolver::full(1, name, &address(carrier, 1), P)];
    for carrier in 1..=3 {
        let source = format!("RULES N5, W11, {what}, carrier {carrier}");
        let at = bad_name(name_at(carrier, 1) + place);
        table.discarded(source, carrier, &area(carrier, &resolver(carrier)), at);
    }
    for carrier in sheets {
        let source = format!("RULES N5, T8, {what}, sheet of carrier {carrier}");
        let octets = sheet(*carrier, &resolver(*carrier));
        table.write_refused(source, ROOM, &octets, bad_name(FIRST_NAME + place));
    }
}

/// A text in a block of these carriers.
fn add_text(table: &mut Table, name: &[u8], place: usize, what: &str, carriers: &[u8]) {
    for carrier in carriers {
        let source = format!("RULES N5, W11, {what}, carrier {carrier}");
        let at = bad_name(name_at(*carrier, 1) + place);
        table.discarded(source, *carrier, &attribute(*carrier, 1, 1, name), at);
    }
}

/// Octets that are no letter, digit or hyphen, from the ends of their ranges.
fn add_characters(table: &mut Table) {
    for octet in *b"\x00\x1f ,/:@[^`{\x7f\x80\xff" {
        let what = "an octet that is no letter, digit or hyphen";
        let name = [b"\x03a", &[octet][..], b"b\0"].concat();
        add_wire(table, &name, 2, what, &[1 + octet % 5]);
        add_text(table, &[b'a', octet, b'b'], 1, what, &[4, 5]);
    }
}

/// An ADN length of 0, at the end of its block and before other fields, behind
/// so many addresses; and ADN lengths above 255, which only carriers 2 and 3
/// have.
fn add_adn_lengths(table: &mut Table) {
    for carrier in [4, 5] {
        for count in [0, 2, 3] {
            let source =
                format!("RULES N5, W11, no name behind {count} addresses, carrier {carrier}");
            let at = bad_name(8 + usize::from(count) * width(carrier));
            table.discarded(source, carrier, &attribute(carrier, 1, count, b""), at);
        }
    }
    for carrier in 1..=3 {
        let source = format!("RULES N5, W11, no name before other fields, carrier {carrier}");
        let resolver = [Resolver::full(1, b"", &address(carrier, 1), P)];
        let at = bad_name(name_at(carrier, 1));
        table.discarded(source, carrier, &area(carrier, &resolver), at);
    }
    let longest = name_of(&[63, 63, 63, 61]);
    for (name, place, what) in [
        (
            [&longest[..], b"\0"].concat(),
            255,
            "256, an octet behind 255",
        ),
        ([N, &[0; 282]].concat(), 18, "300, N and zeros"),
        (vec![b'n'; 256], 0, "256 letters"),
        (
            [vec![1; 2], vec![b'n'; 298]].concat(),
            1,
            "300, a bad label",
        ),
    ] {
        for carrier in [2, 3] {
            let source = format!("RULES N5, W11, ADN length {what}, carrier {carrier}");
            let octets = area(carrier, &[Resolver::named(1, &name)]);
            let at = bad_name(name_at(carrier, 0) + place);
            table.discarded(source, carrier, &octets, at);
        }
    }
}

/// All of the above, the longest in one sheet each and in one of two carriers,
/// in turn.
pub fn add(table: &mut Table) {
    add_good(table);
    for (name, place, what) in SHORT_WIRE {
        add_wire(table, name, place, what, &[1, 2, 3, 4, 5]);
    }
    for ((name, place, what), carrier) in long_wire().into_iter().zip((1..=5).cycle()) {
        add_wire(table, &name, place, what, &[carrier]);
    }
    for (name, place, what) in SHORT_TEXT {
        add_text(table, name, place, what, &[4, 5]);
    }
    for ((name, place, what), carrier) in long_text().into_iter().zip([4, 5].into_iter().cycle()) {
        let carriers = if name.len() < 100 {
            vec![4, 5]
        } else {
            vec![carrier]
        };
        add_text(table, &name, place, what, &carriers);
    }
    add_characters(table);
    add_adn_lengths(table);
}
