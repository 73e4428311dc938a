//! Texts that turn on the classes of their bytes and on refusal 2, for Note 6 of document 02: "Replace it
//! by tests on ranges of the byte. The contract of the class is the same."
//!
//! A test on a range can be wrong by one byte at its end, so every byte stands at every place of an
//! accepted text. A scan that looks at several bytes in one step can miss a place among them, or the bytes
//! that are left over behind the last whole step, or count their line feeds wrongly, or take something of
//! one byte over into the next. So faults stand at every place of texts of every length, and every byte
//! beside every other.
//!
//! Those in the tables have their answers with them. What the others get, the model says.

use crate::model::MOST_BYTES;

/// An accepted sheet with a line of each name, and a number of each kind.
pub const SHEET: &[u8] = b"sheet=1\nkeys=2\nsecret=1:-4\ndo=receive\ndo=set 7 12\ndo=ifneg 7 5\n\
do=put 0 7\ndo=send\nmsg=0:5,1:-6\nturns=LHLLLL\n";
/// One of form 2, with both owners and all letters.
pub const SHEET_OF_TWO: &[u8] =
    b"sheet=2\nkeys=2\nsecret=0:7:A\nsecret=1:-4:B\ndo=receive\ndo=send\n\
msg=0:5,1:-6\nturns=LABL\n";
/// An accepted program with blocks of each kind. K is 2.
pub const PROGRAM: &[u8] =
    b"receive\nhas 0 0\nwhile 0\nread 1 1\nif 1\nset 7 -12\nelse\ndrop 0\nend\nend\n";
/// An accepted export, with a negative number and an empty field.
pub const EXPORT: &[u8] = b"2,5\r\n-40,7\r\n,300\r\n";

/// "a byte that is neither 10 nor 32 to 126": beside each end of these ranges, the ends with the highest
/// bit, and the ends of all.
const FORBIDDEN: &[u8] = &[0, 9, 11, 13, 31, 127, 128, 138, 160, 254, 255];
/// The ends of the ranges and what stands beside them.
const ENDS: &[u8] = &[9, 10, 11, 31, 32, 33, 126, 127, 128];

/// Short texts have at most so many bytes: two more than 64, the most that one step is likely to look at.
const SHORT: usize = 66;
/// Every so many bytes of a short text there is a line feed: line feeds alone, lines of one letter and of
/// two, one line feed in each eight bytes, and only the last.
const EVERY: &[usize] = &[1, 2, 3, 8, SHORT];
/// A program with blocks may be longer than a sheet.
const LONG: usize = 100_000;

/// Texts, each with the count of its repetitions.
type Pieces = &'static [(&'static [u8], usize)];

/// Line, text: 2 at this line, of a sheet and of a program with blocks alike.
pub const REFUSED: &[(u32, Pieces)] = &[
    // Beside each end of the ranges, and the ends with the highest bit.
    (1, &[(b"\x09\n", 1)]),
    (1, &[(b"\x0b\n", 1)]),
    (1, &[(b"\x1f\n", 1)]),
    (1, &[(b"\x7f\n", 1)]),
    (1, &[(b"\x8a\n", 1)]),
    (1, &[(b"\xa0\n", 1)]),
    (1, &[(b"\xfe\n", 1)]),
    // The last of 8, 16 and 32 bytes, and the first behind them.
    (1, &[(b"x", 7), (b"\x7f\n", 1)]),
    (1, &[(b"x", 8), (b"\x7f\n", 1)]),
    (1, &[(b"x", 15), (b"\x7f\n", 1)]),
    (1, &[(b"x", 16), (b"\x7f\n", 1)]),
    (1, &[(b"x", 31), (b"\x7f\n", 1)]),
    (1, &[(b"x", 32), (b"\x7f\n", 1)]),
    // The same behind line feeds alone: each counts.
    (8, &[(b"\n", 7), (b"\x1f\n", 1)]),
    (9, &[(b"\n", 8), (b"\x1f\n", 1)]),
    (16, &[(b"\n", 15), (b"\x1f\n", 1)]),
    (17, &[(b"\n", 16), (b"\x1f\n", 1)]),
    (32, &[(b"\n", 31), (b"\x1f\n", 1)]),
    (33, &[(b"\n", 32), (b"\x1f\n", 1)]),
    // Line feeds behind it do not count, nor does a second such byte.
    (4, &[(b"\n", 3), (b"\0", 1), (b"\n", 28)]),
    (4, &[(b"\n", 3), (b"\0\n\n\xff", 1), (b"\n", 25)]),
    (20, &[(b"\n", 19), (b"\0\n\xff", 1), (b"\n", 10)]),
    // A carriage return is forbidden, and ends no line.
    (2, &[(b"x\n", 1), (b"\r", 14), (b"\n", 16)]),
    // Its line, and not the last, where the last line feed is missing too.
    (1, &[(b"\x80\n", 1), (b"x", 14)]),
    (2, &[(b"x\n\x80\n", 1), (b"x", 28)]),
    (17, &[(b"\n", 16), (b"x\x80", 1)]),
    // No such byte: the last line feed alone is missing.
    (1, &[(b" ", 16)]),
    (2, &[(b"x", 15), (b"\n~", 1)]),
    (17, &[(b"\n", 16), (b"x", 1)]),
    (34, &[(b"\n", 33), (b"x", 15)]),
    // As many bytes as a sheet may have, or one less: the last, and the last but one.
    (1, &[(b"x", 16_382), (b"\x7f", 1)]),
    (1, &[(b"x", 16_383), (b"\x7f", 1)]),
    (1, &[(b"x", 16_382), (b"\x7f\n", 1)]),
    (8_192, &[(b"x\n", 8_191), (b"\x7f", 1)]),
    (8_192, &[(b"x\n", 8_191), (b"\x7f\n", 1)]),
    (16_384, &[(b"\n", 16_383), (b"\x7f", 1)]),
];

/// No byte is forbidden and the last is a line feed, but line 1 is at fault: 3 of a sheet, 6 of a program
/// with blocks.
pub const NOT_REFUSED: &[Pieces] = &[
    &[(b"\n", 1)],
    &[(b"\n", 7)],
    &[(b"\n", 8)],
    &[(b"\n", 16)],
    &[(b"\n", 33)],
    &[(b"\n", 16_384)],
    &[(b" \n", 1)],
    &[(b"~\n", 1)],
    &[(b"\n ", 15), (b"\n", 1)],
    &[(b"\n~", 16), (b"\n", 1)],
    &[(b" !\"#$%&'()*+,-./0123456789:;<=>?\n", 1)],
    &[(b"@ABCDEFGHIJKLMNOPQRSTUVWXYZ[\\]^_\n", 1)],
    &[(b"`abcdefghijklmnopqrstuvwxyz{|}~\n", 1)],
];

/// Sheets.
pub fn sheets() -> Vec<Vec<u8>> {
    let long = [MOST_BYTES - 1, MOST_BYTES];
    let late = with_late_fault(SHEET, &long);
    let every = [with_every_byte(SHEET), with_every_byte(SHEET_OF_TWO)];
    all([tables(), short(), late, every.concat()])
}

/// Programs with blocks. K is 2.
pub fn programs() -> Vec<Vec<u8>> {
    let long = [MOST_BYTES - 1, MOST_BYTES, LONG];
    let late = with_late_fault(b"send\n", &long);
    all([tables(), short(), late, with_every_byte(PROGRAM)])
}

/// Exports of a belt log. Refusal 2 is not for them, but their numbers have digits too.
pub fn exports() -> Vec<Vec<u8>> {
    with_every_byte(EXPORT)
}

pub fn joined(pieces: Pieces) -> Vec<u8> {
    let repeated = |(text, count): &(&[u8], usize)| text.repeat(*count);
    pieces.iter().flat_map(repeated).collect()
}

fn tables() -> Vec<Vec<u8>> {
    let refused = REFUSED.iter().map(|&(_, pieces)| pieces);
    let all = refused.chain(NOT_REFUSED.iter().copied());
    all.map(joined).collect()
}

fn short() -> Vec<Vec<u8>> {
    all([one_fault(), two_faults(), faults_alone(), fours(), pairs()])
}

/// The texts of all lists, which are too many to be copied.
fn all<const COUNT: usize>(lists: [Vec<Vec<u8>>; COUNT]) -> Vec<Vec<u8>> {
    lists.into_iter().flatten().collect()
}

/// So many bytes, with a line feed every so many of them and at the end.
fn closed(length: usize, every: usize) -> Vec<u8> {
    let ends = |place: usize| place % every == every - 1 || place == length - 1;
    let byte = |place: usize| if ends(place) { b'\n' } else { b'x' };
    (0..length).map(byte).collect()
}

fn with(text: &[u8], place: usize, byte: u8) -> Vec<u8> {
    let mut text = text.to_vec();
    text[place] = byte;
    text
}

/// The text, and the same without the line feed at its end.
fn closed_and_open(text: Vec<u8>) -> [Vec<u8>; 2] {
    let open = with(&text, text.len() - 1, b'x');
    [text, open]
}

/// One of the forbidden bytes.
fn forbidden(which: usize) -> u8 {
    FORBIDDEN[which % FORBIDDEN.len()]
}

/// No forbidden byte, and one at every place, of texts of every length.
fn one_fault() -> Vec<Vec<u8>> {
    let mut texts = Vec::new();
    for length in 1..=SHORT {
        for &every in EVERY {
            for text in closed_and_open(closed(length, every)) {
                let at = |place: usize| with(&text, place, forbidden(length + place));
                texts.extend((0..length).map(at));
                texts.push(text);
            }
        }
    }
    texts
}

/// Two forbidden bytes, at every two places.
fn two_faults() -> Vec<Vec<u8>> {
    let mut texts = Vec::new();
    for text in [8, 17, 33, 48].map(|length| closed(length, 2)) {
        for first in 0..text.len() {
            let one = with(&text, first, forbidden(first));
            let both = |second: usize| with(&one, second, forbidden(second));
            texts.extend((first + 1..text.len()).map(both));
        }
    }
    texts
}

/// Forbidden bytes alone, and a line feed behind them.
fn faults_alone() -> Vec<Vec<u8>> {
    let alone = |length: usize| vec![forbidden(length); length];
    let ended = |length: usize| [alone(length), b"\n".to_vec()].concat();
    (1..=SHORT)
        .flat_map(|length| [alone(length), ended(length)])
        .collect()
}

/// Every four bytes at the ends of the ranges, side by side.
fn fours() -> Vec<Vec<u8>> {
    let text = closed(32, 8);
    let four = |which: usize| {
        let mut text = text.clone();
        for (place, power) in (9..).zip(0..4) {
            text[place] = ENDS[which / ENDS.len().pow(power) % ENDS.len()];
        }
        text
    };
    (0..ENDS.len().pow(4)).map(four).collect()
}

/// Every two bytes, side by side: at different places, but within one of four groups of eight.
fn pairs() -> Vec<Vec<u8>> {
    let text = closed(32, 3);
    let pair = |first: u8, second: u8| {
        let place = usize::from(first % 4) * 8 + usize::from(second % 7);
        with(&with(&text, place, first), place + 1, second)
    };
    let beside = |first: u8| (0..=255).map(move |second| (first, second));
    let all = (0..=255).flat_map(beside);
    all.map(|(first, second)| pair(first, second)).collect()
}

/// These lines again and again, in texts of these lengths: no forbidden byte, and one at each of the last
/// places.
fn with_late_fault(lines: &[u8], lengths: &[usize]) -> Vec<Vec<u8>> {
    let mut texts = Vec::new();
    for &length in lengths {
        let text: Vec<u8> = lines.iter().copied().cycle().take(length).collect();
        for text in closed_and_open(with(&text, length - 1, b'\n')) {
            let late = length - 40..length;
            texts.extend(late.map(|place| with(&text, place, forbidden(place))));
            texts.push(text);
        }
    }
    texts
}

/// Every byte in the place of each byte of an accepted text, before each of them, and behind the last.
pub(super) fn with_every_byte(text: &[u8]) -> Vec<Vec<u8>> {
    let mut texts = Vec::new();
    for byte in 0..=255 {
        texts.extend((0..text.len()).map(|place| with(text, place, byte)));
        let before = |place: usize| [&text[..place], &[byte], &text[place..]].concat();
        texts.extend((0..=text.len()).map(before));
    }
    texts
}
