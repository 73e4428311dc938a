//! Note 6 of document 02 against the model: the worked examples of the classes, the texts that turn on
//! them, and scans for refusal 2 that go wrong in one way each, which the texts must tell.

use reference::blocks::blocks;
use reference::corners::bytes::{
    exports, joined, programs, sheets, EXPORT, NOT_REFUSED, PROGRAM, REFUSED, SHEET,
};
use reference::log::csv;
use reference::model::class;
use reference::run_sheet;
use std::sync::LazyLock;

/// Number and line of a sheet.
fn of_sheet(text: &[u8]) -> [u32; 2] {
    let numbers = run_sheet(text, &mut [0; 40]);
    [numbers[0], numbers[1]]
}

/// Number and line of a program with blocks.
fn of_program(text: &[u8]) -> [u32; 2] {
    let numbers = blocks(text, 2, &mut [0; 150]);
    [numbers[0], numbers[1]]
}

/// The start of a text, for the message of a test that fails.
fn start(text: &[u8]) -> String {
    text[..text.len().min(200)].escape_ascii().to_string()
}

// The classes.

#[test]
fn the_classes_of_the_worked_example() {
    let bytes = b"09-,:= \nazAZ/;@[`{~!\x7f\x1f\x00\xff\r\t";
    let classes = [
        0, 0, 1, 2, 3, 4, 5, 6, 7, 7, 8, 8, 9, 9, 9, 9, 9, 9, 9, 9, 10, 10, 10, 10, 10, 10,
    ];
    assert_eq!(bytes.map(|byte| class(byte) as u32), classes);
}

#[test]
fn the_counts_of_the_worked_example() {
    let mut counts = [0; 11];
    for byte in 0..=255 {
        counts[class(byte) as usize] += 1;
    }
    assert_eq!(counts, [10, 1, 1, 1, 1, 1, 1, 26, 26, 28, 160]);
}

// The texts.

#[test]
fn the_tables_have_the_answers_of_the_model() {
    for &(line, pieces) in REFUSED {
        let text = joined(pieces);
        let found = [of_sheet(&text), of_program(&text)];
        assert_eq!(found, [[2, line], [2, line]], "{}", start(&text));
    }
    for text in NOT_REFUSED.iter().copied().map(joined) {
        let found = [of_sheet(&text), of_program(&text)];
        assert_eq!(found, [[3, 1], [6, 1]], "{}", start(&text));
    }
}

#[test]
fn what_every_byte_is_put_into_is_accepted() {
    assert_eq!(run_sheet(SHEET, &mut [0; 40])[..2], [0, 0]);
    assert_eq!(blocks(PROGRAM, 2, &mut [0; 150])[..2], [0, 0]);
    assert_eq!(csv(EXPORT, &mut [0; 60])[..2], [0, 0]);
}

fn is_forbidden(byte: u8) -> bool {
    byte != 10 && !(32..=126).contains(&byte)
}

/// Refusal 2 byte by byte, without classes: the line that it names, if it is the answer.
fn scan(text: &[u8]) -> Option<u32> {
    scan_bytes(text.iter().copied())
}

fn scan_bytes(bytes: impl Iterator<Item = u8>) -> Option<u32> {
    let (mut line, mut last) = (1, None);
    for byte in bytes {
        if is_forbidden(byte) {
            return Some(line);
        }
        line += u32::from(byte == 10);
        last = Some(byte);
    }
    (last != Some(10)).then_some(line)
}

#[test]
fn refusal_2_is_found_byte_by_byte() {
    let check = |text: &[u8], [number, line]: [u32; 2]| {
        let found = (number == 2).then_some(line);
        assert_eq!(found, scan(text), "{}", start(text));
    };
    sheets().iter().for_each(|text| check(text, of_sheet(text)));
    for text in programs() {
        check(&text, of_program(&text));
    }
}

/// "Every other byte only spoils its number": an export is never refused with 2.
#[test]
fn refusal_2_is_not_for_exports() {
    for text in exports() {
        let [number, ..] = csv(&text, &mut [0; 60]);
        assert!([0, 41, 42, 43].contains(&number), "{}", start(&text));
    }
}

// Wrong scans.

static TEXTS: LazyLock<[Vec<Vec<u8>>; 2]> = LazyLock::new(|| [sheets(), programs()]);

/// Whether this scan names another line in some of the sheets, and in some of the programs.
fn is_told(wrong: impl Fn(&[u8]) -> Option<u32>) -> bool {
    let differs = |text: &Vec<u8>| wrong(text) != scan(text);
    TEXTS.iter().all(|texts| texts.iter().any(differs))
}

/// How many bytes one step of a scan may look at.
const GROUPS: [usize; 5] = [4, 8, 16, 32, 64];

/// The scan with other bytes in the place of some, by where they stand.
fn changed(text: &[u8], change: impl Fn(usize, u8) -> u8) -> Option<u32> {
    let bytes = text.iter().enumerate();
    scan_bytes(bytes.map(|(place, &byte)| change(place, byte)))
}

/// The scan that does not look for forbidden bytes at some places.
fn skipping(text: &[u8], skips: impl Fn(usize) -> bool) -> Option<u32> {
    let skipped = |place: usize, byte: u8| is_forbidden(byte) && skips(place);
    changed(
        text,
        |place, byte| if skipped(place, byte) { b'x' } else { byte },
    )
}

/// A range that is too long or too short by one byte, or any byte at all that is on the wrong side.
#[test]
fn a_byte_on_the_wrong_side_is_told() {
    for wrong in 0..=255 {
        let other = if is_forbidden(wrong) { b'x' } else { 0 };
        let swap = |_, byte| if byte == wrong { other } else { byte };
        assert!(is_told(|text| changed(text, swap)), "{wrong}");
    }
}

#[test]
fn a_byte_that_is_taken_for_a_line_feed_is_told() {
    for wrong in (0..=255).filter(|&byte| byte != 10) {
        let swap = |_, byte| if byte == wrong { 10 } else { byte };
        assert!(is_told(|text| changed(text, swap)), "{wrong}");
    }
}

#[test]
fn a_place_that_is_skipped_in_every_group_is_told() {
    for group in GROUPS {
        for wrong in 0..group {
            let told = is_told(|text| skipping(text, |place| place % group == wrong));
            assert!(told, "{wrong} of {group}");
        }
    }
}

/// Behind the last whole group: all that is left over there, and each place of it but the last. A forbidden
/// byte at the end of a text need not be looked for: it is no line feed, and 2 names the same line.
#[test]
fn a_place_that_is_skipped_behind_the_groups_is_told() {
    for group in GROUPS {
        let behind = |text: &[u8], place: usize| place >= text.len() / group * group;
        assert!(is_told(|text| skipping(text, |place| behind(text, place))));
        for wrong in 0..group - 2 {
            let at = |text: &[u8], place: usize| behind(text, place) && place % group == wrong;
            let told = is_told(|text| skipping(text, |place| at(text, place)));
            assert!(told, "{wrong} of {group}");
        }
    }
}

/// The first group, all but the first, and the last whole one.
#[test]
fn a_group_that_is_skipped_is_told() {
    for group in GROUPS {
        let last = |text: &[u8], place: usize| place / group + 1 == text.len() / group;
        assert!(is_told(|text| skipping(text, |place| place < group)));
        assert!(is_told(|text| skipping(text, |place| place >= group)));
        assert!(is_told(|text| skipping(text, |place| last(text, place))));
    }
}

/// The scan that counts the line feeds before another place than that of the first forbidden byte.
fn miscounting(text: &[u8], counted: impl Fn(usize) -> usize) -> Option<u32> {
    let line = |end: usize| {
        let before = &text[..end.min(text.len())];
        before.iter().filter(|&&byte| byte == 10).count() as u32 + 1
    };
    let first = text.iter().position(|&byte| is_forbidden(byte));
    first.map_or(scan(text), |place| Some(line(counted(place))))
}

/// Before the first forbidden byte's group, before the end of that group, before the last forbidden byte,
/// and all of them.
#[test]
fn a_line_that_is_counted_wrongly_is_told() {
    for group in GROUPS {
        let start = |place: usize| place / group * group;
        assert!(is_told(|text| miscounting(text, start)));
        assert!(is_told(
            |text| miscounting(text, |place| start(place) + group)
        ));
    }
    let last = |text: &[u8]| text.iter().rposition(|&byte| is_forbidden(byte));
    assert!(is_told(
        |text| miscounting(text, |_| last(text).unwrap_or(0))
    ));
    assert!(is_told(|text| miscounting(text, |_| text.len())));
}

/// The last line feed is asked for only where the text is so many whole groups, or only where it is not.
#[test]
fn an_end_that_is_not_looked_at_is_told() {
    let closed = |text: &[u8]| scan_bytes(text.iter().copied().chain([10]));
    let asking = |text: &[u8], asks: bool| if asks { scan(text) } else { closed(text) };
    for group in GROUPS {
        let whole = |text: &[u8]| text.chunks_exact(group).remainder().is_empty();
        assert!(is_told(|text| asking(text, whole(text))));
        assert!(is_told(|text| asking(text, !whole(text))));
    }
}
