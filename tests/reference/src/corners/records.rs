//! Hand-written records with the sheets that Note 7 of document 02 demands, and sheets with the numbers of
//! the records that they are read into. Nothing here was computed by the model: all was worked out from
//! the documents.

use super::owner_records;
use crate::record::{coded, Coded, Entry, Record, Secret, EMPTY};

/// A record, the bytes lent to it, the two numbers, and what stands in the output memory then.
#[derive(Debug, Clone, PartialEq, Eq)]
pub struct Corner {
    pub lent: usize,
    pub record: Record,
    pub numbers: [u32; 2],
    pub sheet: Vec<u8>,
}

/// A sheet, the two numbers, and a list of all that the counts of the record cover then; nothing if the
/// sheet is refused.
#[derive(Debug, Clone, PartialEq, Eq)]
pub struct Opened {
    pub sheet: Vec<u8>,
    pub numbers: [u32; 2],
    pub listing: String,
}

/// Every corner of the tables below. A record that passes is lent more than it needs, just enough, a byte
/// too little, and nothing; one that does not pass is lent nothing, and more than it could need.
pub fn corners() -> Vec<Corner> {
    let mut corners = Vec::new();
    for (record, sheet) in passing() {
        for lent in [PLENTY, sheet.len()] {
            corners.push(Corner {
                lent,
                record: record.clone(),
                numbers: [0, sheet.len() as u32],
                sheet: sheet.clone(),
            });
        }
        for lent in [sheet.len() - 1, 0] {
            corners.push(refused(55, lent, &record));
        }
    }
    for record in faulty() {
        for lent in [0, PLENTY] {
            corners.push(refused(54, lent, &record));
        }
    }
    corners
}

/// More bytes than any sheet needs.
const PLENTY: usize = 6_300;

/// "a refusal writes nothing".
fn refused(number: u32, lent: usize, record: &Record) -> Corner {
    Corner {
        lent,
        record: record.clone(),
        numbers: [number, 0],
        sheet: Vec::new(),
    }
}

/// The records that pass, each with its sheet.
pub fn passing() -> Vec<(Record, Vec<u8>)> {
    let mut passing = vec![
        (sheet_a(), SHEET_A.to_vec()),
        (every_word(), EVERY_WORD.to_vec()),
        (smallest(), SMALLEST.to_vec()),
        (longest(), longest_sheet()),
    ];
    for &(change, sheet) in PASSING_A {
        passing.push((changed(sheet_a(), change), sheet.to_vec()));
    }
    for &change in BEYOND_COUNTS {
        passing.push((changed(sheet_a(), change), SHEET_A.to_vec()));
    }
    for &(change, sheet) in PASSING_SMALLEST {
        passing.push((changed(smallest(), change), sheet.to_vec()));
    }
    passing.extend(owner_records::passing());
    passing
}

/// The records that do not pass.
pub fn faulty() -> Vec<Record> {
    let changes = |record: fn() -> Record, changes: &[Change]| -> Vec<Record> {
        let change = |&change: &Change| changed(record(), change);
        changes.iter().map(change).collect()
    };
    let mut faulty = vec![EMPTY];
    faulty.extend(changes(sheet_a, FAULTS_A));
    faulty.extend(changes(every_word, FAULTS_EVERY_WORD));
    faulty.extend(changes(longest, FAULTS_LONGEST));
    faulty.extend(changes(smallest, FAULTS_SMALLEST));
    faulty.extend(lacking());
    faulty.extend(owner_records::faulty());
    faulty
}

/// A change of a record.
pub type Change = fn(&mut Record);

pub fn changed(mut record: Record, change: Change) -> Record {
    change(&mut record);
    record
}

/// Document 01's sheet A.
pub const SHEET_A: &[u8] = b"sheet=1\nkeys=2\nsecret=1:300\ndo=receive\ndo=read 0 1\ndo=put 1 0\n\
    do=send\ndo=stop\nmsg=0:1500,1:1480\nturns=LHLHLHLHLH\n";

/// Its record. Everything that its counts do not cover is 0.
pub fn sheet_a() -> Record {
    let mut record = EMPTY;
    record.form = 1;
    record.keys = 2;
    secrets(&mut record, &[(1, 300)]);
    commands(
        &mut record,
        &[
            coded(12, 0, 0, 0, 0, 0),
            coded(5, 0, 0, 1, 0, 0),
            coded(7, 0, 0, 1, 0, 0),
            coded(13, 0, 0, 0, 0, 0),
            coded(14, 0, 0, 0, 0, 0),
        ],
    );
    messages(&mut record, &[&[(0, 1_500), (1, 1_480)]]);
    letters(&mut record, b"LHLHLHLHLH");
    record
}

/// Each word of document 01's table once, in its order, with operands at their ends and no two alike
/// where they could be mixed up.
pub const EVERY_WORD: &[u8] = b"sheet=1\nkeys=8\nsecret=0:-2147483648\nsecret=7:2147483647\n\
    do=set 7 -2147483648\ndo=add 0 7\ndo=sub 7 0\ndo=mul 1 2\ndo=div 3 4\ndo=read 5 7\ndo=has 6 0\n\
    do=put 7 5\ndo=drop 6\ndo=ifneg 2 15\ndo=ifzero 3 0\ndo=jump 15\ndo=receive\ndo=send\ndo=stop\n\
    msg=\nmsg=7:-1\nmsg=0:0,3:2147483647,7:-2147483648\nturns=H\n";

pub fn every_word() -> Record {
    let mut record = EMPTY;
    record.form = 1;
    record.keys = 8;
    secrets(&mut record, &[(0, i32::MIN), (7, i32::MAX)]);
    commands(
        &mut record,
        &[
            coded(0, 7, 0, 0, 0, i32::MIN),
            coded(1, 0, 7, 0, 0, 0),
            coded(2, 7, 0, 0, 0, 0),
            coded(3, 1, 2, 0, 0, 0),
            coded(4, 3, 4, 0, 0, 0),
            coded(5, 5, 0, 7, 0, 0),
            coded(6, 6, 0, 0, 0, 0),
            coded(7, 5, 0, 7, 0, 0),
            coded(8, 0, 0, 6, 0, 0),
            coded(9, 2, 0, 0, 15, 0),
            coded(10, 3, 0, 0, 0, 0),
            coded(11, 0, 0, 0, 15, 0),
            coded(12, 0, 0, 0, 0, 0),
            coded(13, 0, 0, 0, 0, 0),
            coded(14, 0, 0, 0, 0, 0),
        ],
    );
    let last = [(0, 0), (3, i32::MAX), (7, i32::MIN)];
    messages(&mut record, &[&[], &[(7, -1)], &last]);
    letters(&mut record, b"H");
    record
}

/// No sheet is shorter.
pub const SMALLEST: &[u8] = b"sheet=1\nkeys=1\ndo=send\nturns=L\n";

/// Its record, with numbers that no sheet has in all that its counts do not cover.
pub fn smallest() -> Record {
    let mut record = EMPTY;
    record.secrets.fill(Secret {
        key: u32::MAX,
        dummy: -1,
        owner: 67,
    });
    record.commands.fill(coded(15, 8, 8, 8, 65, 0));
    for message in &mut record.messages {
        message.entry_count = u32::MAX;
        message.entries.fill(Entry { key: 8, value: -1 });
    }
    record.letters.fill(b'\n');
    record.form = 1;
    record.keys = 1;
    commands(&mut record, &[coded(13, 0, 0, 0, 0, 0)]);
    letters(&mut record, b"L");
    record
}

/// No sheet of a record of form 1 is longer: every count is at its limit, and every number as long as it can be.
pub fn longest() -> Record {
    let mut record = EMPTY;
    record.form = 1;
    record.keys = 8;
    let each_key: Vec<(u32, i32)> = (0..8).map(|key| (key, i32::MIN)).collect();
    secrets(&mut record, &each_key);
    commands(&mut record, &[coded(0, 7, 0, 0, 0, i32::MIN); 64]);
    messages(&mut record, &[each_key.as_slice(); 32]);
    letters(&mut record, &[b'L'; 1_024]);
    record
}

/// 15 bytes, 8 lines of 21, 64 of 21, 32 of 116, and 1,031: 6,270.
pub fn longest_sheet() -> Vec<u8> {
    let least = "-2147483648";
    let secrets: String = (0..8)
        .map(|key| format!("secret={key}:{least}\n"))
        .collect();
    let message = "msg=0:M,1:M,2:M,3:M,4:M,5:M,6:M,7:M\n".replace('M', least);
    let sheet = [
        "sheet=1\nkeys=8\n",
        &secrets,
        &"do=set 7 -2147483648\n".repeat(64),
        &message.repeat(32),
        "turns=",
        &"L".repeat(1_024),
        "\n",
    ];
    sheet.concat().into_bytes()
}

pub(super) fn secrets(record: &mut Record, list: &[(u32, i32)]) {
    record.secret_count = list.len() as u32;
    for (secret, &(key, dummy)) in record.secrets.iter_mut().zip(list) {
        *secret = Secret {
            key,
            dummy,
            owner: 0,
        };
    }
}

pub(super) fn commands(record: &mut Record, list: &[Coded]) {
    record.command_count = list.len() as u32;
    record.commands[..list.len()].copy_from_slice(list);
}

pub(super) fn messages(record: &mut Record, list: &[&[(u32, i32)]]) {
    record.message_count = list.len() as u32;
    for (message, entries) in record.messages.iter_mut().zip(list) {
        message.entry_count = entries.len() as u32;
        for (entry, &(key, value)) in message.entries.iter_mut().zip(*entries) {
            *entry = Entry { key, value };
        }
    }
}

pub(super) fn letters(record: &mut Record, list: &[u8]) {
    record.letter_count = list.len() as u32;
    record.letters[..list.len()].copy_from_slice(list);
}

/// A change of sheet A's record in what its counts cover, and its sheet then.
pub const PASSING_A: &[(Change, &[u8])] = &[
    // "`jump 5` in A for `stop` is accepted": the target at the end.
    (
        |r| r.commands[4] = coded(11, 0, 0, 0, 5, 0),
        b"sheet=1\nkeys=2\nsecret=1:300\ndo=receive\ndo=read 0 1\ndo=put 1 0\ndo=send\ndo=jump 5\n\
          msg=0:1500,1:1480\nturns=LHLHLHLHLH\n",
    ),
    // More keys than are used.
    (
        |r| r.keys = 8,
        b"sheet=1\nkeys=8\nsecret=1:300\ndo=receive\ndo=read 0 1\ndo=put 1 0\ndo=send\ndo=stop\n\
          msg=0:1500,1:1480\nturns=LHLHLHLHLH\n",
    ),
    // As many secrets as keys.
    (
        |r| secrets(r, &[(0, 0), (1, -1)]),
        b"sheet=1\nkeys=2\nsecret=0:0\nsecret=1:-1\ndo=receive\ndo=read 0 1\ndo=put 1 0\ndo=send\n\
          do=stop\nmsg=0:1500,1:1480\nturns=LHLHLHLHLH\n",
    ),
    // No secret.
    (
        |r| r.secret_count = 0,
        b"sheet=1\nkeys=2\ndo=receive\ndo=read 0 1\ndo=put 1 0\ndo=send\ndo=stop\n\
          msg=0:1500,1:1480\nturns=LHLHLHLHLH\n",
    ),
    // Fewer commands.
    (
        |r| r.command_count = 1,
        b"sheet=1\nkeys=2\nsecret=1:300\ndo=receive\nmsg=0:1500,1:1480\nturns=LHLHLHLHLH\n",
    ),
    // A command more, whose numbers are those of `set 0 0`.
    (
        |r| r.command_count = 6,
        b"sheet=1\nkeys=2\nsecret=1:300\ndo=receive\ndo=read 0 1\ndo=put 1 0\ndo=send\ndo=stop\n\
          do=set 0 0\nmsg=0:1500,1:1480\nturns=LHLHLHLHLH\n",
    ),
    // "`msg=` alone is a message with no entries."
    (
        |r| r.messages[0].entry_count = 0,
        b"sheet=1\nkeys=2\nsecret=1:300\ndo=receive\ndo=read 0 1\ndo=put 1 0\ndo=send\ndo=stop\n\
          msg=\nturns=LHLHLHLHLH\n",
    ),
    (
        |r| r.messages[0].entry_count = 1,
        b"sheet=1\nkeys=2\nsecret=1:300\ndo=receive\ndo=read 0 1\ndo=put 1 0\ndo=send\ndo=stop\n\
          msg=0:1500\nturns=LHLHLHLHLH\n",
    ),
    // Messages more, with no entries.
    (
        |r| r.message_count = 3,
        b"sheet=1\nkeys=2\nsecret=1:300\ndo=receive\ndo=read 0 1\ndo=put 1 0\ndo=send\ndo=stop\n\
          msg=0:1500,1:1480\nmsg=\nmsg=\nturns=LHLHLHLHLH\n",
    ),
    // No message.
    (
        |r| r.message_count = 0,
        b"sheet=1\nkeys=2\nsecret=1:300\ndo=receive\ndo=read 0 1\ndo=put 1 0\ndo=send\ndo=stop\n\
          turns=LHLHLHLHLH\n",
    ),
    // Fewer letters.
    (
        |r| r.letter_count = 1,
        b"sheet=1\nkeys=2\nsecret=1:300\ndo=receive\ndo=read 0 1\ndo=put 1 0\ndo=send\ndo=stop\n\
          msg=0:1500,1:1480\nturns=L\n",
    ),
];

/// What stands beyond the counts is neither tested nor written: the sheet of these is sheet A.
pub const BEYOND_COUNTS: &[Change] = &[
    |r| r.letters[10] = 65,
    |r| r.letters[1_023] = 0,
    |r| r.commands[5].v = 5,
    |r| r.commands[5].word = u32::MAX,
    |r| r.commands[255].word = 15,
    |r| r.secrets[1].key = 0,
    |r| r.secrets[1].owner = 67,
    |r| r.secrets[15].key = u32::MAX,
    |r| r.messages[0].entries[2].key = 0,
    |r| r.messages[0].entries[15].key = u32::MAX,
    |r| r.messages[1].entry_count = u32::MAX,
    |r| r.messages[31].entry_count = 17,
    |r| r.messages[1].entries[0].key = u32::MAX,
];

/// Values of one number of one digit more or less each, in the smallest sheet: -1 and 0, and the ends of
/// each count of digits.
pub const PASSING_SMALLEST: &[(Change, &[u8])] = &[
    (
        |r| r.commands[0] = coded(0, 0, 0, 0, 0, 0),
        b"sheet=1\nkeys=1\ndo=set 0 0\nturns=L\n",
    ),
    (
        |r| r.commands[0] = coded(0, 0, 0, 0, 0, -1),
        b"sheet=1\nkeys=1\ndo=set 0 -1\nturns=L\n",
    ),
    (
        |r| r.commands[0] = coded(0, 1, 0, 0, 0, 9),
        b"sheet=1\nkeys=1\ndo=set 1 9\nturns=L\n",
    ),
    (
        |r| r.commands[0] = coded(0, 2, 0, 0, 0, -10),
        b"sheet=1\nkeys=1\ndo=set 2 -10\nturns=L\n",
    ),
    (
        |r| r.commands[0] = coded(0, 3, 0, 0, 0, 100),
        b"sheet=1\nkeys=1\ndo=set 3 100\nturns=L\n",
    ),
    (
        |r| r.commands[0] = coded(0, 4, 0, 0, 0, 999_999_999),
        b"sheet=1\nkeys=1\ndo=set 4 999999999\nturns=L\n",
    ),
    (
        |r| r.commands[0] = coded(0, 5, 0, 0, 0, 1_000_000_000),
        b"sheet=1\nkeys=1\ndo=set 5 1000000000\nturns=L\n",
    ),
    (
        |r| r.commands[0] = coded(0, 6, 0, 0, 0, i32::MAX),
        b"sheet=1\nkeys=1\ndo=set 6 2147483647\nturns=L\n",
    ),
    (
        |r| r.commands[0] = coded(0, 7, 0, 0, 0, i32::MIN),
        b"sheet=1\nkeys=1\ndo=set 7 -2147483648\nturns=L\n",
    ),
    (
        |r| r.commands[0] = coded(11, 0, 0, 0, 1, 0),
        b"sheet=1\nkeys=1\ndo=jump 1\nturns=L\n",
    ),
    // Ten commands and more: targets of two digits, and 64.
    (
        |r| commands(r, &[coded(11, 0, 0, 0, 10, 0); 10]),
        b"sheet=1\nkeys=1\ndo=jump 10\ndo=jump 10\ndo=jump 10\ndo=jump 10\ndo=jump 10\ndo=jump 10\n\
          do=jump 10\ndo=jump 10\ndo=jump 10\ndo=jump 10\nturns=L\n",
    ),
];

/// Sheet A's record with one fault.
pub const FAULTS_A: &[Change] = &[
    // The worked examples.
    |r| r.keys = 0,
    |r| r.keys = 9,
    |r| r.keys = 1,
    |r| r.letter_count = 0,
    |r| r.letter_count = 1_025,
    |r| r.command_count = 0,
    |r| r.message_count = 33,
    |r| r.letters[9] = 65,
    |r| r.commands[4].v = 5,
    |r| r.secrets[0].owner = 65,
    |r| r.messages[0].entries[1].key = 0,
    |r| r.commands[4] = coded(11, 0, 0, 0, 6, 0),
    // Form 2 has other owners and other letters.
    |r| r.form = 2,
    |r| r.form = 3,
    |r| r.form = 0,
    |r| r.form = 257,
    |r| r.form = u32::MAX,
    |r| r.keys = 16,
    |r| r.keys = 258,
    |r| r.keys = u32::MAX,
    // Secrets: more than keys, above the places, a key that is none.
    |r| r.secret_count = 2,
    |r| secrets(r, &[(0, 0), (1, 0), (2, 0)]),
    |r| r.secret_count = 17,
    |r| r.secret_count = u32::MAX,
    |r| r.secrets[0].key = 2,
    |r| r.secrets[0].key = 257,
    |r| r.secrets[0].key = u32::MAX,
    |r| secrets(r, &[(1, 0), (1, 0)]),
    |r| secrets(r, &[(1, 0), (0, 0)]),
    |r| r.secrets[0].owner = 66,
    |r| r.secrets[0].owner = 1,
    |r| r.secrets[0].owner = 1 << 31,
    // Commands.
    |r| r.command_count = 257,
    |r| r.command_count = u32::MAX,
    |r| r.commands[0].word = 15,
    |r| r.commands[4].word = 270,
    |r| r.commands[3].word = u32::MAX,
    |r| r.commands[1].v = 8,
    |r| r.commands[1].v = 256,
    |r| r.commands[1].k = 2,
    |r| r.commands[2].k = 2,
    |r| r.commands[2].k = u32::MAX,
    |r| r.commands[4] = coded(11, 0, 0, 0, 65, 0),
    |r| r.commands[4] = coded(11, 0, 0, 0, 256 + 5, 0),
    |r| r.commands[4] = coded(11, 0, 0, 0, u32::MAX, 0),
    // A target that was within the count before there were fewer commands.
    |r| {
        r.commands[0] = coded(11, 0, 0, 0, 4, 0);
        r.command_count = 3;
    },
    // Messages and their entries.
    |r| r.message_count = u32::MAX,
    |r| r.messages[0].entry_count = 3,
    |r| r.messages[0].entry_count = 17,
    |r| r.messages[0].entry_count = u32::MAX,
    |r| r.messages[0].entries[1].key = 2,
    |r| r.messages[0].entries[1].key = 257,
    |r| r.messages[0].entries[0].key = 1,
    |r| {
        r.messages[0].entries[0].key = 1;
        r.messages[0].entries[1].key = 0;
    },
    // Letters.
    |r| r.letter_count = 11,
    |r| r.letter_count = u32::MAX,
    |r| r.letters[0] = b'l',
    |r| r.letters[1] = b'h',
    |r| r.letters[0] = b'A',
    |r| r.letters[0] = b'B',
    |r| r.letters[5] = 0,
    |r| r.letters[9] = b'\n',
    |r| r.letters[9] = b'L' + 128,
    // Counts whose low bits are those of sheet A.
    |r| r.secret_count = (1 << 8) + 1,
    |r| r.secret_count = (1 << 16) + 1,
    |r| r.command_count = (1 << 8) + 5,
    |r| r.command_count = (1 << 16) + 5,
    |r| r.message_count = (1 << 8) + 1,
    |r| r.message_count = (1 << 16) + 1,
    |r| r.messages[0].entry_count = (1 << 8) + 2,
    |r| r.messages[0].entry_count = (1 << 16) + 2,
    |r| r.letter_count = (1 << 16) + 10,
    |r| r.letter_count = (1 << 31) + 10,
];

/// The record of every word with one fault: an operand just above its limit.
pub const FAULTS_EVERY_WORD: &[Change] = &[
    |r| r.commands[0].v = 8,
    |r| r.commands[1].v = 8,
    |r| r.commands[1].w = 8,
    |r| r.commands[2].v = 8,
    |r| r.commands[2].w = 8,
    |r| r.commands[3].v = 8,
    |r| r.commands[3].w = 8,
    |r| r.commands[4].v = 8,
    |r| r.commands[4].w = 8,
    |r| r.commands[5].v = 8,
    |r| r.commands[5].k = 8,
    |r| r.commands[6].v = 8,
    |r| r.commands[6].k = 8,
    |r| r.commands[7].v = 8,
    |r| r.commands[7].k = 8,
    |r| r.commands[8].k = 8,
    |r| r.commands[9].v = 8,
    |r| r.commands[9].t = 16,
    |r| r.commands[10].v = 8,
    |r| r.commands[10].t = 16,
    |r| r.commands[11].t = 16,
    // One command fewer: two targets lie beyond.
    |r| r.command_count = 14,
    // One key fewer: secrets, commands and messages have it.
    |r| r.keys = 7,
    // The last of several.
    |r| r.secrets[1].key = 8,
    |r| r.secrets[1].key = 0,
    |r| r.secrets[1].owner = 65,
    |r| r.messages[2].entries[2].key = 8,
    |r| r.messages[2].entries[2].key = 3,
    |r| r.messages[2].entries[1].key = 0,
    |r| r.messages[1].entry_count = 9,
    |r| r.letters[0] = b'I',
];

/// One more than may be, with numbers that could stand in each further place.
pub const FAULTS_LONGEST: &[Change] = &[
    |r| commands(r, &[coded(0, 7, 0, 0, 0, i32::MIN); 65]),
    |r| commands(r, &[coded(0, 7, 0, 0, 0, i32::MIN); 256]),
    |r| r.message_count = 33,
    |r| r.letter_count = 1_025,
    |r| r.keys = 9,
    |r| {
        let nine: Vec<(u32, i32)> = (0..9).map(|key| (key, 0)).collect();
        secrets(r, &nine);
    },
    |r| {
        let nine: Vec<(u32, i32)> = (0..9).map(|key| (key, 0)).collect();
        messages(r, &[nine.as_slice()]);
    },
    |r| r.commands[63].word = 15,
    |r| r.commands[63] = coded(11, 0, 0, 0, 65, 0),
    |r| r.commands[63].w = 1,
    |r| r.messages[31].entries[7].key = 8,
    |r| r.messages[31].entries[7].key = 6,
    |r| r.secrets[7].key = 6,
    |r| r.letters[1_023] = b'A',
];

/// Counts that cover what stands behind the smallest record.
pub const FAULTS_SMALLEST: &[Change] = &[
    |r| r.secret_count = 1,
    |r| r.command_count = 2,
    |r| r.command_count = 65,
    |r| r.message_count = 1,
    |r| r.letter_count = 2,
    |r| r.letter_count = 1_024,
    // No key at all, and none is used.
    |r| r.keys = 0,
    // Key 1 of one key, in each kind of line.
    |r| secrets(r, &[(1, 0)]),
    |r| messages(r, &[&[(1, 0)]]),
    |r| r.commands[0] = coded(8, 0, 0, 1, 0, 0),
    |r| r.commands[0] = coded(11, 0, 0, 0, 2, 0),
];

/// Each operand that each word lacks, in the record of every word: 1, and numbers of which some bits are
/// 0.
fn lacking() -> Vec<Record> {
    // The letters of the operands that the words lack, in the order of the table.
    const LACKING: [&str; 15] = [
        "wkt", "ktn", "ktn", "ktn", "ktn", "wtn", "wtn", "wtn", "vwtn", "wkn", "wkn", "vwkn",
        "vwktn", "vwktn", "vwktn",
    ];
    let mut records = Vec::new();
    for (place, operands) in LACKING.iter().enumerate() {
        for operand in operands.chars() {
            for number in [1, 256, 1 << 31] {
                let mut record = every_word();
                let command = &mut record.commands[place];
                match operand {
                    'v' => command.v = number,
                    'w' => command.w = number,
                    'k' => command.k = number,
                    't' => command.t = number,
                    _ => command.n = number as i32,
                }
                records.push(record);
            }
        }
    }
    records
}

/// Sheets that are read, with what the record holds then; and sheets that are refused, one for each
/// number and each way that a record could hold what no sheet has.
pub fn opened() -> Vec<Opened> {
    let mut opened = Vec::new();
    for &(sheet, listing) in READ {
        opened.push(Opened {
            sheet: sheet.to_vec(),
            numbers: [0, 0],
            listing: listing.to_string(),
        });
    }
    let message = "message".to_string() + &" K:-2147483648".repeat(8);
    let message = (0..8).fold(message, |text, key| text.replacen('K', &key.to_string(), 1));
    let secrets = (0..8).map(|key| format!("secret {key} -2147483648 0\n"));
    opened.push(Opened {
        sheet: longest_sheet(),
        numbers: [0, 0],
        listing: [
            "form 1 keys 8\n",
            &secrets.collect::<String>(),
            &"command 0 7 0 0 0 -2147483648\n".repeat(64),
            &(message + "\n").repeat(32),
            &format!("letters {}\n", "L".repeat(1_024)),
        ]
        .concat(),
    });
    for &(number, line, sheet) in REFUSED {
        opened.push(not_read(number, line, sheet.to_vec()));
    }
    opened.push(not_read(1, 0, b"x".repeat(16_385)));
    let head = b"sheet=1\nkeys=1\n";
    let tail = b"turns=L\n";
    let commands = [head.as_slice(), &b"do=stop\n".repeat(65), tail].concat();
    opened.push(not_read(8, 67, commands));
    let messages = [head.as_slice(), b"do=stop\n", &b"msg=\n".repeat(33), tail].concat();
    opened.push(not_read(8, 36, messages));
    let letters = [head.as_slice(), b"do=stop\nturns=", &[b'L'; 1_025], b"\n"].concat();
    opened.push(not_read(8, 4, letters));
    opened.extend(owner_records::opened());
    opened
}

pub(super) fn not_read(number: u32, line: u32, sheet: Vec<u8>) -> Opened {
    Opened {
        sheet,
        numbers: [number, line],
        listing: String::new(),
    }
}

/// Sheet, list of the numbers of its record.
pub const READ: &[(&[u8], &str)] = &[
    (
        SHEET_A,
        "form 1 keys 2\nsecret 1 300 0\ncommand 12 0 0 0 0 0\ncommand 5 0 0 1 0 0\n\
         command 7 0 0 1 0 0\ncommand 13 0 0 0 0 0\ncommand 14 0 0 0 0 0\n\
         message 0:1500 1:1480\nletters LHLHLHLHLH\n",
    ),
    (
        EVERY_WORD,
        "form 1 keys 8\nsecret 0 -2147483648 0\nsecret 7 2147483647 0\n\
         command 0 7 0 0 0 -2147483648\ncommand 1 0 7 0 0 0\ncommand 2 7 0 0 0 0\n\
         command 3 1 2 0 0 0\ncommand 4 3 4 0 0 0\ncommand 5 5 0 7 0 0\ncommand 6 6 0 0 0 0\n\
         command 7 5 0 7 0 0\ncommand 8 0 0 6 0 0\ncommand 9 2 0 0 15 0\ncommand 10 3 0 0 0 0\n\
         command 11 0 0 0 15 0\ncommand 12 0 0 0 0 0\ncommand 13 0 0 0 0 0\n\
         command 14 0 0 0 0 0\nmessage\nmessage 7:-1\n\
         message 0:0 3:2147483647 7:-2147483648\nletters H\n",
    ),
    (SMALLEST, "form 1 keys 1\ncommand 13 0 0 0 0 0\nletters L\n"),
    // A message with no entries between two others.
    (
        b"sheet=1\nkeys=3\nsecret=2:0\ndo=drop 2\nmsg=2:-5\nmsg=\nmsg=1:6\nturns=HL\n",
        "form 1 keys 3\nsecret 2 0 0\ncommand 8 0 0 2 0 0\nmessage 2:-5\nmessage\nmessage 1:6\n\
         letters HL\n",
    ),
];

/// Number, line, sheet.
pub const REFUSED: &[(u32, u32, &[u8])] = &[
    (2, 1, b""),
    (2, 6, b"sheet=1\nkeys=1\ndo=send\nturns=L\n\n\r"),
    (2, 4, b"sheet=1\nkeys=1\ndo=send\nturns=L"),
    (3, 4, b"sheet=1\nkeys=1\ndo=send\n"),
    (3, 3, b"sheet=1\nkeys=1\nturns=L\n"),
    (3, 5, b"sheet=1\nkeys=1\ndo=send\nturns=L\nturns=L\n"),
    (4, 1, b"sheet=3\nkeys=1\ndo=send\nturns=L\n"),
    (4, 2, b"sheet=1\nkeys=9\ndo=send\nturns=L\n"),
    (4, 2, b"sheet=1\nkeys=0\ndo=send\nturns=L\n"),
    (4, 3, b"sheet=1\nkeys=1\nsecret=0:1:A\ndo=send\nturns=L\n"),
    (4, 3, b"sheet=1\nkeys=1\ndo=set 8 0\nturns=L\n"),
    (4, 3, b"sheet=1\nkeys=1\ndo=jump 65\nturns=L\n"),
    (4, 4, b"sheet=1\nkeys=1\ndo=send\nmsg=1:0\nturns=L\n"),
    (
        5,
        5,
        b"sheet=1\nkeys=2\nsecret=1:0\ndo=send\nmsg=1:0,1:0\nturns=L\n",
    ),
    (
        5,
        4,
        b"sheet=1\nkeys=2\nsecret=1:0\nsecret=0:0\ndo=send\nturns=L\n",
    ),
    (6, 3, b"sheet=1\nkeys=1\ndo=stop 0\nturns=L\n"),
    (7, 4, b"sheet=1\nkeys=1\ndo=stop\ndo=jump 3\nturns=L\n"),
    (9, 4, b"sheet=1\nkeys=1\ndo=stop\nturns=\n"),
    (9, 4, b"sheet=1\nkeys=1\ndo=stop\nturns=LA\n"),
];
