//! Records of form 2 with their sheets, for Note 8 of document 02: "The writer of Note 7 takes both forms,
//! each with its own letters and limits." They stand with those of [`records`](super::records).

use super::records::{
    changed, commands, letters, longest, messages, not_read, secrets, sheet_a, smallest, Change,
    Opened,
};
use crate::record::{coded, Record, EMPTY};

/// The worked example of Note 8.
const TWO: &[u8] = b"sheet=2\nkeys=3\nsecret=1:300:A\nsecret=2:400:B\ndo=receive\ndo=read 0 1\n\
    do=read 1 2\ndo=add 0 1\ndo=put 1 0\ndo=put 2 0\ndo=send\nmsg=0:7,1:10,2:20\n\
    turns=LABLABLABLABLABLABLAB\n";

/// Its record. Everything that its counts do not cover is 0.
fn two() -> Record {
    let mut record = EMPTY;
    record.form = 2;
    record.keys = 3;
    secrets(&mut record, &[(1, 300), (2, 400)]);
    owners(&mut record, &[65, 66]);
    commands(
        &mut record,
        &[
            coded(12, 0, 0, 0, 0, 0),
            coded(5, 0, 0, 1, 0, 0),
            coded(5, 1, 0, 2, 0, 0),
            coded(1, 0, 1, 0, 0, 0),
            coded(7, 0, 0, 1, 0, 0),
            coded(7, 0, 0, 2, 0, 0),
            coded(13, 0, 0, 0, 0, 0),
        ],
    );
    messages(&mut record, &[&[(0, 7), (1, 10), (2, 20)]]);
    letters(&mut record, &b"LAB".repeat(7));
    record
}

fn owners(record: &mut Record, list: &[u32]) {
    for (secret, &owner) in record.secrets.iter_mut().zip(list) {
        secret.owner = owner;
    }
}

/// The longest record of form 1 as one of form 2.
fn longest_of_two() -> Record {
    let mut record = longest();
    record.form = 2;
    owners(&mut record, &[65, 66, 66, 65, 65, 66, 65, 66]);
    record.letters[1..].fill(b'B');
    record.letters[1_023] = b'A';
    record
}

/// 15 bytes, 8 lines of 23, 64 of 21, 32 of 116, and 1,031: 6,286.
fn longest_sheet_of_two() -> Vec<u8> {
    let least = "-2147483648";
    let secrets = "ABBAABAB".chars().enumerate();
    let secrets = secrets.map(|(key, owner)| format!("secret={key}:{least}:{owner}\n"));
    let message = "msg=0:M,1:M,2:M,3:M,4:M,5:M,6:M,7:M\n".replace('M', least);
    let sheet = [
        "sheet=2\nkeys=8\n",
        &secrets.collect::<String>(),
        &"do=set 7 -2147483648\n".repeat(64),
        &message.repeat(32),
        "turns=L",
        &"B".repeat(1_022),
        "A\n",
    ];
    sheet.concat().into_bytes()
}

pub(super) fn passing() -> Vec<(Record, Vec<u8>)> {
    let mut passing = vec![(longest_of_two(), longest_sheet_of_two())];
    for &(record, change, sheet) in PASSING {
        passing.push((changed(record(), change), sheet.to_vec()));
    }
    for &change in BEYOND_COUNTS {
        passing.push((changed(two(), change), TWO.to_vec()));
    }
    passing
}

pub(super) fn faulty() -> Vec<Record> {
    let two = FAULTS_TWO.iter().map(|&change| changed(two(), change));
    let crossed = FAULTS_A.iter().map(|&change| changed(sheet_a(), change));
    let longest = FAULTS_LONGEST.iter();
    let longest = longest.map(|&change| changed(longest_of_two(), change));
    two.chain(crossed).chain(longest).collect()
}

/// A record, a change, and the sheet then.
type Passing = (fn() -> Record, Change, &'static [u8]);

const PASSING: &[Passing] = &[
    (two, |_| {}, TWO),
    // The owners changed over, and one owner alone.
    (
        two,
        |r| owners(r, &[66, 65]),
        b"sheet=2\nkeys=3\nsecret=1:300:B\nsecret=2:400:A\ndo=receive\ndo=read 0 1\ndo=read 1 2\n\
          do=add 0 1\ndo=put 1 0\ndo=put 2 0\ndo=send\nmsg=0:7,1:10,2:20\n\
          turns=LABLABLABLABLABLABLAB\n",
    ),
    (
        two,
        |r| owners(r, &[65, 65]),
        b"sheet=2\nkeys=3\nsecret=1:300:A\nsecret=2:400:A\ndo=receive\ndo=read 0 1\ndo=read 1 2\n\
          do=add 0 1\ndo=put 1 0\ndo=put 2 0\ndo=send\nmsg=0:7,1:10,2:20\n\
          turns=LABLABLABLABLABLABLAB\n",
    ),
    // No secret, and no letter but one.
    (
        two,
        |r| {
            r.secret_count = 0;
            letters(r, b"B");
        },
        b"sheet=2\nkeys=3\ndo=receive\ndo=read 0 1\ndo=read 1 2\ndo=add 0 1\ndo=put 1 0\ndo=put 2 0\n\
          do=send\nmsg=0:7,1:10,2:20\nturns=B\n",
    ),
    // A record of form 1 with neither a secret nor a letter H is one of form 2 by its number alone, and the
    // reverse.
    (
        smallest,
        |r| r.form = 2,
        b"sheet=2\nkeys=1\ndo=send\nturns=L\n",
    ),
    (
        two,
        |r| {
            r.form = 1;
            r.secret_count = 0;
            letters(r, b"LLL");
        },
        b"sheet=1\nkeys=3\ndo=receive\ndo=read 0 1\ndo=read 1 2\ndo=add 0 1\ndo=put 1 0\ndo=put 2 0\n\
          do=send\nmsg=0:7,1:10,2:20\nturns=LLL\n",
    ),
    // Sheet A as a sheet of form 2.
    (
        sheet_a,
        |r| {
            r.form = 2;
            r.secrets[0].owner = 65;
            letters(r, b"LALALALALA");
        },
        b"sheet=2\nkeys=2\nsecret=1:300:A\ndo=receive\ndo=read 0 1\ndo=put 1 0\ndo=send\ndo=stop\n\
          msg=0:1500,1:1480\nturns=LALALALALA\n",
    ),
    // The worked example as a sheet of form 1.
    (
        two,
        |r| {
            r.form = 1;
            owners(r, &[0, 0]);
            letters(r, b"LHL");
        },
        b"sheet=1\nkeys=3\nsecret=1:300\nsecret=2:400\ndo=receive\ndo=read 0 1\ndo=read 1 2\ndo=add 0 1\n\
          do=put 1 0\ndo=put 2 0\ndo=send\nmsg=0:7,1:10,2:20\nturns=LHL\n",
    ),
];

/// What stands beyond the counts is neither tested nor written: the sheet of these is the worked example.
const BEYOND_COUNTS: &[Change] = &[
    |r| r.secrets[2].owner = 67,
    |r| r.secrets[15].owner = u32::MAX,
    |r| r.letters[21] = b'H',
    |r| r.letters[1_023] = b'H',
    |r| r.commands[7].word = 15,
];

/// The worked example's record with one fault.
const FAULTS_TWO: &[Change] = &[
    // Another form, or none.
    |r| r.form = 1,
    |r| r.form = 0,
    |r| r.form = 3,
    |r| r.form = 258,
    |r| r.form = (1 << 16) + 2,
    |r| r.form = u32::MAX,
    // An owner that is neither letter: none, the letters beside, those of turns, small ones, the places of
    // the owners, and numbers whose low bits are an owner's.
    |r| r.secrets[0].owner = 0,
    |r| r.secrets[1].owner = 0,
    |r| r.secrets[0].owner = 64,
    |r| r.secrets[1].owner = 67,
    |r| r.secrets[0].owner = 72,
    |r| r.secrets[1].owner = 76,
    |r| r.secrets[0].owner = 97,
    |r| r.secrets[1].owner = 98,
    |r| r.secrets[0].owner = 1,
    |r| r.secrets[1].owner = 2,
    |r| r.secrets[0].owner = (1 << 8) + 65,
    |r| r.secrets[1].owner = (1 << 16) + 66,
    |r| r.secrets[0].owner = (1 << 24) + 65,
    |r| r.secrets[1].owner = (1 << 31) + 66,
    |r| r.secrets[0].owner = u32::MAX,
    // A letter that is none of the three.
    |r| r.letters[0] = b'H',
    |r| r.letters[10] = b'H',
    |r| r.letters[20] = b'H',
    |r| r.letters[20] = b'@',
    |r| r.letters[20] = b'C',
    |r| r.letters[19] = b'a',
    |r| r.letters[20] = b'b',
    |r| r.letters[0] = b'l',
    |r| r.letters[1] = b'A' + 128,
    |r| r.letters[2] = 0,
    |r| letters(r, b"LHLHLH"),
    // The limits and the order are those of form 1.
    |r| r.keys = 0,
    |r| r.keys = 2,
    |r| r.keys = 9,
    |r| r.keys = 16,
    |r| r.secret_count = 3,
    |r| r.secret_count = 17,
    |r| r.secrets[1].key = 1,
    |r| r.secrets[1].key = 3,
    |r| r.secrets[0].key = 2,
    |r| r.command_count = 0,
    |r| r.command_count = 257,
    |r| r.commands[6] = coded(11, 0, 0, 0, 8, 0),
    |r| r.commands[3].w = 8,
    |r| r.commands[6].v = 1,
    |r| r.message_count = 33,
    |r| r.messages[0].entry_count = 4,
    |r| r.messages[0].entries[1].key = 0,
    |r| r.letter_count = 0,
    |r| r.letter_count = 22,
    |r| r.letter_count = 1_025,
];

/// Sheet A's record with something of form 2, but not all of it.
const FAULTS_A: &[Change] = &[
    |r| {
        r.form = 2;
        r.secrets[0].owner = 65;
    },
    |r| {
        r.form = 2;
        letters(r, b"LALALALALA");
    },
    |r| {
        r.secrets[0].owner = 65;
        letters(r, b"LALALALALA");
    },
    |r| {
        r.form = 2;
        r.secrets[0].owner = 72;
    },
    |r| r.secrets[0].owner = 72,
    |r| letters(r, b"LALALALALA"),
];

/// One more than may be, and the last of many.
const FAULTS_LONGEST: &[Change] = &[
    |r| commands(r, &[coded(0, 7, 0, 0, 0, i32::MIN); 65]),
    |r| commands(r, &[coded(0, 7, 0, 0, 0, i32::MIN); 256]),
    |r| r.keys = 9,
    |r| r.keys = 16,
    |r| r.secrets[7].owner = 0,
    |r| r.secrets[7].owner = 67,
    |r| r.letters[1_023] = b'H',
];

pub(super) fn opened() -> Vec<Opened> {
    let read = READ.iter().map(|&(sheet, listing)| Opened {
        sheet: sheet.to_vec(),
        numbers: [0, 0],
        listing: listing.to_string(),
    });
    let refused = REFUSED.iter();
    let refused = refused.map(|&(number, line, sheet)| not_read(number, line, sheet.to_vec()));
    read.chain(refused).collect()
}

/// Sheet, list of the numbers of its record.
const READ: &[(&[u8], &str)] = &[
    (
        TWO,
        "form 2 keys 3\nsecret 1 300 65\nsecret 2 400 66\ncommand 12 0 0 0 0 0\ncommand 5 0 0 1 0 0\n\
         command 5 1 0 2 0 0\ncommand 1 0 1 0 0 0\ncommand 7 0 0 1 0 0\ncommand 7 0 0 2 0 0\n\
         command 13 0 0 0 0 0\nmessage 0:7 1:10 2:20\nletters LABLABLABLABLABLABLAB\n",
    ),
    (
        b"sheet=2\nkeys=1\ndo=send\nturns=L\n",
        "form 2 keys 1\ncommand 13 0 0 0 0 0\nletters L\n",
    ),
    (
        b"sheet=2\nkeys=2\nsecret=0:-1:B\ndo=stop\nmsg=\nturns=BA\n",
        "form 2 keys 2\nsecret 0 -1 66\ncommand 14 0 0 0 0 0\nmessage\nletters BA\n",
    ),
];

/// Number, line, sheet.
const REFUSED: &[(u32, u32, &[u8])] = &[
    (46, 3, b"sheet=2\nkeys=1\nsecret=0:1:C\ndo=send\nturns=L\n"),
    (46, 3, b"sheet=2\nkeys=1\nsecret=0:1:\ndo=send\nturns=L\n"),
    (46, 3, b"sheet=2\nkeys=1\nsecret=0:1:A:\ndo=send\nturns=L\n"),
    (4, 3, b"sheet=2\nkeys=1\nsecret=0:1\ndo=send\nturns=L\n"),
    (4, 3, b"sheet=2\nkeys=1\nsecret=0:x:C\ndo=send\nturns=L\n"),
    (
        5,
        4,
        b"sheet=2\nkeys=1\nsecret=0:1:A\nsecret=0:1:C\ndo=send\nturns=L\n",
    ),
    (4, 2, b"sheet=2\nkeys=9\ndo=send\nturns=L\n"),
    (9, 4, b"sheet=2\nkeys=1\ndo=send\nturns=H\n"),
    (9, 4, b"sheet=2\nkeys=1\ndo=send\nturns=\n"),
    (4, 3, b"sheet=1\nkeys=1\nsecret=0:1:B\ndo=send\nturns=L\n"),
    (9, 4, b"sheet=1\nkeys=1\ndo=send\nturns=B\n"),
];
