//! Hand-written sheets, each with the text that document 01 demands, or document 02 where it says
//! otherwise. Nothing here was computed by the model: the expected texts were worked out from the
//! documents.

pub mod blocks;
pub mod bytes;
pub mod calls;
pub mod clamps;
pub mod forms;
pub mod honest;
pub mod log;
mod owner_records;
pub mod owners;
pub mod records;

use crate::model::{end_line, Form, LENT};
use calls::{CALLS, LONG_CALLS};
use clamps::{CLAMPS, ENDS, LONG_CLAMPS, REFUSED_CLAMPS};
use honest::{HONEST, LONG_HONEST, LUCKY, SHORT, SPOILT};
use owners::{LONG_OWNERS, OWNERS, REFUSED_OWNERS, REFUSED_OWNER_BODIES};

/// A sheet, the bytes lent to it, and what `runsheet` would print with that many bytes lent.
#[derive(Debug, Clone, PartialEq, Eq)]
pub struct Corner {
    pub lent: usize,
    pub sheet: Vec<u8>,
    pub printed: Vec<u8>,
}

/// Every corner of the tables below, in their order.
pub fn corners() -> Vec<Corner> {
    let mut corners = Vec::new();
    for run in EXAMPLES.iter().chain(RUNS).chain(CALLS).chain(CLAMPS) {
        corners.push(corner_of(run));
    }
    for &(v, word, w, result, clamped) in ARITHMETIC.iter().chain(ENDS) {
        let sheet = arithmetic_sheet(v, word, w);
        let printed = format!("sent=0004 {result}\nend=0 0 5 5 22 0 {clamped}\n");
        corners.push(corner(LENT, sheet.as_bytes(), printed.as_bytes()));
    }
    for &(number, line, sheet) in REFUSED.iter().chain(REFUSED_CLAMPS) {
        corners.push(refused(number, line, sheet));
    }
    for &(number, line, body) in REFUSED_BODIES {
        let sheet = format!("sheet=1\nkeys=2\n{body}");
        corners.push(refused(number, line, sheet.as_bytes()));
    }
    for long in LONG.iter().chain(LONG_CALLS).chain(LONG_CLAMPS) {
        corners.push(long_corner(long));
    }
    corners.extend(honest_corners());
    corners.extend(owner_corners());
    corners
}

/// Those whose sheets begin with the number of this form.
pub fn corners_by(form: Form) -> Vec<Corner> {
    let first_line = format!("sheet={}\n", form.number());
    let mut corners = corners();
    corners.retain(|corner| corner.sheet.starts_with(first_line.as_bytes()));
    corners
}

/// The corners of Note 8.
pub fn owner_corners() -> Vec<Corner> {
    let runs = OWNERS.iter().map(corner_of);
    let whole = REFUSED_OWNERS.iter();
    let whole = whole.map(|&(number, line, sheet)| refused(number, line, sheet));
    let bodies = REFUSED_OWNER_BODIES.iter().map(|&(number, line, body)| {
        let sheet = format!("sheet=2\nkeys=2\n{body}");
        refused(number, line, sheet.as_bytes())
    });
    let long = LONG_OWNERS.iter().map(long_corner);
    runs.chain(whole).chain(bodies).chain(long).collect()
}

/// The corners of Note 4: what the monitor prints for honest programs and for others.
pub fn honest_corners() -> Vec<Corner> {
    let spoilt = SPOILT.iter().chain(SHORT).map(|(run, _)| run);
    let runs = HONEST.iter().chain(spoilt).chain([&LUCKY]);
    let long = LONG_HONEST.iter().map(long_corner);
    runs.map(corner_of).chain(long).collect()
}

pub fn corner_of(&(lent, sheet, printed): &Run) -> Corner {
    corner(lent, sheet.as_bytes(), printed.as_bytes())
}

pub fn long_corner(&(pieces, printed): &Long) -> Corner {
    let pieces = pieces.iter().map(|(text, count)| text.repeat(*count));
    let sheet: Vec<u8> = pieces.flatten().collect();
    corner(LENT, &sheet, printed.as_bytes())
}

fn corner(lent: usize, sheet: &[u8], printed: &[u8]) -> Corner {
    Corner {
        lent,
        sheet: sheet.to_vec(),
        printed: printed.to_vec(),
    }
}

/// "Output memory is untouched and the four counts are 0." So is Note 3's seventh number.
fn refused(number: u32, line: u32, sheet: &[u8]) -> Corner {
    corner(LENT, sheet, &end_line([number, line, 0, 0, 0, 0, 0]))
}

/// A sheet that sends the result of one operation.
fn arithmetic_sheet(v: i32, word: &str, w: i32) -> String {
    format!(
        "sheet=1\nkeys=1\ndo=set 0 {v}\ndo=set 1 {w}\ndo={word} 0 1\ndo=put 0 0\ndo=send\n\
         turns=LLLLL\n"
    )
}

/// Bytes lent, sheet, text.
pub type Run = (usize, &'static str, &'static str);

/// The examples of document 01 that are whole sheets. The rest are in the tables after it: P9 and
/// P10 in [`ARITHMETIC`], P11 in [`REFUSED`], the 64 and 65 commands in [`LONG`]. Note 3: "the answers
/// in P1 to P8 and P11 gain a 0".
pub const EXAMPLES: &[Run] = &[
    // P1: sheet A.
    (
        32_768,
        "sheet=1\nkeys=2\nsecret=1:300\ndo=receive\ndo=read 0 1\ndo=put 1 0\ndo=send\ndo=stop\n\
         msg=0:1500,1:1480\nturns=LHLHLHLHLH\n",
        "sent=0006 +0000001500 +0000001480\nend=0 0 9 5 34 1 0\n",
    ),
    // P2: entry `1:-7`.
    (
        32_768,
        "sheet=1\nkeys=2\nsecret=1:300\ndo=receive\ndo=read 0 1\ndo=put 1 0\ndo=send\ndo=stop\n\
         msg=0:1500,1:-7\nturns=LHLHLHLHLH\n",
        "sent=0006 +0000001500 -0000000007\nend=0 0 9 5 34 1 0\n",
    ),
    // P3: `msg=0:1500`.
    (
        32_768,
        "sheet=1\nkeys=2\nsecret=1:300\ndo=receive\ndo=read 0 1\ndo=put 1 0\ndo=send\ndo=stop\n\
         msg=0:1500\nturns=LHLHLHLHLH\n",
        "sent=0006 +0000001500 +0000000000\nend=0 0 9 5 34 1 0\n",
    ),
    // P4: `turns=LHLH`.
    (
        32_768,
        "sheet=1\nkeys=2\nsecret=1:300\ndo=receive\ndo=read 0 1\ndo=put 1 0\ndo=send\ndo=stop\n\
         msg=0:1500,1:1480\nturns=LHLH\n",
        "end=31 0 4 2 0 1 0\n",
    ),
    // P5: `turns=LLLLL`.
    (
        32_768,
        "sheet=1\nkeys=2\nsecret=1:300\ndo=receive\ndo=read 0 1\ndo=put 1 0\ndo=send\ndo=stop\n\
         msg=0:1500,1:1480\nturns=LLLLL\n",
        "sent=0003 +0000001500 +0000001480\nend=0 0 5 5 34 1 0\n",
    ),
    // P6: `turns=H`.
    (
        32_768,
        "sheet=1\nkeys=2\nsecret=1:300\ndo=receive\ndo=read 0 1\ndo=put 1 0\ndo=send\ndo=stop\n\
         msg=0:1500,1:1480\nturns=H\n",
        "end=31 0 1 0 0 0 0\n",
    ),
    // P7: with 33 bytes lent, and with 34.
    (
        33,
        "sheet=1\nkeys=2\nsecret=1:300\ndo=receive\ndo=read 0 1\ndo=put 1 0\ndo=send\ndo=stop\n\
         msg=0:1500,1:1480\nturns=LHLHLHLHLH\n",
        "end=32 0 6 3 0 1 0\n",
    ),
    (
        34,
        "sheet=1\nkeys=2\nsecret=1:300\ndo=receive\ndo=read 0 1\ndo=put 1 0\ndo=send\ndo=stop\n\
         msg=0:1500,1:1480\nturns=LHLHLHLHLH\n",
        "sent=0006 +0000001500 +0000001480\nend=0 0 9 5 34 1 0\n",
    ),
    // P8: the high execution does not send.
    (
        32_768,
        "sheet=1\nkeys=1\nsecret=0:0\ndo=receive\ndo=read 0 0\ndo=ifzero 0 4\ndo=send\ndo=stop\n\
         msg=0:9\nturns=LHLHLHLH\n",
        "end=0 0 7 4 0 1 0\n",
    ),
    // Others: `jump 5` in A for `stop`, and `jump 6`.
    (
        32_768,
        "sheet=1\nkeys=2\nsecret=1:300\ndo=receive\ndo=read 0 1\ndo=put 1 0\ndo=send\ndo=jump 5\n\
         msg=0:1500,1:1480\nturns=LHLHLHLHLH\n",
        "sent=0006 +0000001500 +0000001480\nend=0 0 9 5 34 1 0\n",
    ),
    (
        32_768,
        "sheet=1\nkeys=2\nsecret=1:300\ndo=receive\ndo=read 0 1\ndo=put 1 0\ndo=send\ndo=jump 6\n\
         msg=0:1500,1:1480\nturns=LHLHLHLHLH\n",
        "end=7 8 0 0 0 0 0\n",
    ),
    // Others: `msg=1:4,1:5` and `msg=0:-0`.
    (
        32_768,
        "sheet=1\nkeys=2\nsecret=1:300\ndo=receive\ndo=read 0 1\ndo=put 1 0\ndo=send\ndo=stop\n\
         msg=1:4,1:5\nturns=LHLHLHLHLH\n",
        "end=5 9 0 0 0 0 0\n",
    ),
    (
        32_768,
        "sheet=1\nkeys=2\nsecret=1:300\ndo=receive\ndo=read 0 1\ndo=put 1 0\ndo=send\ndo=stop\n\
         msg=0:-0\nturns=LHLHLHLHLH\n",
        "end=4 9 0 0 0 0 0\n",
    ),
];

/// Accepted sheets whose runs turn on one sentence each.
pub const RUNS: &[Run] = &[
    // Endings 0, 31 and 32, "tested in that order".
    (
        0,
        "sheet=1\nkeys=1\ndo=stop\nturns=L\n",
        "end=0 0 1 1 0 0 0\n",
    ),
    (
        0,
        "sheet=1\nkeys=1\ndo=stop\nturns=HL\n",
        "end=0 0 2 1 0 0 0\n",
    ),
    (
        0,
        "sheet=1\nkeys=1\ndo=stop\nturns=HHH\n",
        "end=31 0 3 0 0 0 0\n",
    ),
    (
        0,
        "sheet=1\nkeys=1\ndo=jump 1\nturns=L\n",
        "end=0 0 1 1 0 0 0\n",
    ),
    (
        0,
        "sheet=1\nkeys=1\ndo=stop\ndo=send\nturns=LL\n",
        "end=0 0 1 1 0 0 0\n",
    ),
    (
        0,
        "sheet=1\nkeys=1\ndo=jump 0\nturns=LHL\n",
        "end=31 0 3 2 0 0 0\n",
    ),
    // All letters are used, so 31 comes before 32.
    (
        0,
        "sheet=1\nkeys=1\ndo=send\nturns=H\n",
        "end=31 0 1 0 0 0 0\n",
    ),
    // "a letter L is next": letters H before it are still taken.
    (
        21,
        "sheet=1\nkeys=1\ndo=send\nturns=HHL\n",
        "end=32 0 2 0 0 0 0\n",
    ),
    (
        33,
        "sheet=1\nkeys=2\ndo=send\nturns=L\n",
        "end=32 0 0 0 0 0 0\n",
    ),
    (
        34,
        "sheet=1\nkeys=2\ndo=send\nturns=L\n",
        "sent=0000 ........... ...........\nend=0 0 1 1 34 0 0\n",
    ),
    // "The message is unchanged by it." "Lines sent earlier stand".
    (
        44,
        "sheet=1\nkeys=1\ndo=receive\ndo=send\ndo=send\nmsg=0:5\nturns=LLL\n",
        "sent=0001 +0000000005\nsent=0002 +0000000005\nend=0 0 3 3 44 1 0\n",
    ),
    (
        43,
        "sheet=1\nkeys=1\ndo=receive\ndo=send\ndo=send\nmsg=0:5\nturns=LLL\n",
        "sent=0001 +0000000005\nend=32 0 2 2 22 1 0\n",
    ),
    // "With no line left, every field becomes absent", and no line is counted.
    (
        34,
        "sheet=1\nkeys=2\nsecret=1:7\ndo=receive\ndo=receive\ndo=has 0 1\ndo=put 0 0\ndo=send\n\
         msg=0:1,1:2\nturns=LLLLL\n",
        "sent=0004 +0000000000 ...........\nend=0 0 5 5 34 1 0\n",
    ),
    // "the low field is the dummy, whether or not the line has that key".
    (
        34,
        "sheet=1\nkeys=2\nsecret=1:7\ndo=receive\ndo=read 0 1\ndo=has 1 1\ndo=add 0 1\n\
         do=put 0 0\ndo=send\nmsg=\nturns=LLLLLL\n",
        "sent=0005 +0000000008 ...........\nend=0 0 6 6 34 1 0\n",
    ),
    // "All fields are absent at first."
    (
        34,
        "sheet=1\nkeys=2\nsecret=1:7\ndo=has 0 1\ndo=put 0 0\ndo=send\nturns=LLL\n",
        "sent=0002 +0000000000 ...........\nend=0 0 3 3 34 0 0\n",
    ),
    // A low `put` at a secret key is not sent.
    (
        22,
        "sheet=1\nkeys=1\nsecret=0:7\ndo=set 0 5\ndo=put 0 0\ndo=send\nturns=LLL\n",
        "sent=0002 ...........\nend=0 0 3 3 22 0 0\n",
    ),
    // A high `put` at an open key is not sent, at a secret key it is.
    (
        34,
        "sheet=1\nkeys=2\nsecret=1:0\ndo=receive\ndo=read 0 1\ndo=ifzero 0 5\ndo=put 0 0\n\
         do=put 1 0\ndo=send\nmsg=0:1,1:9\nturns=LHHHHHLLL\n",
        "sent=0008 +0000000001 +0000000009\nend=0 0 9 4 34 1 0\n",
    ),
    // A low `put` at an open key is not read by the high execution.
    (
        34,
        "sheet=1\nkeys=2\nsecret=1:0\ndo=receive\ndo=read 1 0\ndo=put 1 1\ndo=set 0 5\n\
         do=put 0 0\ndo=send\nmsg=0:1,1:2\nturns=LLLLLHHHL\n",
        "sent=0008 +0000000005 +0000000001\nend=0 0 9 6 34 1 0\n",
    ),
    // `drop` at a secret key: by the high execution, and by the low one alone.
    (
        22,
        "sheet=1\nkeys=1\nsecret=0:7\ndo=receive\ndo=drop 0\ndo=send\nmsg=0:3\nturns=LHHLL\n",
        "sent=0004 ...........\nend=0 0 5 3 22 1 0\n",
    ),
    (
        22,
        "sheet=1\nkeys=1\nsecret=0:7\ndo=receive\ndo=drop 0\ndo=send\nmsg=0:3\nturns=LLL\n",
        "sent=0002 +0000000003\nend=0 0 3 3 22 1 0\n",
    ),
    // A `receive` with no line left is a call.
    (
        22,
        "sheet=1\nkeys=1\nsecret=0:0\ndo=receive\ndo=set 0 3\ndo=put 0 0\ndo=send\n\
         turns=LHHHLLL\n",
        "sent=0006 +0000000003\nend=0 0 7 4 22 0 0\n",
    ),
    // A low `receive` fills the high fields too, also where the line lacks the key.
    (
        22,
        "sheet=1\nkeys=1\nsecret=0:0\ndo=set 0 3\ndo=put 0 0\ndo=receive\ndo=send\nmsg=0:1\n\
         turns=HHLLLL\n",
        "sent=0005 +0000000001\nend=0 0 6 4 22 1 0\n",
    ),
    (
        22,
        "sheet=1\nkeys=1\nsecret=0:0\ndo=set 0 3\ndo=put 0 0\ndo=receive\ndo=send\nmsg=\n\
         turns=HHLLLL\n",
        "sent=0005 ...........\nend=0 0 6 4 22 1 0\n",
    ),
    // The high execution takes no message line of its own.
    (
        22,
        "sheet=1\nkeys=1\nsecret=0:0\ndo=receive\ndo=send\nmsg=0:1\nmsg=0:2\nturns=HLHL\n",
        "sent=0003 +0000000001\nend=0 0 4 2 22 1 0\n",
    ),
    // "A stopped high execution also idles." "A high execution never ends a run."
    (
        0,
        "sheet=1\nkeys=1\ndo=stop\nturns=HHL\n",
        "end=0 0 3 1 0 0 0\n",
    ),
    (
        0,
        "sheet=1\nkeys=1\nsecret=0:0\ndo=receive\ndo=read 0 0\ndo=ifneg 0 2\nmsg=0:-1\n\
         turns=LHHHHHLL\n",
        "end=0 0 8 3 0 1 0\n",
    ),
    // `ifneg` and `ifzero` at 0, and a target that is the end.
    (
        0,
        "sheet=1\nkeys=1\ndo=ifneg 0 0\nturns=L\n",
        "end=0 0 1 1 0 0 0\n",
    ),
    (
        0,
        "sheet=1\nkeys=1\ndo=ifzero 0 0\nturns=L\n",
        "end=31 0 1 1 0 0 0\n",
    ),
    (
        0,
        "sheet=1\nkeys=1\ndo=ifzero 7 2\ndo=jump 0\nturns=LL\n",
        "end=0 0 1 1 0 0 0\n",
    ),
    // More messages than are taken.
    (
        0,
        "sheet=1\nkeys=1\ndo=receive\nmsg=\nmsg=\nturns=LL\n",
        "end=0 0 1 1 0 1 0\n",
    ),
    // `drop` and `has`; `read` of an absent entry.
    (
        22,
        "sheet=1\nkeys=1\ndo=receive\ndo=drop 0\ndo=has 0 0\ndo=put 0 0\ndo=send\nmsg=0:5\n\
         turns=LLLLL\n",
        "sent=0004 +0000000000\nend=0 0 5 5 22 1 0\n",
    ),
    (
        22,
        "sheet=1\nkeys=1\ndo=set 0 9\ndo=read 0 0\ndo=put 0 0\ndo=send\nturns=LLLL\n",
        "sent=0003 +0000000000\nend=0 0 4 4 22 0 0\n",
    ),
    // `has` of an entry that is present and 0.
    (
        22,
        "sheet=1\nkeys=1\ndo=receive\ndo=has 0 0\ndo=put 0 0\ndo=send\nmsg=0:0\nturns=LLLL\n",
        "sent=0003 +0000000001\nend=0 0 4 4 22 1 0\n",
    ),
    // One variable as both parts of an operation.
    (
        22,
        "sheet=1\nkeys=1\ndo=set 3 -5\ndo=mul 3 3\ndo=put 0 3\ndo=send\nturns=LLLL\n",
        "sent=0003 +0000000025\nend=0 0 4 4 22 0 0\n",
    ),
    // The ends of the range, and all eight columns.
    (
        34,
        "sheet=1\nkeys=2\nsecret=0:-2147483648\nsecret=1:2147483647\ndo=receive\ndo=send\n\
         msg=0:-2147483648,1:2147483647\nturns=LL\n",
        "sent=0001 -2147483648 +2147483647\nend=0 0 2 2 34 1 0\n",
    ),
    (
        106,
        "sheet=1\nkeys=8\ndo=receive\ndo=send\nmsg=0:0,7:-1\nturns=LL\n",
        "sent=0001 +0000000000 ........... ........... ........... ........... ........... \
         ........... -0000000001\nend=0 0 2 2 106 1 0\n",
    ),
    (
        105,
        "sheet=1\nkeys=8\ndo=receive\ndo=send\nmsg=0:0,7:-1\nturns=LL\n",
        "end=32 0 1 1 0 1 0\n",
    ),
];

/// v, the word, w, the column of the result, and the seventh number: 1 if the exact result lies
/// outside the range.
pub type Arithmetic = (i32, &'static str, i32, &'static str, u32);

pub const ARITHMETIC: &[Arithmetic] = &[
    // P9.
    (7, "div", -2, "-0000000003", 0),
    (-7, "div", 2, "-0000000003", 0),
    (5, "div", 0, "+0000000000", 0),
    (-2147483648, "div", -1, "+2147483647", 1),
    // P10.
    (2147483647, "add", 1, "+2147483647", 1),
    // Beside them.
    (7, "div", 2, "+0000000003", 0),
    (-7, "div", -2, "+0000000003", 0),
    (-1, "div", 2, "+0000000000", 0),
    (0, "div", 0, "+0000000000", 0),
    (-2147483648, "div", 0, "+0000000000", 0),
    (-2147483648, "div", 1, "-2147483648", 0),
    (-2147483648, "div", 2147483647, "-0000000001", 0),
    (2147483647, "div", -2147483648, "+0000000000", 0),
    (-2147483648, "add", -1, "-2147483648", 1),
    (-2147483648, "add", -2147483648, "-2147483648", 1),
    (-2147483648, "add", 2147483647, "-0000000001", 0),
    (0, "sub", -2147483648, "+2147483647", 1),
    (-1, "sub", -2147483648, "+2147483647", 0),
    (-2147483648, "sub", 1, "-2147483648", 1),
    (-2, "sub", 2147483647, "-2147483648", 1),
    (5, "sub", 7, "-0000000002", 0),
    (-2147483648, "mul", -1, "+2147483647", 1),
    (-2147483648, "mul", -2147483648, "+2147483647", 1),
    (-2147483648, "mul", 2147483647, "-2147483648", 1),
    (46341, "mul", 46341, "+2147483647", 1),
    (46340, "mul", 46340, "+2147395600", 0),
    (65536, "mul", -32768, "-2147483648", 0),
    (65536, "mul", -32769, "-2147483648", 1),
    (-3, "mul", 0, "+0000000000", 0),
];

/// Refusal number, line, sheet.
pub type Refused = (u32, u32, &'static [u8]);

pub const REFUSED: &[Refused] = &[
    // 2. The first is P11.
    (2, 1, b""),
    (2, 1, b" "),
    (2, 1, b"~"),
    (2, 1, b"\x00"),
    (2, 1, b"\r\n"),
    (2, 1, b"sheet=1"),
    (2, 2, b"sheet=1\nkeys=1"),
    (2, 4, b"sheet=1\nkeys=1\ndo=stop\nturns=L"),
    (2, 5, b"sheet=1\nkeys=1\ndo=stop\nturns=L\n "),
    (2, 5, b"sheet=1\nkeys=1\ndo=stop\nturns=L\n\t"),
    (2, 4, b"sheet=1\nkeys=1\ndo=stop\nturns=L\xff\n"),
    (2, 3, b"sheet=1\nkeys=1\ndo=stop\x1f\nturns=L\x7f\n"),
    // A forbidden byte comes before an open end, and both before every fault of a line.
    (2, 1, b"\x7f\n\nkeys"),
    (2, 3, b"\n\n\x80"),
    (2, 4, b"sheet=3\nkeys=1\ndo=stop\nturns=L"),
    (2, 4, b"sheet=3\n\n\n\x1f\n"),
    // 3 in the first two lines.
    (3, 1, b"\n"),
    (3, 1, b"sheet\n"),
    (3, 1, b"sheet1\n"),
    (3, 1, b"=1\n"),
    (3, 1, b"Sheet=1\n"),
    (3, 1, b" sheet=1\n"),
    (3, 1, b"sheet =1\n"),
    (3, 1, b"keys=1\n"),
    (3, 2, b"sheet=1\n"),
    (3, 2, b"sheet=1\n\n"),
    (3, 2, b"sheet=1\nsheet=1\n"),
    (3, 2, b"sheet=1\ndo=stop\nturns=L\n"),
    (3, 3, b"sheet=1\nkeys=1\n"),
    (3, 3, b"sheet=1\nkeys=1\nkeys=1\n"),
    // 4 in the first two lines.
    (4, 1, b"sheet=\n"),
    (4, 1, b"sheet=0\n"),
    (4, 1, b"sheet=3\n"),
    (4, 1, b"sheet=01\n"),
    (4, 1, b"sheet=-1\n"),
    (4, 1, b"sheet=+1\n"),
    (4, 1, b"sheet=11\n"),
    (4, 1, b"sheet=1 \n"),
    (4, 1, b"sheet==1\n"),
    (4, 1, b"sheet=1=1\n"),
    (4, 1, b"sheet=3\nno name\n"),
    (4, 2, b"sheet=1\nkeys=\n"),
    (4, 2, b"sheet=1\nkeys=0\n"),
    (4, 2, b"sheet=1\nkeys=9\n"),
    (4, 2, b"sheet=1\nkeys=-1\n"),
    (4, 2, b"sheet=1\nkeys=01\n"),
    (4, 2, b"sheet=1\nkeys=10\n"),
    (4, 2, b"sheet=1\nkeys= 1\n"),
    (4, 2, b"sheet=1\nkeys=18446744073709551617\n"),
];

/// Refusal number, line, and the sheet from its third line on; the first two are `sheet=1` and
/// `keys=2`.
pub const REFUSED_BODIES: &[(u32, u32, &str)] = &[
    // 3: names that may not stand here.
    (3, 3, "turns=L\n"),
    (3, 3, "msg=\nturns=L\n"),
    (3, 3, "\ndo=stop\nturns=L\n"),
    (3, 3, "DO=stop\nturns=L\n"),
    (3, 3, "do stop\nturns=L\n"),
    (3, 3, "do:stop\nturns=L\n"),
    (3, 4, "secret=0:0\nturns=L\n"),
    (3, 4, "secret=0:0\nmsg=\nturns=L\n"),
    (3, 4, "secret=0:0\nkeys=1\ndo=stop\nturns=L\n"),
    (3, 4, "do=stop\nsecret=0:0\nturns=L\n"),
    (3, 4, "do=stop\nturns\n"),
    (3, 4, "do=stop\nturnsL=L\n"),
    (3, 5, "do=stop\nmsg=\ndo=stop\nturns=L\n"),
    (3, 5, "do=stop\nmsg=\nsecret=0:0\nturns=L\n"),
    // 3: "Nothing follows."
    (3, 5, "do=stop\nturns=L\n\n"),
    (3, 5, "do=stop\nturns=L\nturns=L\n"),
    (3, 5, "do=stop\nturns=L\nmsg=\n"),
    (3, 5, "do=stop\nturns=L\ndo=stop\n\n"),
    // 3: "an early end of the sheet names the line after the last", before 7.
    (3, 4, "secret=0:0\n"),
    (3, 4, "do=stop\n"),
    (3, 5, "do=stop\nmsg=\n"),
    (3, 4, "do=jump 9\n"),
    (3, 5, "do=jump 9\nturns=L\n\n"),
    // 4 in a secret.
    (4, 3, "secret=\ndo=stop\nturns=L\n"),
    (4, 3, "secret=0\ndo=stop\nturns=L\n"),
    (4, 3, "secret=:0\ndo=stop\nturns=L\n"),
    (4, 3, "secret=0:\ndo=stop\nturns=L\n"),
    (4, 3, "secret=2:0\ndo=stop\nturns=L\n"),
    (4, 3, "secret=-1:0\ndo=stop\nturns=L\n"),
    (4, 3, "secret=00:1\ndo=stop\nturns=L\n"),
    (4, 3, "secret=0:-0\ndo=stop\nturns=L\n"),
    (4, 3, "secret=0:+1\ndo=stop\nturns=L\n"),
    (4, 3, "secret=0:1:2\ndo=stop\nturns=L\n"),
    (4, 3, "secret=0:1,1:2\ndo=stop\nturns=L\n"),
    (4, 3, "secret=0:2147483648\ndo=stop\nturns=L\n"),
    (4, 3, "secret=0:-2147483649\ndo=stop\nturns=L\n"),
    // 4 in a command.
    (4, 3, "do=set 8 0\nturns=L\n"),
    (4, 3, "do=set -1 0\nturns=L\n"),
    (4, 3, "do=set -0 0\nturns=L\n"),
    (4, 3, "do=set 0 2147483648\nturns=L\n"),
    (4, 3, "do=set 0 -2147483649\nturns=L\n"),
    (4, 3, "do=set 0 -\nturns=L\n"),
    (4, 3, "do=set 0 --1\nturns=L\n"),
    (4, 3, "do=set 0 1-\nturns=L\n"),
    (4, 3, "do=set 0 00\nturns=L\n"),
    (4, 3, "do=set 0 99999999999999999999999999\nturns=L\n"),
    (4, 3, "do=add 0 8\nturns=L\n"),
    (4, 3, "do=sub 8 0\nturns=L\n"),
    (4, 3, "do=mul 0 x\nturns=L\n"),
    (4, 3, "do=div 0 +1\nturns=L\n"),
    (4, 3, "do=read 0 2\nturns=L\n"),
    (4, 3, "do=has 8 0\nturns=L\n"),
    (4, 3, "do=put 2 0\nturns=L\n"),
    (4, 3, "do=put 0 8\nturns=L\n"),
    (4, 3, "do=drop 2\nturns=L\n"),
    (4, 3, "do=ifneg 8 0\nturns=L\n"),
    (4, 3, "do=ifneg 0 65\nturns=L\n"),
    (4, 3, "do=ifzero 0 -1\nturns=L\n"),
    (4, 3, "do=jump 65\nturns=L\n"),
    (4, 3, "do=jump 01\nturns=L\n"),
    (4, 3, "do=jump 18446744073709551616\nturns=L\n"),
    // 4 in a message.
    (4, 4, "do=stop\nmsg=,\nturns=L\n"),
    (4, 4, "do=stop\nmsg= \nturns=L\n"),
    (4, 4, "do=stop\nmsg=:\nturns=L\n"),
    (4, 4, "do=stop\nmsg=0\nturns=L\n"),
    (4, 4, "do=stop\nmsg=0:\nturns=L\n"),
    (4, 4, "do=stop\nmsg=:1\nturns=L\n"),
    (4, 4, "do=stop\nmsg=0:1,\nturns=L\n"),
    (4, 4, "do=stop\nmsg=,0:1\nturns=L\n"),
    (4, 4, "do=stop\nmsg=0:1,,1:1\nturns=L\n"),
    (4, 4, "do=stop\nmsg=0:1:2\nturns=L\n"),
    (4, 4, "do=stop\nmsg=0=1\nturns=L\n"),
    (4, 4, "do=stop\nmsg=0:1 \nturns=L\n"),
    (4, 4, "do=stop\nmsg= 0:1\nturns=L\n"),
    (4, 4, "do=stop\nmsg=0:1, 1:1\nturns=L\n"),
    (4, 4, "do=stop\nmsg=0:1;1:1\nturns=L\n"),
    (4, 4, "do=stop\nmsg=0:01\nturns=L\n"),
    (4, 4, "do=stop\nmsg=2:1\nturns=L\n"),
    (4, 4, "do=stop\nmsg=0:2147483648\nturns=L\n"),
    // 5, and its place between key and value.
    (5, 4, "do=stop\nmsg=1:4,1:5\nturns=L\n"),
    (5, 4, "do=stop\nmsg=1:4,0:5\nturns=L\n"),
    (5, 4, "do=stop\nmsg=1:4,1:x\nturns=L\n"),
    (5, 4, "do=stop\nmsg=1:4,0:\nturns=L\n"),
    (5, 4, "do=stop\nmsg=1:4,0:5,x\nturns=L\n"),
    (5, 4, "do=stop\nmsg=1:4,0:5:6\nturns=L\n"),
    (4, 4, "do=stop\nmsg=1:x,1:5\nturns=L\n"),
    (4, 4, "do=stop\nmsg=1:4,01:5\nturns=L\n"),
    (4, 4, "do=stop\nmsg=1:4,1\nturns=L\n"),
    (4, 4, "do=stop\nmsg=1:4,2:5\nturns=L\n"),
    (5, 5, "do=stop\nmsg=1:4\nmsg=0:4,0:4\nturns=L\n"),
    (5, 4, "secret=0:1\nsecret=0:2\ndo=stop\nturns=L\n"),
    (5, 4, "secret=1:1\nsecret=0:x\ndo=stop\nturns=L\n"),
    (5, 4, "secret=1:1\nsecret=0:5:6\ndo=stop\nturns=L\n"),
    (4, 4, "secret=1:1\nsecret=2:0\ndo=stop\nturns=L\n"),
    (4, 4, "secret=1:1\nsecret=0\ndo=stop\nturns=L\n"),
    (
        5,
        5,
        "secret=0:1\nsecret=1:2\nsecret=1:3\ndo=stop\nturns=L\n",
    ),
    // 6: "every space splits".
    (6, 3, "do=\nturns=L\n"),
    (6, 3, "do= \nturns=L\n"),
    (6, 3, "do=Stop\nturns=L\n"),
    (6, 3, "do=sto\nturns=L\n"),
    (6, 3, "do=stops\nturns=L\n"),
    (6, 3, "do=stop \nturns=L\n"),
    (6, 3, "do= stop\nturns=L\n"),
    (6, 3, "do=do=stop\nturns=L\n"),
    (6, 3, "do=set=0 1\nturns=L\n"),
    (6, 3, "do=set\nturns=L\n"),
    (6, 3, "do=set 0\nturns=L\n"),
    (6, 3, "do=set 0 1 2\nturns=L\n"),
    (6, 3, "do=set  0 1\nturns=L\n"),
    (6, 3, "do=set 0 1 \nturns=L\n"),
    (6, 3, "do=drop\nturns=L\n"),
    (6, 3, "do=drop 0 0\nturns=L\n"),
    (6, 3, "do=jump\nturns=L\n"),
    (6, 3, "do=receive 0\nturns=L\n"),
    (6, 3, "do=send \nturns=L\n"),
    // 6 before 4, and parts that are there but empty.
    (6, 3, "do=set 9 9 9\nturns=L\n"),
    (6, 3, "do=halt 99\nturns=L\n"),
    (4, 3, "do=set  0\nturns=L\n"),
    (4, 3, "do=set 0 \nturns=L\n"),
    (4, 3, "do=jump \nturns=L\n"),
    (4, 3, "do=drop \nturns=L\n"),
    // 7: "last, for the first such line, once every line has passed".
    (7, 3, "do=jump 2\nturns=L\n"),
    (7, 3, "do=jump 64\nturns=L\n"),
    (7, 3, "do=jump 3\ndo=jump 64\nturns=L\n"),
    (7, 4, "do=jump 2\ndo=ifneg 0 3\nturns=L\n"),
    (7, 5, "do=stop\ndo=ifneg 0 3\ndo=ifzero 7 4\nturns=L\n"),
    (9, 4, "do=jump 9\nturns=\n"),
    (4, 4, "do=jump 9\nmsg=x\nturns=L\n"),
    (6, 4, "do=jump 9\ndo=x\nturns=L\n"),
    // 9, before a line after it.
    (9, 4, "do=stop\nturns=\n"),
    (9, 4, "do=stop\nturns=l\n"),
    (9, 4, "do=stop\nturns= L\n"),
    (9, 4, "do=stop\nturns=L \n"),
    (9, 4, "do=stop\nturns=LHX\n"),
    (9, 4, "do=stop\nturns=L=H\n"),
    (9, 4, "do=stop\nturns=1\n"),
    (9, 4, "do=stop\nturns=\nmsg=\n"),
    (9, 5, "do=stop\nmsg=\nturns=L,H\n"),
];

/// A sheet as texts, each with the count of its repetitions, and what is printed.
type Long = (&'static [(&'static [u8], usize)], &'static str);

/// Sheets at the limits of the format.
pub const LONG: &[Long] = &[
    // 1, before everything else.
    (&[(b"\n", 16_384)], "end=3 1 0 0 0 0 0\n"),
    (&[(b"\n", 16_385)], "end=1 0 0 0 0 0 0\n"),
    (&[(b"x", 16_384)], "end=2 1 0 0 0 0 0\n"),
    (&[(b"x", 16_383), (b"\n", 1)], "end=3 1 0 0 0 0 0\n"),
    (&[(b"\xff", 1), (b"x", 16_384)], "end=1 0 0 0 0 0 0\n"),
    // Others: "64 commands pass, 65 get 8".
    (
        &[
            (b"sheet=1\nkeys=1\n", 1),
            (b"do=stop\n", 64),
            (b"turns=L\n", 1),
        ],
        "end=0 0 1 1 0 0 0\n",
    ),
    (
        &[
            (b"sheet=1\nkeys=1\n", 1),
            (b"do=stop\n", 65),
            (b"turns=L\n", 1),
        ],
        "end=8 67 0 0 0 0 0\n",
    ),
    // 8 before 6, but after 3 and after every line above.
    (
        &[
            (b"sheet=1\nkeys=1\n", 1),
            (b"do=stop\n", 64),
            (b"do=x\nturns=L\n", 1),
        ],
        "end=8 67 0 0 0 0 0\n",
    ),
    (
        &[
            (b"sheet=1\nkeys=1\n", 1),
            (b"do=stop\n", 64),
            (b"Do=x\nturns=L\n", 1),
        ],
        "end=3 67 0 0 0 0 0\n",
    ),
    (
        &[
            (b"sheet=1\nkeys=1\n", 1),
            (b"do=stop\n", 63),
            (b"do=stop 0\n", 2),
            (b"turns=L\n", 1),
        ],
        "end=6 66 0 0 0 0 0\n",
    ),
    (
        &[
            (b"sheet=1\nkeys=1\n", 1),
            (b"do=stop\n", 64),
            (b"msg=\ndo=stop\nturns=L\n", 1),
        ],
        "end=3 68 0 0 0 0 0\n",
    ),
    // The target 64 is the end of 64 commands, and one too far for 63.
    (
        &[
            (b"sheet=1\nkeys=1\n", 1),
            (b"do=jump 64\n", 64),
            (b"turns=LL\n", 1),
        ],
        "end=0 0 1 1 0 0 0\n",
    ),
    (
        &[
            (b"sheet=1\nkeys=1\n", 1),
            (b"do=jump 64\n", 63),
            (b"turns=LL\n", 1),
        ],
        "end=7 3 0 0 0 0 0\n",
    ),
    // 32 messages pass, 33 get 8, before 4.
    (
        &[
            (b"sheet=1\nkeys=1\ndo=receive\ndo=jump 0\n", 1),
            (b"msg=\n", 32),
            (b"turns=", 1),
            (b"LL", 33),
            (b"\n", 1),
        ],
        "end=31 0 66 66 0 32 0\n",
    ),
    (
        &[
            (b"sheet=1\nkeys=1\ndo=stop\n", 1),
            (b"msg=\n", 33),
            (b"turns=L\n", 1),
        ],
        "end=8 36 0 0 0 0 0\n",
    ),
    (
        &[
            (b"sheet=1\nkeys=1\ndo=stop\n", 1),
            (b"msg=0:1\n", 32),
            (b"msg=x\nturns=L\n", 1),
        ],
        "end=8 36 0 0 0 0 0\n",
    ),
    (
        &[
            (b"sheet=1\nkeys=1\ndo=stop\n", 1),
            (b"msg=\n", 4),
            (b"msg=x\n", 29),
            (b"turns=L\n", 1),
        ],
        "end=4 8 0 0 0 0 0\n",
    ),
    // 1,024 letters pass, 1,025 bytes get 8, before 9.
    (
        &[
            (b"sheet=1\nkeys=1\ndo=jump 0\nturns=", 1),
            (b"LH", 512),
            (b"\n", 1),
        ],
        "end=31 0 1024 512 0 0 0\n",
    ),
    (
        &[
            (b"sheet=1\nkeys=1\ndo=jump 0\nturns=", 1),
            (b"L", 1025),
            (b"\n", 1),
        ],
        "end=8 4 0 0 0 0 0\n",
    ),
    (
        &[
            (b"sheet=1\nkeys=1\ndo=jump 0\nturns=", 1),
            (b"L", 1024),
            (b" \n", 1),
        ],
        "end=8 4 0 0 0 0 0\n",
    ),
    (
        &[
            (b"sheet=1\nkeys=1\ndo=jump 0\nturns=", 1),
            (b"x", 1025),
            (b"\n", 1),
        ],
        "end=8 4 0 0 0 0 0\n",
    ),
    (
        &[
            (b"sheet=1\nkeys=1\ndo=jump 0\nturns=", 1),
            (b"L", 1023),
            (b"x\n", 1),
        ],
        "end=9 4 0 0 0 0 0\n",
    ),
    // 3 before 8.
    (
        &[(b"sheet=1\nkeys=1\nturns=", 1), (b"L", 1025), (b"\n", 1)],
        "end=3 3 0 0 0 0 0\n",
    ),
    (
        &[
            (b"sheet=1\nkeys=1\ndo=stop\n", 1),
            (b"msg=\n", 32),
            (b"turns=L\nmsg=\n", 1),
        ],
        "end=3 37 0 0 0 0 0\n",
    ),
    // "the position in four digits", and high turns that idle.
    (
        &[
            (b"sheet=1\nkeys=1\ndo=send\nturns=", 1),
            (b"H", 1023),
            (b"L\n", 1),
        ],
        "sent=1023 ...........\nend=0 0 1024 1 22 0 0\n",
    ),
];
