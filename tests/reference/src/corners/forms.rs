//! Hand-written sheets of both forms, each with the answer that Note 9 of document 02 demands and the sheet of the
//! other form. Nothing here was computed by the model: all was worked out from the documents.

use super::bytes::{joined, with_every_byte, SHEET};
use super::owners::{REFUSED_OWNERS, REFUSED_OWNER_BODIES};
use super::{Refused, REFUSED, REFUSED_BODIES};
use crate::model::Form;
use Form::{One, Two};

/// A sheet, the form asked for, the bytes lent, the three numbers, and what stands at the front of the output
/// memory then.
#[derive(Debug, Clone, PartialEq, Eq)]
pub struct Corner {
    pub form: Form,
    pub lent: usize,
    pub sheet: Vec<u8>,
    pub numbers: [u32; 3],
    pub text: Vec<u8>,
}

/// Every corner of the tables below. A sheet that can be turned is lent much more than it needs, a byte more,
/// just enough, a byte too little, and nothing; all others are lent nothing, and more than any could need.
pub fn corners() -> Vec<Corner> {
    let mut corners = Vec::new();
    for &(form, lent, sheet, numbers, text) in EXAMPLES {
        corners.push(Corner {
            form,
            lent,
            sheet: joined(sheet),
            numbers,
            text: joined(text),
        });
    }
    for [old, new] in pairs() {
        corners.extend(turned(Two, &old, &new));
        corners.extend(turned(One, &new, &old));
    }
    for sheet in of_b() {
        corners.extend(refused(One, [47, 0], &sheet));
        corners.extend(refused(Two, [48, 0], &sheet));
    }
    for (number, line, sheet) in refused_on_reading() {
        corners.extend(refused(One, [number, line], &sheet));
        corners.extend(refused(Two, [number, line], &sheet));
    }
    corners
}

/// More bytes than any sheet needs.
const PLENTY: usize = 7_000;

/// A sheet of the other form, turned into the one asked for. The sheet that it becomes "already has the form
/// asked for", and is turned no further.
fn turned(form: Form, sheet: &[u8], text: &[u8]) -> Vec<Corner> {
    let needed = text.len();
    let written = [PLENTY, needed + 1, needed].map(|lent| Corner {
        form,
        lent,
        sheet: sheet.to_vec(),
        numbers: [0, 0, needed as u32],
        text: text.to_vec(),
    });
    let short = [needed - 1, 0].map(|lent| without_text(form, lent, [49, 0], sheet));
    let already = [0, needed, PLENTY].map(|lent| without_text(form, lent, [48, 0], text));
    written.into_iter().chain(short).chain(already).collect()
}

/// "a refusal writes nothing", whatever memory there is.
fn refused(form: Form, refusal: [u32; 2], sheet: &[u8]) -> Vec<Corner> {
    let lents = [0, sheet.len(), PLENTY].into_iter();
    lents
        .map(|lent| without_text(form, lent, refusal, sheet))
        .collect()
}

fn without_text(form: Form, lent: usize, [number, line]: [u32; 2], sheet: &[u8]) -> Corner {
    Corner {
        form,
        lent,
        sheet: sheet.to_vec(),
        numbers: [number, line, 0],
        text: Vec::new(),
    }
}

/// Sheets that can be turned, with every byte in the place of each byte, before each and behind the last. What each
/// gets, the model says.
pub fn damaged() -> Vec<Vec<u8>> {
    [with_every_byte(SHEET), with_every_byte(SHEET_OF_A)].concat()
}

/// An accepted sheet of form 2 that can go back.
const SHEET_OF_A: &[u8] = b"sheet=2\nkeys=2\nsecret=0:7:A\nsecret=1:-4:A\ndo=receive\ndo=send\n\
    msg=0:5,1:-6\nturns=LALAL\n";

/// Document 01's sheet A, and the sheet of form 2 that it becomes.
pub const A: &[u8] =
    b"sheet=1\nkeys=2\nsecret=1:300\ndo=receive\ndo=read 0 1\ndo=put 1 0\ndo=send\n\
    do=stop\nmsg=0:1500,1:1480\nturns=LHLHLHLHLH\n";
pub const NEW: &[u8] =
    b"sheet=2\nkeys=2\nsecret=1:300:A\ndo=receive\ndo=read 0 1\ndo=put 1 0\ndo=send\n\
    do=stop\nmsg=0:1500,1:1480\nturns=LALALALALA\n";

/// Texts, each with the count of its repetitions.
type Pieces = &'static [(&'static [u8], usize)];

/// Form asked for, bytes lent, sheet, numbers, text.
type Example = (Form, usize, Pieces, [u32; 3], Pieces);

/// The worked examples of the note.
pub const EXAMPLES: &[Example] = &[
    (Two, 200, &[(A, 1)], [0, 0, 115], &[(NEW, 1)]),
    (One, 200, &[(NEW, 1)], [0, 0, 113], &[(A, 1)]),
    (One, 0, &[(A, 1)], [48, 0, 0], &[]),
    (Two, 0, &[(NEW, 1)], [48, 0, 0], &[]),
    (One, 0, &[(NEW, 1)], [49, 0, 0], &[]),
    (Two, 114, &[(A, 1)], [49, 0, 0], &[]),
    (One, 112, &[(NEW, 1)], [49, 0, 0], &[]),
    // Owner B, and turns B.
    (One, 200, &[(NEW_OWNED_BY_B, 1)], [47, 0, 0], &[]),
    (One, 200, &[(NEW_WITH_TURNS_B, 1)], [47, 0, 0], &[]),
    (Two, 200, &[(NEW_WITH_TURNS_B, 1)], [48, 0, 0], &[]),
    // Sheets that are refused on reading.
    (One, 200, &[], [2, 1, 0], &[]),
    (Two, 200, &[(NEW, 1), (b"\n", 1)], [3, 11, 0], &[]),
    (Two, 200, &[(b"sheet=3\n", 1)], [4, 1, 0], &[]),
    (Two, 200, &[(A_WITH_TURNS_A, 1)], [9, 10, 0], &[]),
    // 64 commands.
    (
        One,
        9_999,
        &[
            (NEW_HEAD, 1),
            (b"do=stop\n", 60),
            (b"msg=0:1500,1:1480\nturns=LALALALALA\n", 1),
        ],
        [0, 0, 585],
        &[
            (A_HEAD, 1),
            (b"do=stop\n", 60),
            (b"msg=0:1500,1:1480\nturns=LHLHLHLHLH\n", 1),
        ],
    ),
];

const A_HEAD: &[u8] =
    b"sheet=1\nkeys=2\nsecret=1:300\ndo=receive\ndo=read 0 1\ndo=put 1 0\ndo=send\n";
const NEW_HEAD: &[u8] =
    b"sheet=2\nkeys=2\nsecret=1:300:A\ndo=receive\ndo=read 0 1\ndo=put 1 0\ndo=send\n";
const NEW_OWNED_BY_B: &[u8] = b"sheet=2\nkeys=2\nsecret=1:300:B\ndo=receive\ndo=read 0 1\n\
    do=put 1 0\ndo=send\ndo=stop\nmsg=0:1500,1:1480\nturns=LALALALALA\n";
const NEW_WITH_TURNS_B: &[u8] = b"sheet=2\nkeys=2\nsecret=1:300:A\ndo=receive\ndo=read 0 1\n\
    do=put 1 0\ndo=send\ndo=stop\nmsg=0:1500,1:1480\nturns=LBLALBLALA\n";
const A_WITH_TURNS_A: &[u8] = b"sheet=1\nkeys=2\nsecret=1:300\ndo=receive\ndo=read 0 1\n\
    do=put 1 0\ndo=send\ndo=stop\nmsg=0:1500,1:1480\nturns=LALALALALA\n";

/// Sheets of form 1, each with the one of form 2 that it becomes, and that becomes it again.
pub fn pairs() -> Vec<[Vec<u8>; 2]> {
    let short = PAIRS.iter();
    let short = short.map(|&[old, new]| [old, new].map(|sheet| sheet.as_bytes().to_vec()));
    let long = LONG_PAIRS.iter().map(|&pair| pair.map(joined));
    let longest = ["L", "H", "LH", "HHL"].map(|letters| {
        let old = longest(One, "", &letters.repeat(1_024)[..1_024]);
        let new = longest(Two, ":A", &letters.replace('H', "A").repeat(1_024)[..1_024]);
        [old, new]
    });
    short.chain(long).chain(longest).collect()
}

/// No sheet of its form is longer. Of form 1: 15 bytes, 8 lines of 21, 64 of 21, 32 of 116, and 1,031: 6,270. Of
/// form 2 each of the first 8 lines has two bytes more: 6,286.
fn longest(form: Form, owner: &str, letters: &str) -> Vec<u8> {
    let least = "-2147483648";
    let secrets = (0..8).map(|key| format!("secret={key}:{least}{owner}\n"));
    let message = "msg=0:M,1:M,2:M,3:M,4:M,5:M,6:M,7:M\n".replace('M', least);
    let sheet = [
        &format!("sheet={}\nkeys=8\n", form.number()),
        &secrets.collect::<String>(),
        &"do=set 7 -2147483648\n".repeat(64),
        &message.repeat(32),
        &format!("turns={letters}\n"),
    ];
    sheet.map(String::as_str).concat().into_bytes()
}

/// Those of a few lines, on one part of a sheet each.
pub const PAIRS: &[[&str; 2]] = &[
    // No secret at all: no line has an owner to name. No H: no letter to turn.
    [
        "sheet=1\nkeys=1\ndo=send\nturns=L\n",
        "sheet=2\nkeys=1\ndo=send\nturns=L\n",
    ],
    [
        "sheet=1\nkeys=1\ndo=send\nturns=H\n",
        "sheet=2\nkeys=1\ndo=send\nturns=A\n",
    ],
    [
        "sheet=1\nkeys=8\ndo=stop\nmsg=7:1\nturns=LLLL\n",
        "sheet=2\nkeys=8\ndo=stop\nmsg=7:1\nturns=LLLL\n",
    ],
    [
        "sheet=1\nkeys=1\nsecret=0:7\ndo=stop\nturns=LLL\n",
        "sheet=2\nkeys=1\nsecret=0:7:A\ndo=stop\nturns=LLL\n",
    ],
    // The first letter alone, the last, both, all but these, and all.
    [
        "sheet=1\nkeys=1\nsecret=0:7\ndo=stop\nturns=HLLL\n",
        "sheet=2\nkeys=1\nsecret=0:7:A\ndo=stop\nturns=ALLL\n",
    ],
    [
        "sheet=1\nkeys=1\nsecret=0:7\ndo=stop\nturns=LLLH\n",
        "sheet=2\nkeys=1\nsecret=0:7:A\ndo=stop\nturns=LLLA\n",
    ],
    [
        "sheet=1\nkeys=1\nsecret=0:7\ndo=stop\nturns=HLLH\n",
        "sheet=2\nkeys=1\nsecret=0:7:A\ndo=stop\nturns=ALLA\n",
    ],
    [
        "sheet=1\nkeys=1\nsecret=0:7\ndo=stop\nturns=LHHL\n",
        "sheet=2\nkeys=1\nsecret=0:7:A\ndo=stop\nturns=LAAL\n",
    ],
    [
        "sheet=1\nkeys=1\nsecret=0:7\ndo=stop\nturns=HHHHH\n",
        "sheet=2\nkeys=1\nsecret=0:7:A\ndo=stop\nturns=AAAAA\n",
    ],
    // Dummies: 0, a negative one, and both ends of the range.
    [
        "sheet=1\nkeys=2\nsecret=0:0\nsecret=1:-1\ndo=stop\nturns=HL\n",
        "sheet=2\nkeys=2\nsecret=0:0:A\nsecret=1:-1:A\ndo=stop\nturns=AL\n",
    ],
    [
        "sheet=1\nkeys=2\nsecret=0:-2147483648\nsecret=1:2147483647\ndo=stop\nturns=HL\n",
        "sheet=2\nkeys=2\nsecret=0:-2147483648:A\nsecret=1:2147483647:A\ndo=stop\nturns=AL\n",
    ],
    // Some keys are secret: the first, the last, each second one, and all eight.
    [
        "sheet=1\nkeys=8\nsecret=0:1\ndo=stop\nmsg=\nturns=LH\n",
        "sheet=2\nkeys=8\nsecret=0:1:A\ndo=stop\nmsg=\nturns=LA\n",
    ],
    [
        "sheet=1\nkeys=8\nsecret=7:1\ndo=stop\nmsg=\nturns=LH\n",
        "sheet=2\nkeys=8\nsecret=7:1:A\ndo=stop\nmsg=\nturns=LA\n",
    ],
    [
        "sheet=1\nkeys=8\nsecret=1:10\nsecret=3:-20\nsecret=5:30\nsecret=7:-40\ndo=stop\nturns=LH\n",
        "sheet=2\nkeys=8\nsecret=1:10:A\nsecret=3:-20:A\nsecret=5:30:A\nsecret=7:-40:A\ndo=stop\n\
         turns=LA\n",
    ],
    [
        "sheet=1\nkeys=8\nsecret=0:0\nsecret=1:-1\nsecret=2:22\nsecret=3:-333\nsecret=4:4444\n\
         secret=5:-55555\nsecret=6:666666\nsecret=7:-7777777\ndo=stop\nturns=LHHL\n",
        "sheet=2\nkeys=8\nsecret=0:0:A\nsecret=1:-1:A\nsecret=2:22:A\nsecret=3:-333:A\n\
         secret=4:4444:A\nsecret=5:-55555:A\nsecret=6:666666:A\nsecret=7:-7777777:A\ndo=stop\n\
         turns=LAAL\n",
    ],
    // Each word of document 01's table, with targets that stay as they are.
    [
        "sheet=1\nkeys=8\nsecret=0:-2147483648\nsecret=7:2147483647\ndo=set 7 -2147483648\n\
         do=add 0 7\ndo=sub 7 0\ndo=mul 1 2\ndo=div 3 4\ndo=read 5 7\ndo=has 6 0\ndo=put 7 5\n\
         do=drop 6\ndo=ifneg 2 15\ndo=ifzero 3 0\ndo=jump 15\ndo=receive\ndo=send\ndo=stop\nmsg=\n\
         msg=7:-1\nmsg=0:0,3:2147483647,7:-2147483648\nturns=H\n",
        "sheet=2\nkeys=8\nsecret=0:-2147483648:A\nsecret=7:2147483647:A\ndo=set 7 -2147483648\n\
         do=add 0 7\ndo=sub 7 0\ndo=mul 1 2\ndo=div 3 4\ndo=read 5 7\ndo=has 6 0\ndo=put 7 5\n\
         do=drop 6\ndo=ifneg 2 15\ndo=ifzero 3 0\ndo=jump 15\ndo=receive\ndo=send\ndo=stop\nmsg=\n\
         msg=7:-1\nmsg=0:0,3:2147483647,7:-2147483648\nturns=A\n",
    ],
    // A program whose high execution goes its own way, and idles at a wrong call.
    [
        "sheet=1\nkeys=1\nsecret=0:0\ndo=receive\ndo=read 0 0\ndo=ifzero 0 5\ndo=send\ndo=jump 6\n\
         do=receive\ndo=send\nmsg=0:9\nmsg=0:8\nturns=LHLHLHLHHHHLLL\n",
        "sheet=2\nkeys=1\nsecret=0:0:A\ndo=receive\ndo=read 0 0\ndo=ifzero 0 5\ndo=send\ndo=jump 6\n\
         do=receive\ndo=send\nmsg=0:9\nmsg=0:8\nturns=LALALALAAAALLL\n",
    ],
];

/// Those at the limits of the format.
const LONG_PAIRS: &[[Pieces; 2]] = &[
    // 64 commands.
    [
        &[
            (b"sheet=1\nkeys=1\nsecret=0:1\n", 1),
            (b"do=jump 64\n", 64),
            (b"turns=HL\n", 1),
        ],
        &[
            (b"sheet=2\nkeys=1\nsecret=0:1:A\n", 1),
            (b"do=jump 64\n", 64),
            (b"turns=AL\n", 1),
        ],
    ],
    // 32 messages.
    [
        &[
            (b"sheet=1\nkeys=2\nsecret=1:1\ndo=receive\n", 1),
            (b"msg=0:-5,1:5\n", 31),
            (b"msg=\nturns=LHH\n", 1),
        ],
        &[
            (b"sheet=2\nkeys=2\nsecret=1:1:A\ndo=receive\n", 1),
            (b"msg=0:-5,1:5\n", 31),
            (b"msg=\nturns=LAA\n", 1),
        ],
    ],
    // 1,024 letters: all H, and an H at the first or the last place alone.
    [
        &[
            (b"sheet=1\nkeys=1\ndo=jump 0\nturns=", 1),
            (b"H", 1_024),
            (b"\n", 1),
        ],
        &[
            (b"sheet=2\nkeys=1\ndo=jump 0\nturns=", 1),
            (b"A", 1_024),
            (b"\n", 1),
        ],
    ],
    [
        &[
            (b"sheet=1\nkeys=1\ndo=jump 0\nturns=H", 1),
            (b"L", 1_023),
            (b"\n", 1),
        ],
        &[
            (b"sheet=2\nkeys=1\ndo=jump 0\nturns=A", 1),
            (b"L", 1_023),
            (b"\n", 1),
        ],
    ],
    [
        &[
            (b"sheet=1\nkeys=1\ndo=jump 0\nturns=", 1),
            (b"L", 1_023),
            (b"H\n", 1),
        ],
        &[
            (b"sheet=2\nkeys=1\ndo=jump 0\nturns=", 1),
            (b"L", 1_023),
            (b"A\n", 1),
        ],
    ],
];

/// Sheets of form 2 that name owner B or have a turn B: "47, next and going back only". Asked for form 2 they get
/// 48, which comes before.
pub fn of_b() -> Vec<Vec<u8>> {
    let short = OF_B.iter().map(|sheet| sheet.as_bytes().to_vec());
    let long = LONG_OF_B.iter().copied().map(joined);
    let last = |letters: &str| longest(Two, ":A", &format!("{letters}B"));
    let longest = [
        longest(Two, ":B", &"L".repeat(1_024)),
        longest(Two, ":A", &"B".repeat(1_024)),
        last(&"LAL".repeat(341)),
    ];
    short.chain(long).chain(longest).collect()
}

const OF_B: &[&str] = &[
    // An owner alone: of one secret, of the first of three, of the one between, of the last, and of all.
    "sheet=2\nkeys=1\nsecret=0:7:B\ndo=stop\nturns=L\n",
    "sheet=2\nkeys=1\nsecret=0:7:B\ndo=stop\nturns=A\n",
    "sheet=2\nkeys=3\nsecret=0:7:B\nsecret=1:8:A\nsecret=2:9:A\ndo=stop\nturns=LA\n",
    "sheet=2\nkeys=3\nsecret=0:7:A\nsecret=1:8:B\nsecret=2:9:A\ndo=stop\nturns=LA\n",
    "sheet=2\nkeys=3\nsecret=0:7:A\nsecret=1:8:A\nsecret=2:9:B\ndo=stop\nturns=LA\n",
    "sheet=2\nkeys=3\nsecret=0:7:B\nsecret=1:8:B\nsecret=2:9:B\ndo=stop\nturns=LA\n",
    // Of eight secrets the first or the last.
    "sheet=2\nkeys=8\nsecret=0:1:B\nsecret=1:1:A\nsecret=2:1:A\nsecret=3:1:A\nsecret=4:1:A\n\
     secret=5:1:A\nsecret=6:1:A\nsecret=7:1:A\ndo=stop\nturns=LA\n",
    "sheet=2\nkeys=8\nsecret=0:1:A\nsecret=1:1:A\nsecret=2:1:A\nsecret=3:1:A\nsecret=4:1:A\n\
     secret=5:1:A\nsecret=6:1:A\nsecret=7:1:B\ndo=stop\nturns=LA\n",
    // A turn alone: the only one, the first, the last, and one between, with a secret and without.
    "sheet=2\nkeys=1\ndo=stop\nturns=B\n",
    "sheet=2\nkeys=1\ndo=stop\nturns=BL\n",
    "sheet=2\nkeys=1\ndo=stop\nturns=LB\n",
    "sheet=2\nkeys=1\nsecret=0:7:A\ndo=stop\nturns=BLALAL\n",
    "sheet=2\nkeys=1\nsecret=0:7:A\ndo=stop\nturns=LALALB\n",
    "sheet=2\nkeys=1\nsecret=0:7:A\ndo=stop\nturns=LALBLA\n",
    "sheet=2\nkeys=1\nsecret=0:7:A\ndo=stop\nturns=BBBBBB\n",
    // Both.
    "sheet=2\nkeys=1\nsecret=0:7:B\ndo=stop\nturns=B\n",
    "sheet=2\nkeys=2\nsecret=0:7:A\nsecret=1:8:B\ndo=stop\nturns=LAB\n",
    "sheet=2\nkeys=3\nsecret=1:300:A\nsecret=2:400:B\ndo=receive\ndo=read 0 1\ndo=read 1 2\n\
     do=add 0 1\ndo=put 1 0\ndo=put 2 0\ndo=send\nmsg=0:7,1:10,2:20\nturns=LABLABLABLABLABLABLAB\n",
    // A turn that the run never comes to.
    "sheet=2\nkeys=1\ndo=stop\nturns=LLLLLLB\n",
];

const LONG_OF_B: &[Pieces] = &[
    &[
        (b"sheet=2\nkeys=1\ndo=jump 0\nturns=B", 1),
        (b"A", 1_023),
        (b"\n", 1),
    ],
    &[
        (b"sheet=2\nkeys=1\ndo=jump 0\nturns=", 1),
        (b"A", 1_023),
        (b"B\n", 1),
    ],
    &[
        (b"sheet=2\nkeys=1\ndo=jump 0\nturns=", 1),
        (b"L", 511),
        (b"B", 1),
        (b"L", 512),
        (b"\n", 1),
    ],
];

/// "sheets refuse as on reading": those of the tables of document 01 and of Note 8, and those below.
pub fn refused_on_reading() -> Vec<(u32, u32, Vec<u8>)> {
    let whole = REFUSED.iter().chain(REFUSED_OWNERS).chain(REFUSED_FORMS);
    let whole = whole.map(|&(number, line, sheet)| (number, line, sheet.to_vec()));
    let bodies = [(One, REFUSED_BODIES), (Two, REFUSED_OWNER_BODIES)];
    let bodies = bodies.into_iter().flat_map(|(form, bodies)| {
        let head = format!("sheet={}\nkeys=2\n", form.number());
        let sheet = move |body: &str| format!("{head}{body}").into_bytes();
        bodies
            .iter()
            .map(move |&(number, line, body)| (number, line, sheet(body)))
    });
    let long = LONG_REFUSED.iter();
    let long = long.map(|&(number, line, pieces)| (number, line, joined(pieces)));
    whole.chain(bodies).chain(long).collect()
}

/// Each refusal in both forms, on sheets that would get 47 or 48 if they were accepted.
const REFUSED_FORMS: &[Refused] = &[
    // 2, before every other fault.
    (
        2,
        6,
        b"sheet=1\nkeys=2\nsecret=1:5\ndo=stop\nmsg=1:6\nturns=LH",
    ),
    (
        2,
        6,
        b"sheet=2\nkeys=2\nsecret=1:5:B\ndo=stop\nmsg=1:6\nturns=LAB",
    ),
    (
        2,
        3,
        b"sheet=1\nkeys=2\nsecret=1:5\r\ndo=stop\nmsg=1:6\nturns=LH\n",
    ),
    (
        2,
        6,
        b"sheet=2\nkeys=2\nsecret=1:5:B\ndo=stop\nmsg=1:6\nturns=LAB\r\n",
    ),
    // 3: an early end, and something behind the end.
    (3, 2, b"sheet=1\n"),
    (3, 2, b"sheet=2\n"),
    (3, 6, b"sheet=1\nkeys=2\nsecret=1:5\ndo=stop\nmsg=1:6\n"),
    (3, 6, b"sheet=2\nkeys=2\nsecret=1:5:B\ndo=stop\nmsg=1:6\n"),
    (
        3,
        7,
        b"sheet=1\nkeys=2\nsecret=1:5\ndo=stop\nmsg=1:6\nturns=LH\n\n",
    ),
    (
        3,
        7,
        b"sheet=2\nkeys=2\nsecret=1:5:B\ndo=stop\nmsg=1:6\nturns=LAB\nturns=LAB\n",
    ),
    // 4: the form, and every other number. Neither form reads a secret line of the other.
    (
        4,
        1,
        b"sheet=12\nkeys=2\nsecret=1:5:B\ndo=stop\nmsg=1:6\nturns=LAB\n",
    ),
    (4, 2, b"sheet=1\nkeys=9\ndo=stop\nturns=LH\n"),
    (4, 2, b"sheet=2\nkeys=9\ndo=stop\nturns=LAB\n"),
    (4, 3, b"sheet=1\nkeys=2\nsecret=1:5:A\ndo=stop\nturns=LH\n"),
    (4, 3, b"sheet=2\nkeys=2\nsecret=1:5\ndo=stop\nturns=LAB\n"),
    (4, 3, b"sheet=2\nkeys=2\nsecret=2:5:B\ndo=stop\nturns=LAB\n"),
    (
        4,
        4,
        b"sheet=1\nkeys=2\nsecret=1:5\ndo=read 8 0\nturns=LH\n",
    ),
    (
        4,
        4,
        b"sheet=2\nkeys=2\nsecret=1:5:B\ndo=read 0 2\nturns=LAB\n",
    ),
    (
        4,
        5,
        b"sheet=1\nkeys=2\nsecret=1:5\ndo=stop\nmsg=1:06\nturns=LH\n",
    ),
    (
        4,
        5,
        b"sheet=2\nkeys=2\nsecret=1:5:B\ndo=stop\nmsg=1:\nturns=LAB\n",
    ),
    // 5, in secrets and in a message.
    (
        5,
        4,
        b"sheet=1\nkeys=2\nsecret=1:5\nsecret=1:5\ndo=stop\nturns=LH\n",
    ),
    (
        5,
        4,
        b"sheet=2\nkeys=2\nsecret=1:5:A\nsecret=1:5:B\ndo=stop\nturns=LAB\n",
    ),
    (5, 4, b"sheet=1\nkeys=2\ndo=stop\nmsg=1:6,0:6\nturns=LH\n"),
    (5, 4, b"sheet=2\nkeys=2\ndo=stop\nmsg=1:6,0:6\nturns=LAB\n"),
    // 46, with an owner B before it and a turn B behind it.
    (
        46,
        4,
        b"sheet=2\nkeys=2\nsecret=0:5:B\nsecret=1:5:H\ndo=stop\nturns=LAB\n",
    ),
    (46, 3, b"sheet=2\nkeys=2\nsecret=1:5:\ndo=stop\nturns=B\n"),
    // 6.
    (
        6,
        4,
        b"sheet=1\nkeys=2\nsecret=1:5\ndo=stop \nmsg=1:6\nturns=LH\n",
    ),
    (
        6,
        4,
        b"sheet=2\nkeys=2\nsecret=1:5:B\ndo=halt\nmsg=1:6\nturns=LAB\n",
    ),
    // 7, which comes last on reading, and before all that comes after reading.
    (
        7,
        4,
        b"sheet=1\nkeys=2\nsecret=1:5\ndo=jump 2\nmsg=1:6\nturns=LH\n",
    ),
    (
        7,
        4,
        b"sheet=2\nkeys=2\nsecret=1:5:B\ndo=jump 2\nmsg=1:6\nturns=LAB\n",
    ),
    (
        7,
        3,
        b"sheet=2\nkeys=2\ndo=ifzero 0 64\nmsg=1:6\nturns=LAL\n",
    ),
    // 9: neither form has the letters of the other.
    (9, 4, b"sheet=1\nkeys=2\ndo=stop\nturns=\n"),
    (9, 5, b"sheet=2\nkeys=2\nsecret=1:5:B\ndo=stop\nturns=\n"),
    (9, 5, b"sheet=1\nkeys=2\nsecret=1:5\ndo=stop\nturns=LHA\n"),
    (9, 5, b"sheet=1\nkeys=2\nsecret=1:5\ndo=stop\nturns=LB\n"),
    (9, 5, b"sheet=2\nkeys=2\nsecret=1:5:B\ndo=stop\nturns=LBH\n"),
    (9, 5, b"sheet=2\nkeys=2\nsecret=1:5:A\ndo=stop\nturns=HL\n"),
];

/// Refusal number, line, sheet. 1 and 8 have no short ones.
const LONG_REFUSED: &[(u32, u32, Pieces)] = &[
    (
        1,
        0,
        &[
            (b"sheet=1\nkeys=1\ndo=stop\n", 1),
            (b"msg=0:1\n", 2_044),
            (b"turns=L\n\n\n", 1),
        ],
    ),
    (1, 0, &[(b"sheet=2\n", 1), (b"\0", 16_377)]),
    (
        8,
        67,
        &[
            (b"sheet=1\nkeys=1\n", 1),
            (b"do=stop\n", 65),
            (b"turns=LH\n", 1),
        ],
    ),
    (
        8,
        67,
        &[
            (b"sheet=2\nkeys=1\n", 1),
            (b"do=stop\n", 65),
            (b"turns=LAB\n", 1),
        ],
    ),
    (
        8,
        36,
        &[
            (b"sheet=1\nkeys=1\ndo=stop\n", 1),
            (b"msg=\n", 33),
            (b"turns=LH\n", 1),
        ],
    ),
    (
        8,
        36,
        &[
            (b"sheet=2\nkeys=1\ndo=stop\n", 1),
            (b"msg=\n", 33),
            (b"turns=LAB\n", 1),
        ],
    ),
    (
        8,
        4,
        &[
            (b"sheet=1\nkeys=1\ndo=stop\nturns=", 1),
            (b"H", 1_025),
            (b"\n", 1),
        ],
    ),
    (
        8,
        4,
        &[
            (b"sheet=2\nkeys=1\ndo=stop\nturns=", 1),
            (b"B", 1_025),
            (b"\n", 1),
        ],
    ),
];
