//! Sheets that turn on document 02's Note 3: "Each of `add`, `sub`, `mul` and `div` shall say whether
//! its exact result lay outside the range", and the seventh number is "the clamped results of the low
//! execution alone". The secret column shows what the high execution has come to.

use super::{Arithmetic, Long, Refused, Run};

/// Worked examples of the note: sums at the upper end, `div` at the lower one, a sum that just reaches
/// the end, and a high execution that clamps where the low one adds 0 to 0. A refusal stands in
/// [`REFUSED_CLAMPS`]; sheet A is P1 and the empty sheet P11, which have their 0 where they stand.
pub const SUMS: Run = (
    32_768,
    "sheet=1\nkeys=1\nsecret=0:0\ndo=set 0 2147483647\ndo=set 1 1\ndo=add 0 1\ndo=add 0 1\n\
     do=sub 0 1\nmsg=0:2147483647\nturns=LLLLLLLL\n",
    "end=0 0 5 5 0 0 2\n",
);
pub const QUOTIENTS: Run = (
    32_768,
    "sheet=1\nkeys=1\nsecret=0:0\ndo=set 0 -2147483648\ndo=set 1 -1\ndo=div 0 1\ndo=div 0 2\n\
     do=mul 0 0\nmsg=0:2147483647\nturns=LLLLLLLL\n",
    "end=0 0 5 5 0 0 1\n",
);
pub const REACHED: Run = (
    32_768,
    "sheet=1\nkeys=1\nsecret=0:0\ndo=set 0 2147483646\ndo=set 1 1\ndo=add 0 1\ndo=stop\n\
     msg=0:2147483647\nturns=LLLLLLLL\n",
    "end=0 0 4 4 0 0 0\n",
);
pub const UNSEEN: Run = (
    32_768,
    "sheet=1\nkeys=1\nsecret=0:0\ndo=receive\ndo=read 0 0\ndo=add 0 0\ndo=stop\nmsg=0:2147483647\n\
     turns=LHLHLHLH\n",
    "end=0 0 7 4 0 1 0\n",
);

/// One program with four pairs of dummy and entry: the low execution clamps, the high one, both,
/// neither.
pub const LOW_ALONE: Run = (
    22,
    "sheet=1\nkeys=1\nsecret=0:2147483647\ndo=receive\ndo=read 0 0\ndo=add 0 0\ndo=put 0 0\n\
     do=send\nmsg=0:5\nturns=LHLHLHLHL\n",
    "sent=0008 +0000000010\nend=0 0 9 5 22 1 1\n",
);
pub const HIGH_ALONE: Run = (
    22,
    "sheet=1\nkeys=1\nsecret=0:5\ndo=receive\ndo=read 0 0\ndo=add 0 0\ndo=put 0 0\ndo=send\n\
     msg=0:2147483647\nturns=LHLHLHLHL\n",
    "sent=0008 +2147483647\nend=0 0 9 5 22 1 0\n",
);
pub const BOTH: Run = (
    22,
    "sheet=1\nkeys=1\nsecret=0:-2147483648\ndo=receive\ndo=read 0 0\ndo=add 0 0\ndo=put 0 0\n\
     do=send\nmsg=0:2147483647\nturns=LHLHLHLHL\n",
    "sent=0008 +2147483647\nend=0 0 9 5 22 1 1\n",
);
pub const NEITHER: Run = (
    22,
    "sheet=1\nkeys=1\nsecret=0:-1073741824\ndo=receive\ndo=read 0 0\ndo=add 0 0\ndo=put 0 0\n\
     do=send\nmsg=0:1073741823\nturns=LHLHLHLHL\n",
    "sent=0008 +2147483646\nend=0 0 9 5 22 1 0\n",
);

pub const CLAMPS: &[Run] = &[
    SUMS,
    QUOTIENTS,
    REACHED,
    UNSEEN,
    LOW_ALONE,
    HIGH_ALONE,
    BOTH,
    NEITHER,
    // `sub` at both ends: the low execution clamps and the high one does not, and the other way round.
    (
        22,
        "sheet=1\nkeys=1\nsecret=0:2147483647\ndo=receive\ndo=read 0 0\ndo=set 1 -1\ndo=sub 0 1\n\
         do=put 0 0\ndo=send\nmsg=0:-1\nturns=LHLHLHLHLHL\n",
        "sent=0010 +0000000000\nend=0 0 11 6 22 1 1\n",
    ),
    (
        22,
        "sheet=1\nkeys=1\nsecret=0:-1\ndo=receive\ndo=read 0 0\ndo=set 1 -1\ndo=sub 0 1\n\
         do=put 0 0\ndo=send\nmsg=0:2147483647\nturns=LHLHLHLHLHL\n",
        "sent=0010 +2147483647\nend=0 0 11 6 22 1 0\n",
    ),
    (
        22,
        "sheet=1\nkeys=1\nsecret=0:-2147483648\ndo=receive\ndo=read 0 0\ndo=set 1 1\ndo=sub 0 1\n\
         do=put 0 0\ndo=send\nmsg=0:-2147483647\nturns=LHLHLHLHLHL\n",
        "sent=0010 -2147483648\nend=0 0 11 6 22 1 1\n",
    ),
    (
        22,
        "sheet=1\nkeys=1\nsecret=0:-2147483647\ndo=receive\ndo=read 0 0\ndo=set 1 1\ndo=sub 0 1\n\
         do=put 0 0\ndo=send\nmsg=0:-2147483648\nturns=LHLHLHLHLHL\n",
        "sent=0010 -2147483648\nend=0 0 11 6 22 1 0\n",
    ),
    // `mul`: 65536 times 32768 is one beyond the upper end, 65536 times -32768 the lower end.
    (
        22,
        "sheet=1\nkeys=1\nsecret=0:32768\ndo=receive\ndo=read 0 0\ndo=set 1 65536\ndo=mul 0 1\n\
         do=put 0 0\ndo=send\nmsg=0:-32768\nturns=LHLHLHLHLHL\n",
        "sent=0010 -2147483648\nend=0 0 11 6 22 1 1\n",
    ),
    (
        22,
        "sheet=1\nkeys=1\nsecret=0:-32768\ndo=receive\ndo=read 0 0\ndo=set 1 65536\ndo=mul 0 1\n\
         do=put 0 0\ndo=send\nmsg=0:32768\nturns=LHLHLHLHLHL\n",
        "sent=0010 +2147483647\nend=0 0 11 6 22 1 0\n",
    ),
    // `div` by -1: the results are equal, and one of them is clamped.
    (
        22,
        "sheet=1\nkeys=1\nsecret=0:-2147483648\ndo=receive\ndo=read 0 0\ndo=set 1 -1\ndo=div 0 1\n\
         do=put 0 0\ndo=send\nmsg=0:-2147483647\nturns=LHLHLHLHLHL\n",
        "sent=0010 +2147483647\nend=0 0 11 6 22 1 1\n",
    ),
    (
        22,
        "sheet=1\nkeys=1\nsecret=0:-2147483647\ndo=receive\ndo=read 0 0\ndo=set 1 -1\ndo=div 0 1\n\
         do=put 0 0\ndo=send\nmsg=0:-2147483648\nturns=LHLHLHLHLHL\n",
        "sent=0010 +2147483647\nend=0 0 11 6 22 1 0\n",
    ),
    // "a zero divisor doesn't count": one execution divides by zero, the other by -1.
    (
        22,
        "sheet=1\nkeys=1\nsecret=0:0\ndo=receive\ndo=read 1 0\ndo=set 0 -2147483648\ndo=div 0 1\n\
         do=put 0 0\ndo=send\nmsg=0:-1\nturns=LHLHLHLHLHL\n",
        "sent=0010 +2147483647\nend=0 0 11 6 22 1 0\n",
    ),
    (
        22,
        "sheet=1\nkeys=1\nsecret=0:-1\ndo=receive\ndo=read 1 0\ndo=set 0 -2147483648\ndo=div 0 1\n\
         do=put 0 0\ndo=send\nmsg=0:0\nturns=LHLHLHLHLHL\n",
        "sent=0010 +0000000000\nend=0 0 11 6 22 1 1\n",
    ),
    // One execution comes to a sum that the other passes over.
    (
        0,
        "sheet=1\nkeys=1\nsecret=0:0\ndo=receive\ndo=read 0 0\ndo=ifzero 0 5\ndo=set 1 2147483647\n\
         do=add 1 1\ndo=stop\nmsg=0:9\nturns=LHHHHHLLL\n",
        "end=0 0 9 4 0 1 0\n",
    ),
    (
        0,
        "sheet=1\nkeys=1\nsecret=0:9\ndo=receive\ndo=read 0 0\ndo=ifzero 0 5\ndo=set 1 2147483647\n\
         do=add 1 1\ndo=stop\nmsg=0:0\nturns=LHLHLHLHLHLH\n",
        "end=0 0 11 6 0 1 1\n",
    ),
    // The low execution adds its dummy to itself; with no line left there is none.
    (
        0,
        "sheet=1\nkeys=1\nsecret=0:2147483647\ndo=receive\ndo=read 0 0\ndo=add 0 0\ndo=receive\n\
         do=read 0 0\ndo=add 0 0\ndo=stop\nmsg=\nturns=LLLLLLL\n",
        "end=0 0 7 7 0 1 1\n",
    ),
    // The high execution is first, alone and not.
    (
        0,
        "sheet=1\nkeys=1\ndo=set 0 2147483647\ndo=add 0 0\ndo=stop\nturns=HHHL\n",
        "end=31 0 4 1 0 0 0\n",
    ),
    (
        0,
        "sheet=1\nkeys=1\ndo=set 0 2147483647\ndo=add 0 0\ndo=stop\nturns=HHHLLL\n",
        "end=0 0 6 3 0 0 1\n",
    ),
    // On the last letter, with the end behind it and without; one letter less; and H turns between.
    (
        0,
        "sheet=1\nkeys=1\ndo=set 0 2147483647\ndo=add 0 0\nturns=LL\n",
        "end=0 0 2 2 0 0 1\n",
    ),
    (
        0,
        "sheet=1\nkeys=1\ndo=set 0 2147483647\ndo=add 0 0\ndo=stop\nturns=LL\n",
        "end=31 0 2 2 0 0 1\n",
    ),
    (
        0,
        "sheet=1\nkeys=1\ndo=set 0 2147483647\ndo=add 0 0\nturns=L\n",
        "end=31 0 1 1 0 0 0\n",
    ),
    (
        0,
        "sheet=1\nkeys=1\ndo=set 0 2147483647\ndo=add 0 0\nturns=LHHHL\n",
        "end=0 0 5 2 0 0 1\n",
    ),
    // Turns that pass idle count nothing: four at a call, three after the end.
    (
        0,
        "sheet=1\nkeys=1\ndo=set 0 2147483647\ndo=add 0 0\ndo=receive\ndo=stop\n\
         turns=LLHHHHHHLL\n",
        "end=0 0 10 4 0 0 1\n",
    ),
    (
        0,
        "sheet=1\nkeys=1\ndo=set 0 2147483647\ndo=add 0 0\ndo=add 0 0\nturns=HHHHHHLLL\n",
        "end=0 0 9 3 0 0 2\n",
    ),
    // Commands behind the end, or jumped over, are not done.
    (
        0,
        "sheet=1\nkeys=1\ndo=set 0 2147483647\ndo=add 0 0\ndo=stop\ndo=add 0 0\nturns=LLLLLL\n",
        "end=0 0 3 3 0 0 1\n",
    ),
    (
        0,
        "sheet=1\nkeys=1\ndo=set 0 2147483647\ndo=jump 3\ndo=add 0 0\nturns=LLLL\n",
        "end=0 0 2 2 0 0 0\n",
    ),
    // Ending 32 keeps the count of the turns that were taken; the sum behind the `send` is none.
    (
        21,
        "sheet=1\nkeys=1\ndo=set 0 2147483647\ndo=add 0 0\ndo=send\ndo=add 0 0\nturns=LLLL\n",
        "end=32 0 2 2 0 0 1\n",
    ),
    (
        21,
        "sheet=1\nkeys=1\ndo=set 0 2147483647\ndo=add 0 0\ndo=send\ndo=add 0 0\nturns=LLHHHL\n",
        "end=32 0 5 2 0 0 1\n",
    ),
    (
        44,
        "sheet=1\nkeys=1\ndo=set 0 2147483647\ndo=add 0 0\ndo=send\ndo=jump 1\nturns=LLLLLLLLLL\n",
        "sent=0002 ...........\nsent=0005 ...........\nend=32 0 8 8 44 0 3\n",
    ),
    (
        66,
        "sheet=1\nkeys=1\ndo=set 0 2147483647\ndo=add 0 0\ndo=send\ndo=jump 1\nturns=LLLLLLLLLL\n",
        "sent=0002 ...........\nsent=0005 ...........\nsent=0008 ...........\n\
         end=31 0 10 10 66 0 3\n",
    ),
    // One variable as both parts: only the sum and the product leave the range.
    (
        22,
        "sheet=1\nkeys=1\ndo=set 3 -2147483648\ndo=sub 3 3\ndo=set 3 -2147483648\ndo=div 3 3\n\
         do=set 3 -2147483648\ndo=add 3 3\ndo=mul 3 3\ndo=put 0 3\ndo=send\nturns=LLLLLLLLL\n",
        "sent=0008 +2147483647\nend=0 0 9 9 22 0 2\n",
    ),
    // All four commands in one run.
    (
        22,
        "sheet=1\nkeys=1\ndo=set 0 2147483647\ndo=set 1 -2147483648\ndo=set 2 -1\ndo=add 0 0\n\
         do=sub 0 1\ndo=mul 0 1\ndo=div 0 2\ndo=put 0 0\ndo=send\nturns=LLLLLLLLL\n",
        "sent=0008 +2147483647\nend=0 0 9 9 22 0 4\n",
    ),
    // No other command counts, whatever number it has to do with.
    (
        22,
        "sheet=1\nkeys=1\ndo=set 0 -2147483648\ndo=put 0 0\ndo=read 1 0\ndo=has 2 0\ndo=ifzero 1 0\n\
         do=ifneg 2 0\ndo=drop 0\ndo=send\nturns=LLLLLLLL\n",
        "sent=0007 ...........\nend=0 0 8 8 22 0 0\n",
    ),
    // Eight keys and the last variable.
    (
        106,
        "sheet=1\nkeys=8\nsecret=7:2147483647\ndo=receive\ndo=read 7 7\ndo=add 7 7\ndo=put 7 7\n\
         do=send\nmsg=0:1,7:-2147483648\nturns=LHLHLHLHL\n",
        "sent=0008 +0000000001 ........... ........... ........... ........... ........... \
         ........... -2147483648\nend=0 0 9 5 106 1 1\n",
    ),
];

/// Each command at each end of the range: exact results that just reach it, and results beyond it.
pub const ENDS: &[Arithmetic] = &[
    (2147483646, "add", 1, "+2147483647", 0),
    (2147483647, "add", 0, "+2147483647", 0),
    (2147483647, "add", -1, "+2147483646", 0),
    (1, "add", 2147483647, "+2147483647", 1),
    (1073741824, "add", 1073741823, "+2147483647", 0),
    (1073741824, "add", 1073741824, "+2147483647", 1),
    (2147483647, "add", 2147483647, "+2147483647", 1),
    (2147483647, "add", -2147483648, "-0000000001", 0),
    (-2147483647, "add", -1, "-2147483648", 0),
    (-2147483648, "add", 0, "-2147483648", 0),
    (-2147483648, "add", 1, "-2147483647", 0),
    (-1, "add", -2147483648, "-2147483648", 1),
    (-1073741824, "add", -1073741824, "-2147483648", 0),
    (-1073741824, "add", -1073741825, "-2147483648", 1),
    (2147483646, "sub", -1, "+2147483647", 0),
    (2147483647, "sub", -1, "+2147483647", 1),
    (2147483647, "sub", 0, "+2147483647", 0),
    (2147483647, "sub", 2147483647, "+0000000000", 0),
    (2147483647, "sub", -2147483648, "+2147483647", 1),
    (1073741823, "sub", -1073741824, "+2147483647", 0),
    (1073741824, "sub", -1073741824, "+2147483647", 1),
    (0, "sub", 2147483647, "-2147483647", 0),
    (-1, "sub", 2147483647, "-2147483648", 0),
    (-2147483647, "sub", 1, "-2147483648", 0),
    (-2147483648, "sub", 0, "-2147483648", 0),
    (-2147483648, "sub", -1, "-2147483647", 0),
    (-2147483648, "sub", -2147483648, "+0000000000", 0),
    (-2147483648, "sub", 2147483647, "-2147483648", 1),
    (2147483647, "mul", 1, "+2147483647", 0),
    (2147483647, "mul", -1, "-2147483647", 0),
    (-2147483647, "mul", -1, "+2147483647", 0),
    (1073741823, "mul", 2, "+2147483646", 0),
    (1073741824, "mul", 2, "+2147483647", 1),
    (32768, "mul", 65536, "+2147483647", 1),
    (715827883, "mul", 3, "+2147483647", 1),
    (1073741824, "mul", -2, "-2147483648", 0),
    (-2147483648, "mul", 1, "-2147483648", 0),
    (-2147483648, "mul", 0, "+0000000000", 0),
    (715827882, "mul", -3, "-2147483646", 0),
    (715827883, "mul", -3, "-2147483648", 1),
    (-46341, "mul", 46340, "-2147441940", 0),
    (-46341, "mul", 46341, "-2147483648", 1),
    (2147483647, "mul", 2147483647, "+2147483647", 1),
    (2147483647, "mul", -2147483648, "-2147483648", 1),
    // Of these products the last 32 bits alone would be 0 and -1.
    (65536, "mul", 65536, "+2147483647", 1),
    (65537, "mul", 65535, "+2147483647", 1),
    (2147483647, "div", 1, "+2147483647", 0),
    (2147483647, "div", -1, "-2147483647", 0),
    (-2147483647, "div", -1, "+2147483647", 0),
    (-2147483648, "div", -2, "+1073741824", 0),
    (-2147483648, "div", -2147483648, "+0000000001", 0),
    (-1, "div", -2147483648, "+0000000000", 0),
    (2147483647, "div", 0, "+0000000000", 0),
    (-1, "div", 0, "+0000000000", 0),
];

/// The seventh number "is 0 on a refusal of the sheet", also where the program would clamp.
pub const REFUSED_CLAMPS: &[Refused] = &[
    // A worked example of the note.
    (
        7,
        4,
        b"sheet=1\nkeys=1\nsecret=0:0\ndo=jump 2\nmsg=0:2147483647\nturns=LLLLLLLL\n",
    ),
    (
        2,
        5,
        b"sheet=1\nkeys=1\ndo=set 0 2147483647\ndo=add 0 0\nturns=LL",
    ),
    (
        3,
        6,
        b"sheet=1\nkeys=1\ndo=set 0 2147483647\ndo=add 0 0\nturns=LL\n\n",
    ),
    (
        7,
        5,
        b"sheet=1\nkeys=1\ndo=set 0 2147483647\ndo=add 0 0\ndo=jump 4\nturns=LLLL\n",
    ),
    (
        9,
        5,
        b"sheet=1\nkeys=1\ndo=set 0 2147483647\ndo=add 0 0\nturns=LLx\n",
    ),
];

/// Counts beyond what one byte holds.
pub const LONG_CLAMPS: &[Long] = &[
    // A sum in every second turn of the low execution: with all letters L, with every second, and with
    // the first alone.
    (
        &[
            (b"sheet=1\nkeys=1\ndo=set 0 2147483647\ndo=add 0 0\n", 1),
            (b"do=jump 1\nturns=", 1),
            (b"L", 1024),
            (b"\n", 1),
        ],
        "end=31 0 1024 1024 0 0 512\n",
    ),
    (
        &[
            (b"sheet=1\nkeys=1\ndo=set 0 2147483647\ndo=add 0 0\n", 1),
            (b"do=jump 1\nturns=", 1),
            (b"LH", 512),
            (b"\n", 1),
        ],
        "end=31 0 1024 512 0 0 256\n",
    ),
    (
        &[
            (b"sheet=1\nkeys=1\ndo=set 0 2147483647\ndo=add 0 0\n", 1),
            (b"do=jump 1\nturns=L", 1),
            (b"H", 1023),
            (b"\n", 1),
        ],
        "end=31 0 1024 1 0 0 0\n",
    ),
    // The greatest count. All is 0 at first, so the first command clamps nothing; and of 64 commands
    // one has to lead back, so no more than 62 clamped results stand in a row: 62 in each of 16 rounds,
    // and 15.
    (
        &[
            (b"sheet=1\nkeys=1\ndo=set 0 2147483647\n", 1),
            (b"do=add 0 0\n", 62),
            (b"do=jump 1\nturns=", 1),
            (b"L", 1024),
            (b"\n", 1),
        ],
        "end=31 0 1024 1024 0 0 1007\n",
    ),
];
