//! Sheets with turns of N times LH that turn on document 02's Note 4: "If both receive and send at the
//! same steps, counted from 0, and send the same open entries, and the lent memory holds all the lines,
//! then the monitor sends exactly what the plain run on real messages sends." Both are the plain runs:
//! the one on the real messages, and the one on dummies at every secret key.

use super::{Long, Run};

/// A sheet whose program is not honest, or whose memory is too short, and what the plain run on real
/// messages sends.
pub type Spoilt = (Run, &'static str);

/// A program that doubles a secret entry, which its second message lacks: the dummy, 300, is nowhere
/// to be seen. Exactly enough memory.
pub const DOUBLES: Run = (
    68,
    "sheet=1\nkeys=2\nsecret=1:300\ndo=receive\ndo=read 0 1\ndo=add 0 0\ndo=put 1 0\ndo=send\n\
     do=jump 0\nmsg=0:1,1:5\nmsg=0:2\nturns=LHLHLHLHLHLHLHLHLHLHLHLH\n",
    "sent=0008 +0000000001 +0000000010\nsent=0020 +0000000002 +0000000000\n\
     end=31 0 24 12 68 2 0\n",
);

/// Honest programs, in memory that holds all the lines: the plain run sends the lines that are printed
/// here, and no others.
pub const HONEST: &[Run] = &[
    DOUBLES,
    // One step: a `send`, and one that comes too late.
    (
        22,
        "sheet=1\nkeys=1\nsecret=0:5\ndo=send\nturns=LH\n",
        "sent=0000 ...........\nend=0 0 1 1 22 0 0\n",
    ),
    (
        0,
        "sheet=1\nkeys=1\nsecret=0:5\ndo=receive\ndo=send\nmsg=0:4\nturns=LH\n",
        "end=31 0 2 1 0 1 0\n",
    ),
    // "once stopped it does nothing more": the second `send` is never reached.
    (
        22,
        "sheet=1\nkeys=1\nsecret=0:5\ndo=receive\ndo=send\ndo=stop\ndo=send\nmsg=0:4\n\
         turns=LHLHLHLHLHLH\n",
        "sent=0002 +0000000004\nend=0 0 5 3 22 1 0\n",
    ),
    // On dummies the run stops after four steps, on real messages never; and the reverse. Neither makes
    // another call.
    (
        22,
        "sheet=1\nkeys=1\nsecret=0:0\ndo=receive\ndo=send\ndo=read 0 0\ndo=ifzero 0 5\ndo=jump 4\n\
         msg=0:9\nturns=LHLHLHLHLHLHLHLH\n",
        "sent=0002 +0000000009\nend=0 0 7 4 22 1 0\n",
    ),
    (
        22,
        "sheet=1\nkeys=1\nsecret=0:9\ndo=receive\ndo=send\ndo=read 0 0\ndo=ifzero 0 5\ndo=jump 4\n\
         msg=0:0\nturns=LHLHLHLHLHLHLHLH\n",
        "sent=0002 +0000000000\nend=31 0 16 8 22 1 0\n",
    ),
    // A secret decides the way, and both ways are three steps long.
    (
        22,
        "sheet=1\nkeys=1\nsecret=0:5\ndo=receive\ndo=read 0 0\ndo=ifneg 0 6\ndo=set 1 1\n\
         do=put 0 1\ndo=jump 9\ndo=set 1 2\ndo=put 0 1\ndo=set 1 0\ndo=send\nmsg=0:-5\n\
         turns=LHLHLHLHLHLHLH\n",
        "sent=0012 +0000000002\nend=0 0 13 7 22 1 0\n",
    ),
    // An open entry may hold a secret as long as none is sent there.
    (
        34,
        "sheet=1\nkeys=2\nsecret=1:300\ndo=receive\ndo=read 0 1\ndo=put 0 0\ndo=set 1 4\n\
         do=put 0 1\ndo=send\nmsg=0:1,1:5\nturns=LHLHLHLHLHLH\n",
        "sent=0010 +0000000004 +0000000005\nend=0 0 11 6 34 1 0\n",
    ),
    // The line lacks the secret key: `has` tells of it in the secret column.
    (
        34,
        "sheet=1\nkeys=2\nsecret=1:5\ndo=receive\ndo=has 0 1\ndo=put 1 0\ndo=send\nmsg=\n\
         turns=LHLHLHLH\n",
        "sent=0006 ........... +0000000000\nend=0 0 7 4 34 1 0\n",
    ),
    // A program that is honest on this sheet by chance: -4 without the second entry and 5 with it give
    // the same open entry. The low execution sends 5 if it has dummies only in place of entries.
    (
        46,
        "sheet=1\nkeys=3\nsecret=1:5\nsecret=2:7\ndo=receive\ndo=read 0 1\ndo=has 1 2\ndo=set 2 9\n\
         do=mul 1 2\ndo=sub 0 1\ndo=put 0 0\ndo=send\nmsg=1:-4\nturns=LHLHLHLHLHLHLHLH\n",
        "sent=0014 -0000000004 -0000000004 ...........\nend=0 0 15 8 46 1 0\n",
    ),
    // With no line left there is no dummy: `has` gives 0 in both runs, and may be put anywhere.
    (
        34,
        "sheet=1\nkeys=2\nsecret=1:7\ndo=receive\ndo=receive\ndo=has 0 1\ndo=put 0 0\ndo=send\n\
         msg=0:1,1:2\nturns=LHLHLHLHLH\n",
        "sent=0008 +0000000000 ...........\nend=0 0 9 5 34 1 0\n",
    ),
    // Nothing is sent, so no memory is needed.
    (
        0,
        "sheet=1\nkeys=1\nsecret=0:3\ndo=receive\ndo=has 0 0\ndo=jump 0\nmsg=0:1\nmsg=\n\
         turns=LHLHLHLHLHLH\n",
        "end=31 0 12 6 0 2 0\n",
    ),
    // The entry is the dummy, so nothing that is done with it makes a difference.
    (
        22,
        "sheet=1\nkeys=1\nsecret=0:-7\ndo=receive\ndo=read 0 0\ndo=ifneg 0 4\ndo=send\ndo=send\n\
         msg=0:-7\nturns=LHLHLHLH\n",
        "sent=0006 -0000000007\nend=0 0 7 4 22 1 0\n",
    ),
    // Without a secret key every program is honest: here an entry decides the step of a `send`.
    (
        68,
        "sheet=1\nkeys=2\ndo=receive\ndo=read 0 1\ndo=ifzero 0 4\ndo=put 0 0\ndo=send\ndo=jump 0\n\
         msg=0:4,1:0\nmsg=0:5,1:6\nturns=LHLHLHLHLHLHLHLHLHLHLHLH\n",
        "sent=0006 +0000000004 +0000000000\nsent=0018 +0000000006 +0000000006\n\
         end=31 0 24 12 68 2 0\n",
    ),
    // Eight keys, half of them secret.
    (
        106,
        "sheet=1\nkeys=8\nsecret=1:0\nsecret=3:0\nsecret=5:0\nsecret=7:0\ndo=receive\ndo=read 0 1\n\
         do=put 7 0\ndo=drop 3\ndo=send\nmsg=0:-1,1:2,2:-3,3:4,4:-5,5:6,6:-7,7:8\n\
         turns=LHLHLHLHLH\n",
        "sent=0008 -0000000001 +0000000002 -0000000003 ........... -0000000005 +0000000006 \
         -0000000007 +0000000002\nend=0 0 9 5 106 1 0\n",
    ),
    // The program of [`ORDER`], but N is 3: neither run has sent yet.
    (
        0,
        "sheet=1\nkeys=2\nsecret=1:1\ndo=receive\ndo=has 0 1\ndo=ifzero 0 4\ndo=set 0 1\ndo=send\n\
         msg=\nturns=LHLHLH\n",
        "end=31 0 6 3 0 1 0\n",
    ),
];

/// Calls at the same steps, but of two kinds: on real messages a `send`, on dummies a `receive`.
pub const EITHER: Spoilt = (
    (
        32_768,
        "sheet=1\nkeys=1\nsecret=0:0\ndo=receive\ndo=has 0 0\ndo=ifzero 0 4\ndo=receive\ndo=send\n\
         msg=\nturns=LHLHLHLH\n",
        "end=31 0 8 4 0 1 0\n",
    ),
    "sent=0006 ...........\n",
);

/// The same calls in the same order, but the `send` is one step later on dummies.
pub const ORDER: Spoilt = (
    (
        32_768,
        "sheet=1\nkeys=2\nsecret=1:1\ndo=receive\ndo=has 0 1\ndo=ifzero 0 4\ndo=set 0 1\ndo=send\n\
         msg=\nturns=LHLHLHLHLH\n",
        "sent=0008 ........... ...........\nend=0 0 9 5 34 1 0\n",
    ),
    "sent=0006 ........... ...........\n",
);

/// A `send` at the same step, but one more `receive` on real messages, at which the high execution
/// stays.
pub const SENDS: Spoilt = (
    (
        32_768,
        "sheet=1\nkeys=1\nsecret=0:-1\ndo=receive\ndo=has 0 0\ndo=ifzero 0 5\ndo=drop 0\ndo=jump 7\n\
         do=receive\ndo=jump 7\ndo=put 0 2\ndo=send\nmsg=\nturns=LHLHLHLHLHLHLH\n",
        "sent=0012 ...........\nend=0 0 13 7 22 1 0\n",
    ),
    "sent=0012 +0000000000\n",
);

/// The same calls at the same steps, but an open entry tells whether there was a secret one.
pub const OPEN: Spoilt = (
    (
        32_768,
        "sheet=1\nkeys=2\nsecret=1:1\ndo=receive\ndo=has 0 1\ndo=put 0 0\ndo=send\nmsg=\n\
         turns=LHLHLHLH\n",
        "sent=0006 +0000000001 ...........\nend=0 0 7 4 34 1 0\n",
    ),
    "sent=0006 +0000000000 ...........\n",
);

/// The same, with an open entry that is absent on dummies and 0 on real messages.
pub const ABSENT: Spoilt = (
    (
        32_768,
        "sheet=1\nkeys=2\nsecret=1:0\ndo=receive\ndo=read 0 1\ndo=ifzero 0 6\ndo=set 1 0\n\
         do=put 0 1\ndo=jump 9\ndo=set 1 0\ndo=drop 0\ndo=set 1 0\ndo=send\nmsg=0:3,1:1\n\
         turns=LHLHLHLHLHLHLH\n",
        "sent=0012 ........... +0000000001\nend=0 0 13 7 34 1 0\n",
    ),
    "sent=0012 +0000000000 +0000000001\n",
);

/// The same calls until the run on dummies has stopped. All N steps count, not only those until then.
pub const STOPS: Spoilt = (
    (
        32_768,
        "sheet=1\nkeys=1\nsecret=0:0\ndo=receive\ndo=read 0 0\ndo=ifzero 0 4\ndo=send\nmsg=0:9\n\
         turns=LHLHLHLH\n",
        "end=0 0 5 3 0 1 0\n",
    ),
    "sent=0006 +0000000009\n",
);

/// Programs that are not honest, whatever memory is lent: the plain run sends something else.
pub const SPOILT: &[Spoilt] = &[
    EITHER,
    ORDER,
    SENDS,
    OPEN,
    ABSENT,
    STOPS,
    // The program of [`ORDER`], and N is 4: the run on real messages has sent, the other not yet.
    (
        (
            32_768,
            "sheet=1\nkeys=2\nsecret=1:1\ndo=receive\ndo=has 0 1\ndo=ifzero 0 4\ndo=set 0 1\n\
             do=send\nmsg=\nturns=LHLHLHLH\n",
            "end=31 0 8 4 0 1 0\n",
        ),
        "sent=0006 ........... ...........\n",
    ),
];

/// An honest program in memory that is one byte short of all the lines: what fits is as in the plain
/// run, the rest is not there.
pub const SHORT: &[Spoilt] = &[
    (
        (
            67,
            "sheet=1\nkeys=2\nsecret=1:300\ndo=receive\ndo=read 0 1\ndo=add 0 0\ndo=put 1 0\n\
             do=send\ndo=jump 0\nmsg=0:1,1:5\nmsg=0:2\nturns=LHLHLHLHLHLHLHLHLHLHLHLH\n",
            "sent=0008 +0000000001 +0000000010\nend=32 0 20 10 34 2 0\n",
        ),
        "sent=0008 +0000000001 +0000000010\nsent=0020 +0000000002 +0000000000\n",
    ),
    (
        (
            21,
            "sheet=1\nkeys=1\nsecret=0:5\ndo=send\nturns=LH\n",
            "end=32 0 0 0 0 0 0\n",
        ),
        "sent=0000 ...........\n",
    ),
];

/// A program that is not honest and loses nothing all the same: the run on real messages receives
/// once more when the other has stopped. The note says nothing of such programs.
pub const LUCKY: Run = (
    22,
    "sheet=1\nkeys=1\nsecret=0:0\ndo=receive\ndo=send\ndo=read 0 0\ndo=ifzero 0 5\ndo=receive\n\
     msg=0:9\nturns=LHLHLHLHLH\n",
    "sent=0002 +0000000009\nend=0 0 7 4 22 1 0\n",
);

/// Honest programs of 512 steps.
pub const LONG_HONEST: &[Long] = &[
    // The last step is the only `send`. Two commands and 169 rounds of a loop take 508 steps; then the
    // entry is copied to another secret key.
    (
        &[
            (b"sheet=1\nkeys=3\nsecret=1:300\nsecret=2:4\n", 1),
            (b"do=set 0 169\ndo=set 1 1\ndo=sub 0 1\n", 1),
            (b"do=ifzero 0 5\ndo=jump 2\ndo=receive\n", 1),
            (b"do=read 2 1\ndo=put 2 2\ndo=send\n", 1),
            (b"msg=0:1500,1:1480\nturns=", 1),
            (b"LH", 512),
            (b"\n", 1),
        ],
        "sent=1022 +0000001500 +0000001480 +0000001480\nend=0 0 1023 512 46 1 0\n",
    ),
    // After one `send` both runs go round a loop, and a secret decides how long a round is. Neither
    // makes a call there.
    (
        &[
            (b"sheet=1\nkeys=1\nsecret=0:-1\ndo=receive\ndo=send\n", 1),
            (b"do=read 0 0\ndo=ifneg 0 2\ndo=jump 2\nmsg=0:6\nturns=", 1),
            (b"LH", 512),
            (b"\n", 1),
        ],
        "sent=0002 +0000000006\nend=31 0 1024 512 22 1 0\n",
    ),
];
