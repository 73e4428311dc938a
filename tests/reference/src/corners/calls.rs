//! Sheets that turn on document 02's Note 2: "the j-th high call moves on only if the j-th low call
//! has been made and was of the same kind". What the low execution's last line has in its secret
//! column tells how far the high execution came.

use super::{Long, Run};

/// The maker's program of the note, in which the low execution receives where the high one sends; the
/// same with a high `receive`; and turns that leave the high execution none before the run is over.
pub const WRONG: Run = (
    32_768,
    "sheet=1\nkeys=2\nsecret=1:0\ndo=receive\ndo=read 0 1\ndo=ifzero 0 5\ndo=send\ndo=jump 6\n\
     do=receive\ndo=set 2 7\ndo=put 1 2\ndo=send\nmsg=0:1,1:1\nmsg=0:2,1:2\n\
     turns=LHLHLHLHHHHLLL\n",
    "sent=0013 +0000000002 +0000000002\nend=0 0 14 7 34 2 0\n",
);
pub const SAME: Run = (
    32_768,
    "sheet=1\nkeys=2\nsecret=1:0\ndo=receive\ndo=read 0 1\ndo=ifzero 0 5\ndo=receive\ndo=jump 6\n\
     do=receive\ndo=set 2 7\ndo=put 1 2\ndo=send\nmsg=0:1,1:1\nmsg=0:2,1:2\n\
     turns=LHLHLHLHHHHLLL\n",
    "sent=0013 +0000000002 +0000000007\nend=0 0 14 7 34 2 0\n",
);
pub const LATE: Run = (
    32_768,
    "sheet=1\nkeys=2\nsecret=1:0\ndo=receive\ndo=read 0 1\ndo=ifzero 0 5\ndo=send\ndo=jump 6\n\
     do=receive\ndo=set 2 7\ndo=put 1 2\ndo=send\nmsg=0:1,1:1\nmsg=0:2,1:2\n\
     turns=LLLLLLLHHHHHHHH\n",
    "sent=0006 +0000000002 +0000000002\nend=0 0 7 7 34 2 0\n",
);

pub const CALLS: &[Run] = &[
    WRONG,
    SAME,
    LATE,
    // "the j-th low call has been made": none at position 0; one of two; and both, in time or not.
    (
        22,
        "sheet=1\nkeys=1\nsecret=0:0\ndo=receive\ndo=set 0 5\ndo=put 0 0\ndo=send\nmsg=0:1\n\
         turns=HLHHLLL\n",
        "sent=0006 +0000000001\nend=0 0 7 4 22 1 0\n",
    ),
    (
        44,
        "sheet=1\nkeys=1\nsecret=0:0\ndo=receive\ndo=send\ndo=set 0 5\ndo=put 0 0\ndo=send\n\
         msg=0:1\nturns=LHHHHLLLL\n",
        "sent=0005 +0000000001\nsent=0008 +0000000001\nend=0 0 9 5 44 1 0\n",
    ),
    (
        22,
        "sheet=1\nkeys=1\nsecret=0:0\ndo=receive\ndo=receive\ndo=set 0 4\ndo=put 0 0\ndo=send\n\
         msg=0:1\nmsg=0:2\nturns=LHHHHLHHHLLL\n",
        "sent=0011 +0000000004\nend=0 0 12 5 22 2 0\n",
    ),
    (
        22,
        "sheet=1\nkeys=1\nsecret=0:0\ndo=receive\ndo=receive\ndo=set 0 4\ndo=put 0 0\ndo=send\n\
         msg=0:1\nmsg=0:2\nturns=LHHHHLHLLL\n",
        "sent=0009 +0000000002\nend=0 0 10 5 22 2 0\n",
    ),
    // Exactly j low calls are enough, here for a `send`.
    (
        44,
        "sheet=1\nkeys=1\nsecret=0:0\ndo=receive\ndo=send\ndo=set 0 5\ndo=put 0 0\ndo=send\n\
         msg=0:1\nturns=LHLHHHLLL\n",
        "sent=0002 +0000000001\nsent=0008 +0000000005\nend=0 0 9 5 44 1 0\n",
    ),
    // "and was of the same kind": the second call is a low `send` and a high `receive`.
    (
        44,
        "sheet=1\nkeys=1\nsecret=0:0\ndo=receive\ndo=read 0 0\ndo=ifzero 0 5\ndo=receive\n\
         do=jump 6\ndo=send\ndo=set 1 8\ndo=put 0 1\ndo=send\nmsg=0:9\nturns=LHHHHLLLHHHHLLL\n",
        "sent=0007 +0000000009\nsent=0014 +0000000009\nend=0 0 15 7 44 1 0\n",
    ),
    // "the j-th low call", and not the last. The high execution begins when the low one has sent:
    // its first call moves on as the first low call was a `receive`.
    (
        44,
        "sheet=1\nkeys=1\nsecret=0:0\ndo=receive\ndo=set 0 4\ndo=put 0 0\ndo=send\ndo=send\n\
         msg=0:9\nturns=LLLLHHHL\n",
        "sent=0003 +0000000009\nsent=0007 +0000000004\nend=0 0 8 5 44 1 0\n",
    ),
    // Four calls behind, of both kinds in turn.
    (
        66,
        "sheet=1\nkeys=1\nsecret=0:0\ndo=receive\ndo=send\ndo=receive\ndo=send\ndo=set 0 6\n\
         do=put 0 0\ndo=send\nmsg=0:1\nmsg=0:2\nturns=LLLLLLHHHHHHL\n",
        "sent=0001 +0000000001\nsent=0003 +0000000002\nsent=0012 +0000000006\n\
         end=0 0 13 7 66 2 0\n",
    ),
    // The second high call is a `send`, and so is the last low call; but the second low call was a
    // `receive`.
    (
        44,
        "sheet=1\nkeys=1\nsecret=0:0\ndo=receive\ndo=read 0 0\ndo=ifzero 0 5\ndo=send\ndo=jump 6\n\
         do=receive\ndo=send\ndo=set 1 8\ndo=put 0 1\ndo=send\nmsg=0:3\nmsg=0:4\n\
         turns=LLLLLHHHHHHHHLLL\n",
        "sent=0004 +0000000004\nsent=0015 +0000000004\nend=0 0 16 8 44 2 0\n",
    ),
    // "the high execution idles for the rest of the run", also while the low one makes two calls of
    // the kind that the high one waits with; from there the way to the `put` has no other call.
    (
        66,
        "sheet=1\nkeys=1\nsecret=0:0\ndo=receive\ndo=read 0 0\ndo=ifzero 0 5\ndo=send\ndo=jump 8\n\
         do=receive\ndo=send\ndo=send\ndo=set 1 8\ndo=put 0 1\ndo=send\nmsg=0:3\nmsg=0:4\n\
         turns=LHLHLHLHLHLHHHHHLLL\n",
        "sent=0008 +0000000004\nsent=0010 +0000000004\nsent=0018 +0000000004\n\
         end=0 0 19 9 66 2 0\n",
    ),
    // A low `receive` with no line left is a `receive`: a high `send` idles at it, a high `receive`
    // moves on.
    (
        22,
        "sheet=1\nkeys=1\nsecret=0:0\ndo=receive\ndo=read 0 0\ndo=ifzero 0 5\ndo=send\ndo=jump 6\n\
         do=receive\ndo=set 1 7\ndo=put 0 1\ndo=send\nmsg=0:3\nturns=LHLHLHLHHHHLLL\n",
        "sent=0013 ...........\nend=0 0 14 7 22 1 0\n",
    ),
    (
        22,
        "sheet=1\nkeys=1\nsecret=0:0\ndo=receive\ndo=read 0 0\ndo=ifzero 0 5\ndo=receive\n\
         do=jump 6\ndo=receive\ndo=set 1 7\ndo=put 0 1\ndo=send\nmsg=0:3\nturns=LHLHLHLHHHHLLL\n",
        "sent=0013 +0000000007\nend=0 0 14 7 22 1 0\n",
    ),
];

/// However many calls the high execution is behind.
pub const LONG_CALLS: &[Long] = &[
    // 39 rounds of ten `receive`, then a `send`: 391 calls, which the high execution makes after all
    // of them are there.
    (
        &[
            (b"sheet=1\nkeys=1\nsecret=0:0\ndo=set 0 39\ndo=set 1 1\n", 1),
            (b"do=receive\n", 10),
            (b"do=sub 0 1\ndo=ifzero 0 15\ndo=jump 2\n", 1),
            (b"do=send\ndo=set 2 5\ndo=put 0 2\ndo=send\nturns=", 1),
            (b"L", 509),
            (b"H", 511),
            (b"LLL\n", 1),
        ],
        "sent=0508 ...........\nsent=1022 +0000000005\nend=0 0 1023 512 44 0 0\n",
    ),
    // A `receive`, 38 rounds of ten, and as the 382nd call a low `send` and a high `receive`: the
    // high execution has read 9 and the low one its dummy.
    (
        &[
            (b"sheet=1\nkeys=1\nsecret=0:0\ndo=receive\ndo=read 3 0\n", 1),
            (b"do=set 0 38\ndo=set 1 1\n", 1),
            (b"do=receive\n", 10),
            (b"do=sub 0 1\ndo=ifzero 0 17\ndo=jump 4\n", 1),
            (b"do=ifzero 3 20\ndo=receive\ndo=jump 21\ndo=send\n", 1),
            (b"do=set 2 5\ndo=put 0 2\ndo=send\nmsg=0:9\nturns=LLHH", 1),
            (b"L", 497),
            (b"H", 500),
            (b"LLL\n", 1),
        ],
        "sent=0500 ...........\nsent=1003 ...........\nend=0 0 1004 502 44 1 0\n",
    ),
];
