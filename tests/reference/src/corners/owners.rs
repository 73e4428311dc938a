//! Sheets of form 2, that turn on document 02's Note 8: "An airport and its handler both have secret
//! entries, and neither may learn the other's." And sheets of form 1 with something of form 2. What
//! stands in a column tells which execution it comes from, and how far that one came.

use super::{Long, Refused, Run};

/// The worked examples: each owner's execution adds its own entry to the other's dummy. The second
/// lacks B's entry, the third has another one of A's, the fourth has no line at all.
pub const TWO: Run = (
    32_768,
    "sheet=2\nkeys=3\nsecret=1:300:A\nsecret=2:400:B\ndo=receive\ndo=read 0 1\ndo=read 1 2\n\
     do=add 0 1\ndo=put 1 0\ndo=put 2 0\ndo=send\nmsg=0:7,1:10,2:20\nturns=LABLABLABLABLABLABLAB\n",
    "sent=0018 +0000000007 +0000000410 +0000000320\nend=0 0 19 7 46 1 0\n",
);
pub const WITHOUT_B: Run = (
    32_768,
    "sheet=2\nkeys=3\nsecret=1:300:A\nsecret=2:400:B\ndo=receive\ndo=read 0 1\ndo=read 1 2\n\
     do=add 0 1\ndo=put 1 0\ndo=put 2 0\ndo=send\nmsg=0:7,1:10\nturns=LABLABLABLABLABLABLAB\n",
    "sent=0018 +0000000007 +0000000410 +0000000300\nend=0 0 19 7 46 1 0\n",
);
pub const OTHER_A: Run = (
    32_768,
    "sheet=2\nkeys=3\nsecret=1:300:A\nsecret=2:400:B\ndo=receive\ndo=read 0 1\ndo=read 1 2\n\
     do=add 0 1\ndo=put 1 0\ndo=put 2 0\ndo=send\nmsg=0:7,1:-10,2:20\nturns=LABLABLABLABLABLABLAB\n",
    "sent=0018 +0000000007 +0000000390 +0000000320\nend=0 0 19 7 46 1 0\n",
);
pub const NO_LINE: Run = (
    32_768,
    "sheet=2\nkeys=3\nsecret=1:300:A\nsecret=2:400:B\ndo=receive\ndo=read 0 1\ndo=read 1 2\n\
     do=add 0 1\ndo=put 1 0\ndo=put 2 0\ndo=send\nturns=LABLABLABLABLABLABLAB\n",
    "sent=0018 ........... +0000000000 +0000000000\nend=0 0 19 7 46 0 0\n",
);

/// The dummies are equal, A's entry is below them and B's too: the low execution finds a difference of
/// 0, A's a negative one and B's a positive one, and each goes its own way.
pub const THREE_WAYS: Run = (
    46,
    "sheet=2\nkeys=3\nsecret=1:300:A\nsecret=2:300:B\ndo=receive\ndo=read 0 1\ndo=read 1 2\n\
     do=sub 0 1\ndo=ifneg 0 8\ndo=ifzero 0 10\ndo=set 2 3\ndo=jump 11\ndo=set 2 4\ndo=jump 11\n\
     do=set 2 5\ndo=put 0 2\ndo=put 1 2\ndo=put 2 2\ndo=send\nmsg=0:1,1:10,2:20\n\
     turns=LABLABLABLABLABLABLABLABLABLABBL\n",
    "sent=0031 +0000000005 +0000000004 +0000000003\nend=0 0 32 11 46 1 0\n",
);

/// A's entry leads A's execution to a `send` where the low one receives: it idles for the rest of the
/// run, and B's goes on. And the reverse.
pub const A_AT_THE_WRONG_CALL: Run = (
    34,
    "sheet=2\nkeys=2\nsecret=0:0:A\nsecret=1:0:B\ndo=receive\ndo=read 0 0\ndo=ifzero 0 5\ndo=send\n\
     do=jump 6\ndo=receive\ndo=set 2 7\ndo=put 0 2\ndo=put 1 2\ndo=send\nmsg=0:1,1:1\nmsg=0:2,1:2\n\
     turns=LABLABLABLABBBBAAALLLL\n",
    "sent=0021 +0000000002 +0000000007\nend=0 0 22 8 34 2 0\n",
);
pub const B_AT_THE_WRONG_CALL: Run = (
    34,
    "sheet=2\nkeys=2\nsecret=0:0:A\nsecret=1:0:B\ndo=receive\ndo=read 0 1\ndo=ifzero 0 5\ndo=send\n\
     do=jump 6\ndo=receive\ndo=set 2 7\ndo=put 0 2\ndo=put 1 2\ndo=send\nmsg=0:1,1:1\nmsg=0:2,1:2\n\
     turns=LABLABLABLABAAABBBBLLLL\n",
    "sent=0022 +0000000007 +0000000002\nend=0 0 23 8 34 2 0\n",
);

/// A's entry leads A's execution into an endless loop while B's goes on. And the reverse.
pub const A_GOES_ROUND: Run = (
    34,
    "sheet=2\nkeys=2\nsecret=0:0:A\nsecret=1:0:B\ndo=receive\ndo=read 0 0\ndo=ifzero 0 4\ndo=jump 3\n\
     do=set 1 9\ndo=put 0 1\ndo=put 1 1\ndo=send\nmsg=0:1,1:2\nturns=LABLABLABLABLABLABL\n",
    "sent=0018 +0000000001 +0000000009\nend=0 0 19 7 34 1 0\n",
);
pub const B_GOES_ROUND: Run = (
    34,
    "sheet=2\nkeys=2\nsecret=0:0:A\nsecret=1:0:B\ndo=receive\ndo=read 0 1\ndo=ifzero 0 4\ndo=jump 3\n\
     do=set 1 9\ndo=put 0 1\ndo=put 1 1\ndo=send\nmsg=0:1,1:2\nturns=LABLABLABLABLABLABL\n",
    "sent=0018 +0000000009 +0000000002\nend=0 0 19 7 34 1 0\n",
);

/// A's execution clamps and B's does, and the low one does not; and the low one does twice, each of the
/// others once, at the other's dummy.
pub const FOLLOWERS_CLAMP: Run = (
    34,
    "sheet=2\nkeys=2\nsecret=0:0:A\nsecret=1:0:B\ndo=receive\ndo=read 0 0\ndo=add 0 0\ndo=read 1 1\n\
     do=add 1 1\ndo=put 0 0\ndo=put 1 1\ndo=send\nmsg=0:2147483647,1:-2147483648\n\
     turns=LABLABLABLABLABLABLABL\n",
    "sent=0021 +2147483647 -2147483648\nend=0 0 22 8 34 1 0\n",
);
pub const LOW_CLAMPS_TWICE: Run = (
    34,
    "sheet=2\nkeys=2\nsecret=0:2147483647:A\nsecret=1:2147483647:B\ndo=receive\ndo=read 0 0\n\
     do=add 0 0\ndo=read 1 1\ndo=add 1 1\ndo=put 0 0\ndo=put 1 1\ndo=send\nmsg=0:1,1:2\n\
     turns=LABLABLABLABLABLABLABL\n",
    "sent=0021 +0000000002 +0000000004\nend=0 0 22 8 34 1 2\n",
);

pub const OWNERS: &[Run] = &[
    TWO,
    WITHOUT_B,
    OTHER_A,
    NO_LINE,
    THREE_WAYS,
    A_AT_THE_WRONG_CALL,
    B_AT_THE_WRONG_CALL,
    A_GOES_ROUND,
    B_GOES_ROUND,
    FOLLOWERS_CLAMP,
    LOW_CLAMPS_TWICE,
    // The same three ways with a turn of B less: B's entry stands yet.
    (
        46,
        "sheet=2\nkeys=3\nsecret=1:300:A\nsecret=2:300:B\ndo=receive\ndo=read 0 1\ndo=read 1 2\n\
         do=sub 0 1\ndo=ifneg 0 8\ndo=ifzero 0 10\ndo=set 2 3\ndo=jump 11\ndo=set 2 4\ndo=jump 11\n\
         do=set 2 5\ndo=put 0 2\ndo=put 1 2\ndo=put 2 2\ndo=send\nmsg=0:1,1:10,2:20\n\
         turns=LABLABLABLABLABLABLABLABLABLABL\n",
        "sent=0030 +0000000005 +0000000004 +0000000020\nend=0 0 31 11 46 1 0\n",
    ),
    // "A's sees ... B's dummies ... and B's the reverse": each puts what it sees at the other's key at its
    // own. The owners in the other order, too.
    (
        34,
        "sheet=2\nkeys=2\nsecret=0:5:A\nsecret=1:-6:B\ndo=receive\ndo=read 0 0\ndo=read 1 1\n\
         do=put 0 1\ndo=put 1 0\ndo=send\nmsg=0:11,1:22\nturns=LABLABLABLABLABL\n",
        "sent=0015 -0000000006 +0000000005\nend=0 0 16 6 34 1 0\n",
    ),
    (
        34,
        "sheet=2\nkeys=2\nsecret=0:5:B\nsecret=1:-6:A\ndo=receive\ndo=read 0 0\ndo=read 1 1\n\
         do=put 0 1\ndo=put 1 0\ndo=send\nmsg=0:11,1:22\nturns=LABLABLABLABLABL\n",
        "sent=0015 -0000000006 +0000000005\nend=0 0 16 6 34 1 0\n",
    ),
    // Both keys of one owner: it sees both entries, the other none of them.
    (
        34,
        "sheet=2\nkeys=2\nsecret=0:5:A\nsecret=1:-6:A\ndo=receive\ndo=read 0 0\ndo=read 1 1\n\
         do=put 0 1\ndo=put 1 0\ndo=send\nmsg=0:11,1:22\nturns=LABLABLABLABLABL\n",
        "sent=0015 +0000000022 +0000000011\nend=0 0 16 6 34 1 0\n",
    ),
    (
        34,
        "sheet=2\nkeys=2\nsecret=0:5:B\nsecret=1:-6:B\ndo=receive\ndo=read 0 0\ndo=read 1 1\n\
         do=put 0 1\ndo=put 1 0\ndo=send\nmsg=0:11,1:22\nturns=LABLABLABLABLABL\n",
        "sent=0015 +0000000022 +0000000011\nend=0 0 16 6 34 1 0\n",
    ),
    // "whether or not the line has those keys": the other's key is there in a line without entries, and in
    // one with both.
    (
        34,
        "sheet=2\nkeys=2\nsecret=0:5:A\nsecret=1:6:B\ndo=receive\ndo=has 0 1\ndo=put 0 0\ndo=has 1 0\n\
         do=put 1 1\ndo=send\nmsg=\nturns=LABLABLABLABLABL\n",
        "sent=0015 +0000000001 +0000000001\nend=0 0 16 6 34 1 0\n",
    ),
    (
        34,
        "sheet=2\nkeys=2\nsecret=0:5:A\nsecret=1:6:B\ndo=receive\ndo=has 0 1\ndo=put 0 0\ndo=has 1 0\n\
         do=put 1 1\ndo=send\nmsg=0:9,1:9\nturns=LABLABLABLABLABL\n",
        "sent=0015 +0000000001 +0000000001\nend=0 0 16 6 34 1 0\n",
    ),
    // Its own key is there only if the line has it.
    (
        34,
        "sheet=2\nkeys=2\nsecret=0:5:A\nsecret=1:6:B\ndo=receive\ndo=has 0 0\ndo=put 0 0\ndo=has 1 1\n\
         do=put 1 1\ndo=send\nmsg=\nturns=LABLABLABLABLABL\n",
        "sent=0015 +0000000000 +0000000000\nend=0 0 16 6 34 1 0\n",
    ),
    (
        34,
        "sheet=2\nkeys=2\nsecret=0:5:A\nsecret=1:6:B\ndo=receive\ndo=has 0 0\ndo=put 0 0\ndo=has 1 1\n\
         do=put 1 1\ndo=send\nmsg=0:9\nturns=LABLABLABLABLABL\n",
        "sent=0015 +0000000001 +0000000000\nend=0 0 16 6 34 1 0\n",
    ),
    (
        34,
        "sheet=2\nkeys=2\nsecret=0:5:A\nsecret=1:6:B\ndo=receive\ndo=has 0 0\ndo=put 0 0\ndo=has 1 1\n\
         do=put 1 1\ndo=send\nmsg=1:9\nturns=LABLABLABLABLABL\n",
        "sent=0015 +0000000000 +0000000001\nend=0 0 16 6 34 1 0\n",
    ),
    // An entry that the line lacks is sent as absent, if its owner leaves it so.
    (
        34,
        "sheet=2\nkeys=2\nsecret=0:5:A\nsecret=1:6:B\ndo=receive\ndo=send\nmsg=1:9\nturns=LABL\n",
        "sent=0003 ........... +0000000009\nend=0 0 4 2 34 1 0\n",
    ),
    // The low execution sees both dummies, and its `receive` fills the fields of all, without a turn of
    // theirs.
    (
        46,
        "sheet=2\nkeys=3\nsecret=1:300:A\nsecret=2:400:B\ndo=receive\ndo=read 0 1\ndo=read 1 2\n\
         do=add 0 1\ndo=put 0 0\ndo=send\nmsg=0:1,1:10,2:20\nturns=LLLLLL\n",
        "sent=0005 +0000000700 +0000000010 +0000000020\nend=0 0 6 6 46 1 0\n",
    ),
    // At an open key all three see the entry, or that it is absent.
    (
        46,
        "sheet=2\nkeys=3\nsecret=1:3:A\nsecret=2:4:B\ndo=receive\ndo=read 0 0\ndo=put 1 0\ndo=put 2 0\n\
         do=send\nmsg=0:7\nturns=LABLABLABLABL\n",
        "sent=0012 +0000000007 +0000000007 +0000000007\nend=0 0 13 5 46 1 0\n",
    ),
    (
        46,
        "sheet=2\nkeys=3\nsecret=1:3:A\nsecret=2:4:B\ndo=receive\ndo=has 0 0\ndo=put 1 0\ndo=put 2 0\n\
         do=send\nmsg=1:5,2:6\nturns=LABLABLABLABL\n",
        "sent=0012 ........... +0000000000 +0000000000\nend=0 0 13 5 46 1 0\n",
    ),
    // An open column comes from the low execution: what A's puts there, or B's, is not sent.
    (
        34,
        "sheet=2\nkeys=2\nsecret=1:0:A\ndo=receive\ndo=read 0 1\ndo=ifzero 0 5\ndo=set 1 5\ndo=put 0 1\n\
         do=send\nmsg=0:1,1:9\nturns=LAAAAALLL\n",
        "sent=0008 +0000000001 +0000000009\nend=0 0 9 4 34 1 0\n",
    ),
    (
        34,
        "sheet=2\nkeys=2\nsecret=1:0:B\ndo=receive\ndo=read 0 1\ndo=ifzero 0 5\ndo=set 1 5\ndo=put 0 1\n\
         do=send\nmsg=0:1,1:9\nturns=LBBBBBLLL\n",
        "sent=0008 +0000000001 +0000000009\nend=0 0 9 4 34 1 0\n",
    ),
    // A drops both entries, of which its own is its column's; what the low execution drops is no
    // column's here.
    (
        34,
        "sheet=2\nkeys=2\nsecret=0:5:A\nsecret=1:6:B\ndo=receive\ndo=drop 0\ndo=drop 1\ndo=send\n\
         msg=0:1,1:2\nturns=LAAALLL\n",
        "sent=0006 ........... +0000000002\nend=0 0 7 4 34 1 0\n",
    ),
    (
        34,
        "sheet=2\nkeys=2\nsecret=0:5:A\nsecret=1:6:B\ndo=receive\ndo=drop 0\ndo=drop 1\ndo=send\n\
         msg=0:1,1:2\nturns=LBBBLLL\n",
        "sent=0006 +0000000001 ...........\nend=0 0 7 4 34 1 0\n",
    ),
    // "with no line left every field becomes absent": the other's key too. Of three, two receive after
    // the last line and move on at it.
    (
        34,
        "sheet=2\nkeys=2\nsecret=0:5:A\nsecret=1:6:B\ndo=receive\ndo=receive\ndo=has 0 1\ndo=has 1 0\n\
         do=put 0 0\ndo=put 1 1\ndo=send\nmsg=0:1,1:2\nturns=LABLABLABLABLABLABL\n",
        "sent=0018 +0000000000 +0000000000\nend=0 0 19 7 34 1 0\n",
    ),
    (
        34,
        "sheet=2\nkeys=2\nsecret=0:5:A\nsecret=1:6:B\ndo=receive\ndo=receive\ndo=send\nmsg=0:1,1:2\n\
         turns=LLL\n",
        "sent=0002 ........... ...........\nend=0 0 3 3 34 1 0\n",
    ),
    // No field has anything at first, not even a dummy.
    (
        34,
        "sheet=2\nkeys=2\nsecret=0:5:A\nsecret=1:6:B\ndo=has 0 0\ndo=has 1 1\ndo=add 0 1\ndo=put 0 0\n\
         do=put 1 0\ndo=send\nmsg=0:1,1:2\nturns=LABLABLABLABLABL\n",
        "sent=0015 +0000000000 +0000000000\nend=0 0 16 6 34 0 0\n",
    ),
    // A comes far and B not at all, and the reverse.
    (
        34,
        "sheet=2\nkeys=2\nsecret=0:0:A\nsecret=1:0:B\ndo=receive\ndo=set 0 5\ndo=put 0 0\ndo=put 1 0\n\
         do=send\nmsg=0:1,1:2\nturns=LAAAALLLL\n",
        "sent=0008 +0000000005 +0000000002\nend=0 0 9 5 34 1 0\n",
    ),
    (
        34,
        "sheet=2\nkeys=2\nsecret=0:0:A\nsecret=1:0:B\ndo=receive\ndo=set 0 5\ndo=put 0 0\ndo=put 1 0\n\
         do=send\nmsg=0:1,1:2\nturns=LBBBBLLLL\n",
        "sent=0008 +0000000001 +0000000005\nend=0 0 9 5 34 1 0\n",
    ),
    // "Each waits for the low one": the first call of each, at position 0, with a turn too few to put, and
    // with enough.
    (
        22,
        "sheet=2\nkeys=1\nsecret=0:0:A\ndo=receive\ndo=set 0 5\ndo=put 0 0\ndo=send\nmsg=0:1\n\
         turns=ALAALLL\n",
        "sent=0006 +0000000001\nend=0 0 7 4 22 1 0\n",
    ),
    (
        22,
        "sheet=2\nkeys=1\nsecret=0:0:A\ndo=receive\ndo=set 0 5\ndo=put 0 0\ndo=send\nmsg=0:1\n\
         turns=ALAAALLL\n",
        "sent=0007 +0000000005\nend=0 0 8 4 22 1 0\n",
    ),
    (
        22,
        "sheet=2\nkeys=1\nsecret=0:0:B\ndo=receive\ndo=set 0 5\ndo=put 0 0\ndo=send\nmsg=0:1\n\
         turns=BLBBLLL\n",
        "sent=0006 +0000000001\nend=0 0 7 4 22 1 0\n",
    ),
    (
        22,
        "sheet=2\nkeys=1\nsecret=0:0:B\ndo=receive\ndo=set 0 5\ndo=put 0 0\ndo=send\nmsg=0:1\n\
         turns=BLBBBLLL\n",
        "sent=0007 +0000000005\nend=0 0 8 4 22 1 0\n",
    ),
    // The second call of each waits at position 2 for the second low one; the calls of the other do not
    // count.
    (
        22,
        "sheet=2\nkeys=1\nsecret=0:0:A\ndo=receive\ndo=receive\ndo=set 0 4\ndo=put 0 0\ndo=send\n\
         msg=0:1\nmsg=0:3\nturns=LABABLAALLL\n",
        "sent=0010 +0000000003\nend=0 0 11 5 22 2 0\n",
    ),
    (
        22,
        "sheet=2\nkeys=1\nsecret=0:0:A\ndo=receive\ndo=receive\ndo=set 0 4\ndo=put 0 0\ndo=send\n\
         msg=0:1\nmsg=0:3\nturns=LABABLAAALLL\n",
        "sent=0011 +0000000004\nend=0 0 12 5 22 2 0\n",
    ),
    (
        22,
        "sheet=2\nkeys=1\nsecret=0:0:B\ndo=receive\ndo=receive\ndo=set 0 4\ndo=put 0 0\ndo=send\n\
         msg=0:1\nmsg=0:3\nturns=LBABALBBLLL\n",
        "sent=0010 +0000000003\nend=0 0 11 5 22 2 0\n",
    ),
    (
        22,
        "sheet=2\nkeys=1\nsecret=0:0:B\ndo=receive\ndo=receive\ndo=set 0 4\ndo=put 0 0\ndo=send\n\
         msg=0:1\nmsg=0:3\nturns=LBABALBBBLLL\n",
        "sent=0011 +0000000004\nend=0 0 12 5 22 2 0\n",
    ),
    // A is a call ahead of B while both have turns: A at the second call, B at the first.
    (
        34,
        "sheet=2\nkeys=2\nsecret=0:0:A\nsecret=1:0:B\ndo=receive\ndo=receive\ndo=set 0 4\ndo=put 0 0\n\
         do=put 1 0\ndo=send\nmsg=0:1,1:2\nmsg=0:3,1:8\nturns=LAABLAAABBBLLLL\n",
        "sent=0014 +0000000004 +0000000008\nend=0 0 15 6 34 2 0\n",
    ),
    // "the j-th low call", and not the last: both begin when the low execution has sent.
    (
        68,
        "sheet=2\nkeys=2\nsecret=0:0:A\nsecret=1:0:B\ndo=receive\ndo=set 0 4\ndo=put 0 0\ndo=put 1 0\n\
         do=send\ndo=send\nmsg=0:9,1:8\nturns=LLLLLAAAABBBL\n",
        "sent=0004 +0000000009 +0000000008\nsent=0012 +0000000004 +0000000008\nend=0 0 13 6 68 1 0\n",
    ),
    (
        68,
        "sheet=2\nkeys=2\nsecret=0:0:A\nsecret=1:0:B\ndo=receive\ndo=set 0 4\ndo=put 0 0\ndo=put 1 0\n\
         do=send\ndo=send\nmsg=0:9,1:8\nturns=LLLLLAAAABBBBL\n",
        "sent=0004 +0000000009 +0000000008\nsent=0013 +0000000004 +0000000004\nend=0 0 14 6 68 1 0\n",
    ),
    // A call of the other kind stops one of them alone, here with a `receive` at a low `send`.
    (
        68,
        "sheet=2\nkeys=2\nsecret=0:0:A\nsecret=1:0:B\ndo=receive\ndo=read 0 0\ndo=ifzero 0 5\n\
         do=receive\ndo=jump 6\ndo=send\ndo=set 1 8\ndo=put 0 1\ndo=put 1 1\ndo=send\nmsg=0:9,1:7\n\
         turns=LABABABABLLLAAAABBBBLLLL\n",
        "sent=0011 +0000000009 +0000000007\nsent=0023 +0000000009 +0000000008\nend=0 0 24 8 68 1 0\n",
    ),
    // An owner without keys: its execution runs, and nothing of it is sent. And no owner at all.
    (
        22,
        "sheet=2\nkeys=1\nsecret=0:3:A\ndo=receive\ndo=read 0 0\ndo=add 0 0\ndo=put 0 0\ndo=send\n\
         msg=0:5\nturns=LABLABLABLABL\n",
        "sent=0012 +0000000010\nend=0 0 13 5 22 1 0\n",
    ),
    (
        22,
        "sheet=2\nkeys=1\nsecret=0:3:B\ndo=receive\ndo=read 0 0\ndo=add 0 0\ndo=put 0 0\ndo=send\n\
         msg=0:5\nturns=LABLABLABLABL\n",
        "sent=0012 +0000000010\nend=0 0 13 5 22 1 0\n",
    ),
    (
        22,
        "sheet=2\nkeys=1\ndo=receive\ndo=send\nmsg=0:5\nturns=LABL\n",
        "sent=0003 +0000000005\nend=0 0 4 2 22 1 0\n",
    ),
    // An owner without turns: its columns are the entries. Without those of both, only the low execution
    // runs; without L, none does.
    (
        46,
        "sheet=2\nkeys=3\nsecret=1:300:A\nsecret=2:400:B\ndo=receive\ndo=read 0 1\ndo=read 1 2\n\
         do=add 0 1\ndo=put 1 0\ndo=put 2 0\ndo=send\nmsg=0:7,1:10,2:20\nturns=LALALALALALALA\n",
        "sent=0012 +0000000007 +0000000410 +0000000020\nend=0 0 13 7 46 1 0\n",
    ),
    (
        46,
        "sheet=2\nkeys=3\nsecret=1:300:A\nsecret=2:400:B\ndo=receive\ndo=read 0 1\ndo=read 1 2\n\
         do=add 0 1\ndo=put 1 0\ndo=put 2 0\ndo=send\nmsg=0:7,1:10,2:20\nturns=LBLBLBLBLBLBLB\n",
        "sent=0012 +0000000007 +0000000010 +0000000320\nend=0 0 13 7 46 1 0\n",
    ),
    (
        46,
        "sheet=2\nkeys=3\nsecret=1:300:A\nsecret=2:400:B\ndo=receive\ndo=read 0 1\ndo=read 1 2\n\
         do=add 0 1\ndo=put 1 0\ndo=put 2 0\ndo=send\nmsg=0:7,1:10,2:20\nturns=LLLLLLL\n",
        "sent=0006 +0000000007 +0000000010 +0000000020\nend=0 0 7 7 46 1 0\n",
    ),
    (
        46,
        "sheet=2\nkeys=1\nsecret=0:3:A\ndo=receive\ndo=send\nmsg=0:5\nturns=ABBA\n",
        "end=31 0 4 0 0 0 0\n",
    ),
    // A stopped follower idles: A alone, B alone, and both while the low execution goes on.
    (
        34,
        "sheet=2\nkeys=2\nsecret=0:0:A\nsecret=1:0:B\ndo=receive\ndo=read 0 0\ndo=ifzero 0 4\ndo=stop\n\
         do=set 1 9\ndo=put 0 1\ndo=put 1 1\ndo=send\nmsg=0:1,1:2\nturns=LABLABLABLABLABLABL\n",
        "sent=0018 +0000000001 +0000000009\nend=0 0 19 7 34 1 0\n",
    ),
    (
        34,
        "sheet=2\nkeys=2\nsecret=0:0:A\nsecret=1:0:B\ndo=receive\ndo=read 0 1\ndo=ifzero 0 4\ndo=stop\n\
         do=set 1 9\ndo=put 0 1\ndo=put 1 1\ndo=send\nmsg=0:1,1:2\nturns=LABLABLABLABLABLABL\n",
        "sent=0018 +0000000009 +0000000002\nend=0 0 19 7 34 1 0\n",
    ),
    (
        34,
        "sheet=2\nkeys=2\nsecret=0:0:A\nsecret=1:0:B\ndo=receive\ndo=read 0 0\ndo=read 1 1\ndo=add 0 1\n\
         do=ifzero 0 6\ndo=stop\ndo=send\nmsg=0:1,1:2\nturns=LABLABLABLABLABAABBL\n",
        "sent=0019 +0000000001 +0000000002\nend=0 0 20 6 34 1 0\n",
    ),
    // The run ends when the low execution has stopped, wherever the others are.
    (
        0,
        "sheet=2\nkeys=1\ndo=stop\nturns=LAB\n",
        "end=0 0 1 1 0 0 0\n",
    ),
    (
        0,
        "sheet=2\nkeys=1\ndo=stop\nturns=BAL\n",
        "end=0 0 3 1 0 0 0\n",
    ),
    (
        0,
        "sheet=2\nkeys=1\ndo=stop\nturns=ABAB\n",
        "end=31 0 4 0 0 0 0\n",
    ),
    // 31 after six letters, of which two are L.
    (
        46,
        "sheet=2\nkeys=3\nsecret=1:300:A\nsecret=2:400:B\ndo=receive\ndo=read 0 1\ndo=read 1 2\n\
         do=add 0 1\ndo=put 1 0\ndo=put 2 0\ndo=send\nmsg=0:7,1:10,2:20\nturns=LABLAB\n",
        "end=31 0 6 2 0 1 0\n",
    ),
    // 32 with a byte too little, and just enough.
    (
        45,
        "sheet=2\nkeys=3\nsecret=1:300:A\nsecret=2:400:B\ndo=receive\ndo=read 0 1\ndo=read 1 2\n\
         do=add 0 1\ndo=put 1 0\ndo=put 2 0\ndo=send\nmsg=0:7,1:10,2:20\nturns=LABLABLABLABLABLABLAB\n",
        "end=32 0 18 6 0 1 0\n",
    ),
    (
        46,
        "sheet=2\nkeys=3\nsecret=1:300:A\nsecret=2:400:B\ndo=receive\ndo=read 0 1\ndo=read 1 2\n\
         do=add 0 1\ndo=put 1 0\ndo=put 2 0\ndo=send\nmsg=0:7,1:10,2:20\nturns=LABLABLABLABLABLABLAB\n",
        "sent=0018 +0000000007 +0000000410 +0000000320\nend=0 0 19 7 46 1 0\n",
    ),
    // "a letter L is next": letters A and B before it are still taken, and without an L it is 31.
    (
        21,
        "sheet=2\nkeys=1\ndo=send\nturns=ABL\n",
        "end=32 0 2 0 0 0 0\n",
    ),
    (
        21,
        "sheet=2\nkeys=1\ndo=send\nturns=AB\n",
        "end=31 0 2 0 0 0 0\n",
    ),
    (
        43,
        "sheet=2\nkeys=1\nsecret=0:1:B\ndo=receive\ndo=send\ndo=send\nmsg=0:5\nturns=LLL\n",
        "sent=0001 +0000000005\nend=32 0 2 2 22 1 0\n",
    ),
    (
        44,
        "sheet=2\nkeys=1\nsecret=0:1:B\ndo=receive\ndo=send\ndo=send\nmsg=0:5\nturns=LLL\n",
        "sent=0001 +0000000005\nsent=0002 +0000000005\nend=0 0 3 3 44 1 0\n",
    ),
    // Eight keys, of both owners and open: each column has its entry.
    (
        106,
        "sheet=2\nkeys=8\nsecret=0:9:B\nsecret=1:9:A\nsecret=3:9:B\nsecret=4:9:B\nsecret=6:9:A\n\
         secret=7:-2147483648:B\ndo=receive\ndo=send\nmsg=0:1,1:2,2:3,3:4,4:5,5:6,6:7,7:2147483647\n\
         turns=LABABL\n",
        "sent=0005 +0000000001 +0000000002 +0000000003 +0000000004 +0000000005 +0000000006 \
         +0000000007 +2147483647\nend=0 0 6 2 106 1 0\n",
    ),
    // A sheet of form 2 may have a dummy at either end of the range.
    (
        34,
        "sheet=2\nkeys=2\nsecret=0:-2147483648:A\nsecret=1:2147483647:B\ndo=receive\ndo=read 0 0\n\
         do=read 1 1\ndo=put 0 1\ndo=put 1 0\ndo=send\nmsg=\nturns=LABLABLABLABLABL\n",
        "sent=0015 +2147483647 -2147483648\nend=0 0 16 6 34 1 0\n",
    ),
];

/// Whole sheets that are refused.
pub const REFUSED_OWNERS: &[Refused] = &[
    // "Refusal 4 allows 1 or 2 for `sheet`".
    (4, 1, b"sheet=3\nkeys=1\ndo=stop\nturns=L\n"),
    (4, 1, b"sheet=0\nkeys=1\ndo=stop\nturns=L\n"),
    (4, 1, b"sheet=02\nkeys=1\ndo=stop\nturns=L\n"),
    (4, 1, b"sheet=2 \nkeys=1\ndo=stop\nturns=L\n"),
    (4, 1, b"sheet= 2\n"),
    (4, 1, b"sheet=22\n"),
    (4, 1, b"sheet=12\n"),
    (4, 1, b"sheet=21\n"),
    (4, 1, b"sheet=-2\n"),
    (4, 1, b"sheet=+2\n"),
    (4, 1, b"sheet==2\n"),
    (4, 1, b"sheet=2=2\n"),
    (4, 1, b"sheet=A\n"),
    (4, 1, b"sheet=4294967298\n"),
    // 2 comes before the owner and before the letters.
    (2, 5, b"sheet=2\nkeys=1\nsecret=0:0:C\ndo=stop\nturns=H"),
    (
        2,
        5,
        b"sheet=2\nkeys=1\nsecret=0:0:C\ndo=stop\nturns=\x7f\n",
    ),
    (
        2,
        3,
        b"sheet=2\nkeys=1\nsecret=0:0:\xc1\ndo=stop\nturns=L\n",
    ),
    // The names of a sheet of form 2 are those of form 1, in the same order.
    (3, 2, b"sheet=2\n"),
    (3, 2, b"sheet=2\nno name\n"),
    (3, 2, b"sheet=2\nsheet=2\n"),
    (3, 2, b"sheet=2\ndo=stop\nturns=L\n"),
    (3, 3, b"sheet=2\nkeys=1\n"),
    (3, 3, b"sheet=2\nkeys=1\nowner=A\ndo=stop\nturns=L\n"),
    (3, 4, b"sheet=2\nkeys=1\ndo=stop\nsecret=0:0:A\nturns=L\n"),
    (3, 4, b"sheet=2\nkeys=1\nsecret=0:0:A\n"),
    (3, 5, b"sheet=2\nkeys=1\ndo=stop\nturns=LAB\nturns=LAB\n"),
    // So are its limits.
    (4, 2, b"sheet=2\nkeys=0\n"),
    (4, 2, b"sheet=2\nkeys=9\n"),
    (4, 2, b"sheet=2\nkeys=16\n"),
    (4, 3, b"sheet=2\nkeys=1\ndo=jump 65\nturns=L\n"),
    (7, 3, b"sheet=2\nkeys=1\ndo=jump 64\nturns=L\n"),
    // Form 1 knows no owner: what stands behind the first colon is the dummy.
    (4, 3, b"sheet=1\nkeys=2\nsecret=1:300:A\ndo=stop\nturns=L\n"),
    (4, 3, b"sheet=1\nkeys=2\nsecret=1:300:C\ndo=stop\nturns=L\n"),
    (4, 3, b"sheet=1\nkeys=2\nsecret=1:300:\ndo=stop\nturns=L\n"),
    (4, 3, b"sheet=1\nkeys=2\nsecret=1::A\ndo=stop\nturns=L\n"),
    (
        5,
        4,
        b"sheet=1\nkeys=2\nsecret=1:300\nsecret=1:300:A\ndo=stop\nturns=L\n",
    ),
    // Nor does it know their letters.
    (9, 4, b"sheet=1\nkeys=1\ndo=stop\nturns=A\n"),
    (9, 4, b"sheet=1\nkeys=1\ndo=stop\nturns=LB\n"),
    (9, 4, b"sheet=1\nkeys=1\ndo=stop\nturns=LABLHL\n"),
    // Sheet A with letters of form 2, and with a secret line of it.
    (
        9,
        10,
        b"sheet=1\nkeys=2\nsecret=1:300\ndo=receive\ndo=read 0 1\ndo=put 1 0\ndo=send\ndo=stop\n\
          msg=0:1500,1:1480\nturns=LALALALALA\n",
    ),
    (
        4,
        3,
        b"sheet=1\nkeys=2\nsecret=1:300:A\ndo=receive\ndo=read 0 1\ndo=put 1 0\ndo=send\ndo=stop\n\
          msg=0:1500,1:1480\nturns=LHLHLHLHLH\n",
    ),
    (
        4,
        3,
        b"sheet=2\nkeys=2\nsecret=1:300\ndo=receive\ndo=read 0 1\ndo=put 1 0\ndo=send\ndo=stop\n\
          msg=0:1500,1:1480\nturns=LHLHLHLHLH\n",
    ),
    // The worked example with `H` in its turns.
    (
        9,
        13,
        b"sheet=2\nkeys=3\nsecret=1:300:A\nsecret=2:400:B\ndo=receive\ndo=read 0 1\ndo=read 1 2\n\
          do=add 0 1\ndo=put 1 0\ndo=put 2 0\ndo=send\nmsg=0:7,1:10,2:20\n\
          turns=LHBLHBLHBLHBLHBLHBLHB\n",
    ),
];

/// Refusal number, line, and the sheet of form 2 from its third line on; the first two are `sheet=2` and
/// `keys=2`.
pub const REFUSED_OWNER_BODIES: &[(u32, u32, &str)] = &[
    // "lacking either, gets 4, before its key": no colon, and one.
    (4, 3, "secret=\ndo=stop\nturns=L\n"),
    (4, 3, "secret=1\ndo=stop\nturns=L\n"),
    (4, 3, "secret=A\ndo=stop\nturns=L\n"),
    (4, 3, "secret=1:300\ndo=stop\nturns=L\n"),
    (4, 3, "secret=9:300\ndo=stop\nturns=L\n"),
    (4, 3, "secret=1:\ndo=stop\nturns=L\n"),
    (4, 3, "secret=:A\ndo=stop\nturns=L\n"),
    (4, 3, "secret=1:300A\ndo=stop\nturns=L\n"),
    (4, 3, "secret=1:300 A\ndo=stop\nturns=L\n"),
    (4, 3, "secret=1:300,A\ndo=stop\nturns=L\n"),
    (4, 3, "secret=1=300:A\ndo=stop\nturns=L\n"),
    // And so before its order.
    (4, 4, "secret=1:1:A\nsecret=1\ndo=stop\nturns=L\n"),
    (4, 4, "secret=1:1:A\nsecret=1:1\ndo=stop\nturns=L\n"),
    (4, 4, "secret=1:1:A\nsecret=0:1\ndo=stop\nturns=L\n"),
    // Then the key, before its order, the dummy and the owner.
    (4, 3, "secret=2:300:A\ndo=stop\nturns=L\n"),
    (4, 3, "secret=2:300:C\ndo=stop\nturns=L\n"),
    (4, 3, "secret=2:x:C\ndo=stop\nturns=L\n"),
    (4, 3, "secret=9:300:C\ndo=stop\nturns=L\n"),
    (4, 3, "secret=:300:A\ndo=stop\nturns=L\n"),
    (4, 3, "secret=01:300:C\ndo=stop\nturns=L\n"),
    (4, 3, "secret=-1:300:B\ndo=stop\nturns=L\n"),
    (4, 3, "secret= 1:300:B\ndo=stop\nturns=L\n"),
    (4, 3, "secret=::\ndo=stop\nturns=L\n"),
    (4, 3, "secret=A:1:300\ndo=stop\nturns=L\n"),
    (4, 4, "secret=1:1:A\nsecret=2:1:C\ndo=stop\nturns=L\n"),
    // Then the order, before the dummy and the owner.
    (5, 4, "secret=1:300:A\nsecret=1:400:A\ndo=stop\nturns=L\n"),
    (5, 4, "secret=1:300:A\nsecret=1:400:B\ndo=stop\nturns=L\n"),
    (5, 4, "secret=1:300:B\nsecret=0:400:A\ndo=stop\nturns=L\n"),
    (5, 4, "secret=1:300:A\nsecret=1:x:C\ndo=stop\nturns=L\n"),
    (5, 4, "secret=1:300:A\nsecret=0:1:C\ndo=stop\nturns=L\n"),
    (5, 4, "secret=1:300:A\nsecret=0:x:B\ndo=stop\nturns=L\n"),
    (5, 4, "secret=1:300:A\nsecret=0::\ndo=stop\nturns=L\n"),
    // Then the dummy, before the owner.
    (4, 3, "secret=1::A\ndo=stop\nturns=L\n"),
    (4, 3, "secret=1::\ndo=stop\nturns=L\n"),
    (4, 3, "secret=1:x:A\ndo=stop\nturns=L\n"),
    (4, 3, "secret=1:x:C\ndo=stop\nturns=L\n"),
    (4, 3, "secret=1:-0:B\ndo=stop\nturns=L\n"),
    (4, 3, "secret=1:01:C\ndo=stop\nturns=L\n"),
    (4, 3, "secret=1: 1:A\ndo=stop\nturns=L\n"),
    (4, 3, "secret=1:+1:A\ndo=stop\nturns=L\n"),
    (4, 3, "secret=1:A:300\ndo=stop\nturns=L\n"),
    (4, 3, "secret=1:2147483648:A\ndo=stop\nturns=L\n"),
    (4, 3, "secret=1:-2147483649:a\ndo=stop\nturns=L\n"),
    // "46, after the dummy, for an owner that is neither letter".
    (46, 3, "secret=1:300:\ndo=stop\nturns=L\n"),
    (46, 3, "secret=1:300:C\ndo=stop\nturns=L\n"),
    (46, 3, "secret=1:300:@\ndo=stop\nturns=L\n"),
    (46, 3, "secret=1:300:a\ndo=stop\nturns=L\n"),
    (46, 3, "secret=1:300:b\ndo=stop\nturns=L\n"),
    (46, 3, "secret=1:300:H\ndo=stop\nturns=L\n"),
    (46, 3, "secret=1:300:L\ndo=stop\nturns=L\n"),
    (46, 3, "secret=1:300:0\ndo=stop\nturns=L\n"),
    (46, 3, "secret=1:300:65\ndo=stop\nturns=L\n"),
    (46, 3, "secret=1:300:AA\ndo=stop\nturns=L\n"),
    (46, 3, "secret=1:300:AB\ndo=stop\nturns=L\n"),
    (46, 3, "secret=1:300:BA\ndo=stop\nturns=L\n"),
    (46, 3, "secret=1:300:A \ndo=stop\nturns=L\n"),
    (46, 3, "secret=1:300: A\ndo=stop\nturns=L\n"),
    (46, 3, "secret=1:300:=A\ndo=stop\nturns=L\n"),
    // The first two colons divide, and no other.
    (46, 3, "secret=1:300:A:B\ndo=stop\nturns=L\n"),
    (46, 3, "secret=1:300:A:\ndo=stop\nturns=L\n"),
    (46, 3, "secret=1:300::A\ndo=stop\nturns=L\n"),
    (46, 3, "secret=1:300::\ndo=stop\nturns=L\n"),
    (46, 3, "secret=0:300:A,1:400:B\ndo=stop\nturns=L\n"),
    // Its line, before every fault of a line below, and after those of the lines above.
    (46, 3, "secret=0:1:C\nno name\n"),
    (46, 3, "secret=0:1:C\nsecret=0:1:A\ndo=stop\nturns=L\n"),
    (46, 3, "secret=0:1:C\ndo=jump 9\nturns=H\n"),
    (46, 4, "secret=0:1:A\nsecret=1:1:C\ndo=stop\nturns=L\n"),
    (46, 4, "secret=0:1:B\nsecret=1:1:\ndo=stop\nturns=L\n"),
    (4, 3, "secret=0:x:A\nsecret=1:1:C\ndo=stop\nturns=L\n"),
    // "9 tests the new letters".
    (9, 4, "do=stop\nturns=\n"),
    (9, 4, "do=stop\nturns=H\n"),
    (9, 4, "do=stop\nturns=LH\n"),
    (9, 4, "do=stop\nturns=LABH\n"),
    (9, 4, "do=stop\nturns=LAb\n"),
    (9, 4, "do=stop\nturns=aB\n"),
    (9, 4, "do=stop\nturns=l\n"),
    (9, 4, "do=stop\nturns=LAC\n"),
    (9, 4, "do=stop\nturns=@\n"),
    (9, 4, "do=stop\nturns=L A\n"),
    (9, 4, "do=stop\nturns=A \n"),
    (9, 4, "do=stop\nturns=L,A,B\n"),
    (9, 5, "secret=0:1:B\ndo=stop\nturns=HB\n"),
];

/// Sheets of form 2 at the limits of the format.
pub const LONG_OWNERS: &[Long] = &[
    (
        &[
            (b"sheet=2\nkeys=1\n", 1),
            (b"do=jump 64\n", 64),
            (b"turns=ABL\n", 1),
        ],
        "end=0 0 3 1 0 0 0\n",
    ),
    (
        &[
            (b"sheet=2\nkeys=1\n", 1),
            (b"do=stop\n", 65),
            (b"turns=L\n", 1),
        ],
        "end=8 67 0 0 0 0 0\n",
    ),
    (
        &[
            (b"sheet=2\nkeys=1\ndo=receive\ndo=jump 0\n", 1),
            (b"msg=\n", 32),
            (b"turns=", 1),
            (b"LL", 33),
            (b"\n", 1),
        ],
        "end=31 0 66 66 0 32 0\n",
    ),
    (
        &[
            (b"sheet=2\nkeys=1\ndo=stop\n", 1),
            (b"msg=\n", 33),
            (b"turns=L\n", 1),
        ],
        "end=8 36 0 0 0 0 0\n",
    ),
    // 1,024 letters of all three pass, 1,025 bytes get 8, before 9.
    (
        &[
            (b"sheet=2\nkeys=1\ndo=jump 0\nturns=", 1),
            (b"LAB", 341),
            (b"L\n", 1),
        ],
        "end=31 0 1024 342 0 0 0\n",
    ),
    (
        &[
            (b"sheet=2\nkeys=1\ndo=jump 0\nturns=", 1),
            (b"LABBA", 205),
            (b"\n", 1),
        ],
        "end=8 4 0 0 0 0 0\n",
    ),
    (
        &[
            (b"sheet=2\nkeys=1\ndo=jump 0\nturns=", 1),
            (b"H", 1025),
            (b"\n", 1),
        ],
        "end=8 4 0 0 0 0 0\n",
    ),
    (
        &[
            (b"sheet=2\nkeys=1\ndo=jump 0\nturns=", 1),
            (b"A", 1023),
            (b"H\n", 1),
        ],
        "end=9 4 0 0 0 0 0\n",
    ),
    // The last position, behind turns of both that idle.
    (
        &[
            (b"sheet=2\nkeys=1\ndo=send\nturns=", 1),
            (b"ABB", 341),
            (b"L\n", 1),
        ],
        "sent=1023 ...........\nend=0 0 1024 1 22 0 0\n",
    ),
    // 25 rounds of ten `receive`, then a `send`: 251 calls, which A makes after all of them are there, and
    // then B.
    (
        &[
            (b"sheet=2\nkeys=2\nsecret=0:0:A\nsecret=1:0:B\n", 1),
            (b"do=set 0 25\ndo=set 1 1\n", 1),
            (b"do=receive\n", 10),
            (b"do=sub 0 1\ndo=ifzero 0 15\ndo=jump 2\n", 1),
            (
                b"do=send\ndo=set 2 5\ndo=put 0 2\ndo=put 1 2\ndo=send\nturns=",
                1,
            ),
            (b"L", 327),
            (b"A", 329),
            (b"B", 330),
            (b"LLLL\n", 1),
        ],
        "sent=0326 ........... ...........\nsent=0989 +0000000005 +0000000005\n\
         end=0 0 990 331 68 0 0\n",
    ),
    // The same with a turn less of each.
    (
        &[
            (b"sheet=2\nkeys=2\nsecret=0:0:A\nsecret=1:0:B\n", 1),
            (b"do=set 0 25\ndo=set 1 1\n", 1),
            (b"do=receive\n", 10),
            (b"do=sub 0 1\ndo=ifzero 0 15\ndo=jump 2\n", 1),
            (
                b"do=send\ndo=set 2 5\ndo=put 0 2\ndo=put 1 2\ndo=send\nturns=",
                1,
            ),
            (b"L", 327),
            (b"A", 328),
            (b"B", 329),
            (b"LLLL\n", 1),
        ],
        "sent=0326 ........... ...........\nsent=0987 ........... ...........\n\
         end=0 0 988 331 68 0 0\n",
    ),
];
