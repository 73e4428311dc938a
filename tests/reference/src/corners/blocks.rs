//! Hand-written programs with blocks, each with the answer and the `do` lines that Note 5 of document
//! 02 demands. Nothing here was computed by the model: all was worked out from the note.

use crate::blocks::LENT;

/// A text, the K that is given with it, the bytes lent to it, the three numbers, and what stands in the
/// output memory then.
#[derive(Debug, Clone, PartialEq, Eq)]
pub struct Corner {
    pub lent: usize,
    pub keys: u32,
    pub text: Vec<u8>,
    pub numbers: [u32; 3],
    pub lines: Vec<u8>,
}

/// Every corner of the tables below, in their order.
pub fn corners() -> Vec<Corner> {
    let mut corners = Vec::new();
    for &(lent, keys, text, lines) in EXAMPLES.iter().chain(WRITTEN) {
        corners.push(written(lent, keys, text.into(), lines.into()));
    }
    for &(lent, text) in TOO_SHORT {
        corners.push(refused([53, 0], lent, 2, text.into()));
    }
    for &(number, line, text) in REFUSED_EXAMPLES.iter().chain(REFUSED) {
        corners.push(refused([number, line], PLENTY, 2, text.to_vec()));
    }
    for &(keys, text) in KEYS_BEYOND {
        corners.push(refused([4, 0], PLENTY, keys, text.to_vec()));
    }
    for &(keys, text) in KEY_BEYOND_KEYS {
        corners.push(refused([4, 1], PLENTY, keys, text.into()));
    }
    corners.extend(bad_lines(6, NO_COMMANDS));
    corners.extend(bad_lines(4, BAD_NUMBERS));
    for &(lent, pieces, lines) in LONG {
        corners.push(written(lent, 2, joined(pieces), joined(lines)));
    }
    for &(number, line, pieces) in LONG_REFUSED {
        corners.push(refused([number, line], PLENTY, 2, joined(pieces)));
    }
    corners.extend(two_faults());
    corners
}

/// More bytes than any text needs.
const PLENTY: usize = LENT + 50;

/// "line (0 on success)".
fn written(lent: usize, keys: u32, text: Vec<u8>, lines: Vec<u8>) -> Corner {
    Corner {
        lent,
        keys,
        text,
        numbers: [0, 0, lines.len() as u32],
        lines,
    }
}

/// "a refusal writes nothing".
fn refused([number, line]: [u32; 2], lent: usize, keys: u32, text: Vec<u8>) -> Corner {
    Corner {
        lent,
        keys,
        text,
        numbers: [number, line, 0],
        lines: Vec::new(),
    }
}

/// Texts, each with the count of its repetitions.
type Pieces = &'static [(&'static [u8], usize)];

fn joined(pieces: Pieces) -> Vec<u8> {
    let repeated = |(text, count): &(&[u8], usize)| text.repeat(*count);
    pieces.iter().flat_map(repeated).collect()
}

/// Bytes lent, K, text, lines.
type Written = (usize, u32, &'static str, &'static str);

/// Worked examples of the note that give lines. Those with repeated lines are in [`LONG`].
pub const EXAMPLES: &[Written] = &[
    (
        99,
        1,
        "while 0\nif 1\nelse\nset 0 1\nend\nend\n",
        "do=ifzero 0 5\ndo=ifzero 1 3\ndo=jump 4\ndo=set 0 1\ndo=jump 0\n",
    ),
    (99, 1, "if 2\nend\n", "do=ifzero 2 1\n"),
    (
        99,
        1,
        "if 0\nif 1\nstop\nend\nelse\nend\n",
        "do=ifzero 0 4\ndo=ifzero 1 3\ndo=stop\ndo=jump 4\n",
    ),
    (8, 2, "send\n", "do=send\n"),
];

/// Number, line, text. K is 2.
type Refused = (u32, u32, &'static [u8]);

/// Those that are refused. The ones with repeated lines are in [`LONG_REFUSED`], the one with 7 bytes
/// lent is in [`TOO_SHORT`], and those with another K in [`KEYS_BEYOND`].
pub const REFUSED_EXAMPLES: &[Refused] = &[
    (2, 1, b""),
    (6, 1, b"\n"),
    (2, 1, b"send"),
    (2, 2, b"send\n\x80"),
    (2, 1, b"se\tnd\n"),
    (2, 1, b"if 0\r\nend\n"),
    (51, 1, b"else 7\n"),
    (6, 2, b"if 0\nelse 7\nend\n"),
    (51, 3, b"if 0\nelse\nelse x\nend\n"),
    (51, 3, b"if 0\nwhile 1\nelse\nend\nend\n"),
    (51, 1, b"end\n"),
    (6, 1, b"nope\nend\n"),
    (6, 1, b"if\nend\n"),
    (4, 1, b"if \nend\n"),
    (4, 1, b"if 8\nend\n"),
    (6, 1, b"jump 0\n"),
    (4, 1, b"read 0 2\n"),
    (51, 1, b"end \n"),
    (6, 2, b"if 0\nend \n"),
    (6, 2, b"if 0\nnope\n"),
    (51, 2, b"if 0\n"),
];

/// Texts that give lines, on one sentence each.
pub const WRITTEN: &[Written] = &[
    // "the commands of document 01 except `jump`, `ifneg` and `ifzero`, one to a line": each is its own
    // line.
    (
        200,
        2,
        "set 0 5\nadd 1 0\nsub 2 1\nmul 3 2\ndiv 4 3\nread 5 0\nhas 6 1\nput 1 7\ndrop 0\nreceive\n\
         send\nstop\n",
        "do=set 0 5\ndo=add 1 0\ndo=sub 2 1\ndo=mul 3 2\ndo=div 4 3\ndo=read 5 0\ndo=has 6 1\n\
         do=put 1 7\ndo=drop 0\ndo=receive\ndo=send\ndo=stop\n",
    ),
    // Both ends of each operand.
    (
        200,
        1,
        "set 7 -2147483648\nset 0 2147483647\nset 0 0\nset 0 -1\nset 0 10\nread 7 0\nput 0 7\n\
         drop 0\nhas 0 0\nadd 7 7\n",
        "do=set 7 -2147483648\ndo=set 0 2147483647\ndo=set 0 0\ndo=set 0 -1\ndo=set 0 10\n\
         do=read 7 0\ndo=put 0 7\ndo=drop 0\ndo=has 0 0\ndo=add 7 7\n",
    ),
    (
        200,
        8,
        "read 0 7\nhas 7 7\nput 7 0\ndrop 7\nif 7\nend\nwhile 7\nend\n",
        "do=read 0 7\ndo=has 7 7\ndo=put 7 0\ndo=drop 7\ndo=ifzero 7 5\ndo=ifzero 7 7\ndo=jump 5\n",
    ),
    // A block "may be empty": each kind, and each body of an `if`.
    (99, 1, "while 3\nend\n", "do=ifzero 3 2\ndo=jump 0\n"),
    (99, 1, "if 3\nelse\nend\n", "do=ifzero 3 2\ndo=jump 2\n"),
    (
        99,
        1,
        "if 3\nsend\nelse\nend\n",
        "do=ifzero 3 3\ndo=send\ndo=jump 3\n",
    ),
    (
        99,
        1,
        "if 3\nelse\nsend\nend\n",
        "do=ifzero 3 2\ndo=jump 3\ndo=send\n",
    ),
    // Blocks with something in them, and something before and behind.
    (
        99,
        1,
        "send\nif 0\nsend\nreceive\nend\nstop\n",
        "do=send\ndo=ifzero 0 4\ndo=send\ndo=receive\ndo=stop\n",
    ),
    (
        99,
        1,
        "send\nif 0\nsend\nelse\nreceive\nstop\nend\nstop\n",
        "do=send\ndo=ifzero 0 4\ndo=send\ndo=jump 6\ndo=receive\ndo=stop\ndo=stop\n",
    ),
    (
        99,
        1,
        "send\nwhile 0\nsend\nreceive\nend\nstop\n",
        "do=send\ndo=ifzero 0 5\ndo=send\ndo=receive\ndo=jump 1\ndo=stop\n",
    ),
    // One behind the other, and one directly behind the other's `end`.
    (
        99,
        1,
        "if 0\nend\nif 1\nelse\nend\nwhile 2\nend\nif 3\nend\n",
        "do=ifzero 0 1\ndo=ifzero 1 3\ndo=jump 3\ndo=ifzero 2 5\ndo=jump 3\ndo=ifzero 3 6\n",
    ),
    // Blocks as the last thing of a body: two jumps meet, a test goes to a jump.
    (
        99,
        1,
        "while 0\nwhile 1\nsend\nend\nend\n",
        "do=ifzero 0 5\ndo=ifzero 1 4\ndo=send\ndo=jump 1\ndo=jump 0\n",
    ),
    (
        99,
        1,
        "if 0\nif 1\nsend\nelse\nstop\nend\nelse\nif 2\nreceive\nelse\nend\nend\n",
        "do=ifzero 0 6\ndo=ifzero 1 4\ndo=send\ndo=jump 5\ndo=stop\ndo=jump 9\ndo=ifzero 2 9\n\
         do=receive\ndo=jump 9\n",
    ),
    // An `else` belongs to the innermost `if`, or to the next one out when that is closed.
    (
        99,
        1,
        "if 0\nif 1\nelse\nsend\nend\nend\n",
        "do=ifzero 0 4\ndo=ifzero 1 3\ndo=jump 4\ndo=send\n",
    ),
    (
        99,
        1,
        "if 0\nif 1\nend\nelse\nsend\nend\n",
        "do=ifzero 0 3\ndo=ifzero 1 2\ndo=jump 4\ndo=send\n",
    ),
    (
        99,
        1,
        "if 0\nwhile 1\nend\nelse\nwhile 2\nend\nend\n",
        "do=ifzero 0 4\ndo=ifzero 1 3\ndo=jump 1\ndo=jump 6\ndo=ifzero 2 6\ndo=jump 4\n",
    ),
    // After an `else`, a further `if` may have its own.
    (
        99,
        1,
        "if 0\nelse\nif 1\nelse\nend\nend\n",
        "do=ifzero 0 2\ndo=jump 4\ndo=ifzero 1 4\ndo=jump 4\n",
    ),
    // `stop` at every depth is itself, and what stands behind it stays.
    (
        99,
        1,
        "while 0\nif 1\nstop\nsend\nelse\nstop\nend\nstop\nend\nstop\nsend\n",
        "do=ifzero 0 8\ndo=ifzero 1 5\ndo=stop\ndo=send\ndo=jump 6\ndo=stop\ndo=stop\ndo=jump 0\n\
         do=stop\ndo=send\n",
    ),
    // Targets of one digit and of two.
    (
        200,
        1,
        "if 0\nsend\nsend\nsend\nsend\nsend\nsend\nsend\nsend\nend\n",
        "do=ifzero 0 9\ndo=send\ndo=send\ndo=send\ndo=send\ndo=send\ndo=send\ndo=send\ndo=send\n",
    ),
    (
        200,
        1,
        "if 0\nsend\nsend\nsend\nsend\nsend\nsend\nsend\nsend\nsend\nend\n",
        "do=ifzero 0 10\ndo=send\ndo=send\ndo=send\ndo=send\ndo=send\ndo=send\ndo=send\ndo=send\n\
         do=send\n",
    ),
    (
        200,
        1,
        "send\nsend\nsend\nsend\nsend\nsend\nsend\nsend\nsend\nwhile 0\nend\nwhile 1\nend\n",
        "do=send\ndo=send\ndo=send\ndo=send\ndo=send\ndo=send\ndo=send\ndo=send\ndo=send\n\
         do=ifzero 0 11\ndo=jump 9\ndo=ifzero 1 13\ndo=jump 11\n",
    ),
    // Exactly enough memory, and one byte more.
    (14, 1, "if 2\nend\n", "do=ifzero 2 1\n"),
    (15, 1, "if 2\nend\n", "do=ifzero 2 1\n"),
    (
        59,
        1,
        "while 0\nif 1\nelse\nset 0 1\nend\nend\n",
        "do=ifzero 0 5\ndo=ifzero 1 3\ndo=jump 4\ndo=set 0 1\ndo=jump 0\n",
    ),
    (
        60,
        1,
        "while 0\nif 1\nelse\nset 0 1\nend\nend\n",
        "do=ifzero 0 5\ndo=ifzero 1 3\ndo=jump 4\ndo=set 0 1\ndo=jump 0\n",
    ),
];

/// 53: "too little lent memory". Bytes lent, text. The lines may be longer than the text.
pub const TOO_SHORT: &[(usize, &str)] = &[
    (7, "send\n"),
    (0, "send\n"),
    (0, "if 2\nend\n"),
    (13, "if 2\nend\n"),
    // No line is written, though the first would fit.
    (8, "send\nsend\n"),
    (58, "while 0\nif 1\nelse\nset 0 1\nend\nend\n"),
    (46, "while 0\nwhile 1\nsend\nend\nend\n"),
];

/// Refused texts, whatever the memory.
pub const REFUSED: &[Refused] = &[
    // 2: "tested over the whole text", so it comes before every fault of a line above it.
    (2, 1, b"\x00"),
    (2, 1, b"\r\n"),
    (2, 1, b"\x7f\n"),
    (2, 1, b"\xff\n"),
    (2, 1, b"send\x1f\n"),
    (2, 2, b"send\nsend\r\n"),
    (2, 2, b"nope\n\t\n"),
    (2, 2, b"else\nend\r\n"),
    (2, 3, b"if 0\n\n\x0b"),
    (2, 3, b"set 8 8\nend\n\xc3\xa9\nend"),
    // 2: of several forbidden bytes the first, of a forbidden byte and a missing line feed the byte.
    (2, 2, b"send\n\x01\n\x02\n"),
    (2, 1, b"\x0d"),
    (2, 1, b"\x80send\nsend"),
    // 2: the last byte is no line feed.
    (2, 1, b"s"),
    (2, 1, b" "),
    (2, 1, b"if 0"),
    (2, 2, b"if 0\nend"),
    (2, 2, b"nope\nend"),
    (2, 2, b"end\nend"),
    (2, 4, b"if 9\n\n\nx"),
    (2, 3, b"if 0\nend\n "),
    // 51: an `else` in no block, in a `while`, behind an `else`, behind the `end` of its `if`.
    (51, 1, b"else\n"),
    (51, 1, b"else\nend\n"),
    (51, 2, b"send\nelse\n"),
    (51, 2, b"while 0\nelse\nend\n"),
    (51, 3, b"if 0\nelse\nelse\nend\n"),
    (51, 3, b"if 0\nend\nelse\n"),
    (51, 3, b"if 0\nend\nelse\nend\n"),
    (51, 4, b"if 0\nelse\nend\nelse\n"),
    (51, 4, b"if 0\nelse\nwhile 1\nelse\nend\nend\n"),
    (51, 4, b"if 0\nwhile 1\nsend\nelse\nend\nelse\nend\n"),
    (51, 4, b"while 0\nif 1\nend\nelse\nend\n"),
    (51, 6, b"if 0\nif 1\nelse\nend\nelse\nelse\nend\n"),
    (51, 4, b"if 0\nif 1\nelse\nelse\nend\nend\n"),
    // 51: an `end` outside blocks, also behind blocks.
    (51, 1, b"end\nend\n"),
    (51, 2, b"send\nend\n"),
    (51, 3, b"if 0\nend\nend\n"),
    (51, 3, b"while 0\nend\nend\n"),
    (51, 4, b"if 0\nelse\nend\nend\n"),
    (51, 5, b"if 0\nwhile 1\nend\nend\nend\n"),
    // 51: what counts is the first word, so it comes "before 6".
    (51, 1, b"else \n"),
    (51, 1, b"else x y\n"),
    (51, 1, b"else  \n"),
    (51, 1, b"end 0\n"),
    (51, 1, b"end end\n"),
    (51, 2, b"while 0\nelse 1\nend\n"),
    (51, 3, b"if 0\nelse\nelse 9 9 9\nend\n"),
    (51, 3, b"if 0\nend\nend 99\n"),
    // 6: where 51 does not apply, a part too many does.
    (6, 2, b"if 0\nelse \nend\n"),
    (6, 2, b"if 0\nelse else\nend\n"),
    (6, 2, b"while 0\nend 0\nend\n"),
    (6, 3, b"if 0\nelse\nend end\n"),
    // 6: words that only look like those of a block, in and out of a block.
    (6, 1, b" end\n"),
    (6, 1, b"End\n"),
    (6, 1, b"end.\n"),
    (6, 1, b"ends\n"),
    (6, 1, b"en\n"),
    (6, 1, b" else\n"),
    (6, 1, b"Else\n"),
    (6, 1, b"else:\n"),
    (6, 1, b"elseif 0\n"),
    (6, 1, b"elif 0\n"),
    (6, 2, b"if 0\n end\nend\n"),
    (6, 2, b"if 0\nEnd\nend\n"),
    (6, 2, b"if 0\nELSE\nend\n"),
    // 51: a missing `end`, once, at "the line after the last".
    (51, 2, b"while 7\n"),
    (51, 3, b"if 0\nelse\n"),
    (51, 3, b"if 0\nwhile 1\n"),
    (51, 4, b"if 0\nwhile 1\nend\n"),
    (51, 4, b"if 0\nif 0\nif 0\n"),
    (51, 5, b"send\nif 0\nelse\nsend\n"),
    (51, 6, b"while 0\nif 1\nelse\nsend\nend\n"),
    // 4 "from left to right", and before it 6.
    (4, 1, b"set 8 x\n"),
    (4, 1, b"put 2 8\n"),
    (6, 1, b"set 8\n"),
    (6, 1, b"if 8 8\nend\n"),
    (6, 1, b"jump 99\n"),
    (6, 1, b"jump\n"),
    (6, 1, b"ifneg 9 9\n"),
    (6, 1, b"ifzero x\n"),
    // "line by line": the first line at fault decides.
    (6, 2, b"send\nnope\nset 8 0\nelse\n"),
    (4, 2, b"send\nset 8 0\nnope\nelse\n"),
    (51, 2, b"send\nelse\nset 8 0\nnope\n"),
    (6, 1, b"\n\n\n"),
    // An `if` or `while` that is refused opens no block: its own number comes, not that of an `else`
    // or `end` behind it.
    (4, 1, b"if 9\nelse\nend\nend\n"),
    (6, 1, b"while\nend\nend\n"),
    // The line after the last is counted by line feeds.
    (51, 3, b"if 0\nsend\n"),
];

/// 4 "at line 0, before all else": before 2, before a line's fault, with nothing to be read. K, text.
pub const KEYS_BEYOND: &[(u32, &[u8])] = &[
    (0, b"send\n"),
    (9, b"send\n"),
    (0, b""),
    (9, b""),
    (0, b"send"),
    (9, b"\x80"),
    (0, b"nope\n"),
    (9, b"else\n"),
    (9, b"read 0 8\n"),
    (10, b"send\n"),
    (16, b"send\n"),
    (17, b"if 0\n"),
    (255, b"send\n"),
    // K whose low bits alone would be lawful.
    (256, b"send\n"),
    (257, b"send\n"),
    (264, b"send\n"),
    (65_537, b"send\n"),
    (0x0100_0008, b"send\n"),
    (0x7fff_ffff, b"send\n"),
    (0x8000_0000, b"send\n"),
    (0x8000_0001, b"send\n"),
    (u32::MAX - 1, b"send\n"),
    (u32::MAX, b"send\n"),
];

/// "k a key", below K: 4 at line 1. K, text.
pub const KEY_BEYOND_KEYS: &[(u32, &str)] = &[
    (1, "read 0 1\n"),
    (1, "has 0 1\n"),
    (1, "put 1 0\n"),
    (1, "drop 1\n"),
    (7, "read 0 7\n"),
    (7, "put 7 0\n"),
    (8, "read 0 8\n"),
    (8, "has 0 8\n"),
    (8, "put 8 0\n"),
    (8, "drop 8\n"),
    (8, "drop 9\n"),
];

/// These lines as the third of five, within a block, with further faults behind them.
fn bad_lines(number: u32, lines: &[&str]) -> Vec<Corner> {
    let corner = |line: &&str| {
        let text = format!("if 0\nsend\n{line}\nnope\nset 8 8\nelse\nelse\n");
        refused([number, 3], PLENTY, 2, text.into_bytes())
    };
    lines.iter().map(corner).collect()
}

/// 6 "as in `do` lines": "a command word is not in the table, or the count of parts is wrong; every
/// space splits".
pub const NO_COMMANDS: &[&str] = &[
    "",
    " ",
    "  ",
    "nope",
    "0",
    // The words of document 01 that the dialect has not.
    "jump 0",
    "jump 3",
    "jump 64",
    "jump x",
    "jump 0 0",
    "ifneg 0 0",
    "ifneg 0",
    "ifneg 9 65",
    "ifzero 0 0",
    "ifzero 0",
    "ifzero  ",
    // Capital letters, and words cut off or drawn out.
    "Send",
    "SEND",
    "sen",
    "sends",
    "send.",
    "SET 0 0",
    "Set 0 0",
    "IF 0",
    "If 0",
    "WHILE 0",
    "While 0",
    "ifs 0",
    "i 0",
    "iff 0",
    "whil 0",
    "whiles 0",
    "if0",
    "if(0)",
    "if=0",
    "while:0",
    "do=send",
    "do send",
    "set=0 1",
    "#send",
    // Spaces where none may be.
    " send",
    "send ",
    "send  ",
    " set 0 0",
    "set  0 0",
    "set 0  0",
    "set 0 0 ",
    " if 0",
    "if  0",
    "if 0 ",
    " while 0",
    "while  0",
    "while 0 ",
    " jump 0",
    // A part too few, a part too many.
    "set",
    "set 0",
    "set 0 0 0",
    "add 0",
    "add 0 0 0",
    "sub",
    "mul 0",
    "div 0 0 0",
    "read 0",
    "has 0 0 0",
    "put 0",
    "drop",
    "drop 0 0",
    "receive 0",
    "send 0",
    "send send",
    "stop 0",
    "stop stop",
    "if",
    "if 0 0",
    "if 8 8",
    "if x y z",
    "while",
    "while 0 0",
    "while 8 8",
];

/// 4 "as in `do` lines": a number is malformed or beyond its limit. K is 2.
pub const BAD_NUMBERS: &[&str] = &[
    // A variable beyond 7, for each word and place that has one.
    "set 8 0",
    "add 8 0",
    "add 0 8",
    "sub 8 0",
    "sub 0 8",
    "mul 8 0",
    "mul 0 8",
    "div 8 0",
    "div 0 8",
    "read 8 0",
    "has 8 0",
    "put 0 8",
    "if 8",
    "while 8",
    "if 9",
    "if 10",
    "while 64",
    "if 2147483648",
    "while 4294967296",
    "if 18446744073709551616",
    // A key beyond K - 1.
    "read 0 2",
    "has 0 2",
    "put 2 0",
    "drop 2",
    "drop 7",
    "drop 8",
    // Beyond the range.
    "set 0 2147483648",
    "set 0 -2147483649",
    "set 0 4294967296",
    "set 0 -4294967296",
    "set 0 9223372036854775808",
    "set 0 18446744073709551617",
    "set 0 99999999999999999999999999999999999999999",
    // Badly written: empty, zeros in front, signs, other bytes.
    "set 0 ",
    "set  0",
    "add  ",
    "drop ",
    "if ",
    "while ",
    "if 00",
    "if 01",
    "if 07",
    "while 00",
    "while 01",
    "if -0",
    "if -1",
    "if +1",
    "while -0",
    "while +0",
    "while -",
    "if x",
    "if v",
    "if 0x1",
    "if 1.",
    "while 0:",
    "while 0,",
    "drop -0",
    "drop -1",
    "drop +1",
    "drop 01",
    "read 0 01",
    "read 00 0",
    "put 0 +0",
    "set 0 00",
    "set 0 01",
    "set 0 007",
    "set 0 -0",
    "set 0 -01",
    "set 0 +0",
    "set 0 +1",
    "set 0 -",
    "set 0 --1",
    "set 0 1-",
    "set 0 1-1",
    "set 0 1.0",
    "set 0 1e3",
    "set 0 1:",
    "set 0 /",
    "set 0 a",
    "set 00 0",
    "set 01 0",
    "set -0 0",
    "set x 0",
    // Two at once.
    "set 8 x",
    "put 2 8",
    "add 8 8",
    "read 9 9",
];

/// Bytes lent, text, lines. K is 2.
type Long = (usize, Pieces, Pieces);

/// Texts with repeated lines, and the largest.
pub const LONG: &[Long] = &[
    // Worked examples: 8 levels, 64 commands.
    (
        999,
        &[(b"if 0\n", 8), (b"end\n", 8)],
        &[(b"do=ifzero 0 8\n", 8)],
    ),
    (999, &[(b"send\n", 64)], &[(b"do=send\n", 64)]),
    // 8 levels of `while`, of both in turn, of second bodies.
    (
        999,
        &[(b"while 1\n", 8), (b"end\n", 8)],
        &[
            (
                b"do=ifzero 1 16\ndo=ifzero 1 15\ndo=ifzero 1 14\ndo=ifzero 1 13\n",
                1,
            ),
            (
                b"do=ifzero 1 12\ndo=ifzero 1 11\ndo=ifzero 1 10\ndo=ifzero 1 9\n",
                1,
            ),
            (b"do=jump 7\ndo=jump 6\ndo=jump 5\ndo=jump 4\n", 1),
            (b"do=jump 3\ndo=jump 2\ndo=jump 1\ndo=jump 0\n", 1),
        ],
    ),
    (
        999,
        &[(b"if 0\nwhile 1\n", 4), (b"send\n", 1), (b"end\nend\n", 4)],
        &[
            (
                b"do=ifzero 0 13\ndo=ifzero 1 13\ndo=ifzero 0 12\ndo=ifzero 1 12\n",
                1,
            ),
            (
                b"do=ifzero 0 11\ndo=ifzero 1 11\ndo=ifzero 0 10\ndo=ifzero 1 10\n",
                1,
            ),
            (b"do=send\ndo=jump 7\ndo=jump 5\ndo=jump 3\ndo=jump 1\n", 1),
        ],
    ),
    (
        999,
        &[(b"if 0\nelse\n", 8), (b"end\n", 8)],
        &[
            (b"do=ifzero 0 2\ndo=jump 16\ndo=ifzero 0 4\ndo=jump 16\n", 1),
            (b"do=ifzero 0 6\ndo=jump 16\ndo=ifzero 0 8\ndo=jump 16\n", 1),
            (
                b"do=ifzero 0 10\ndo=jump 16\ndo=ifzero 0 12\ndo=jump 16\n",
                1,
            ),
            (
                b"do=ifzero 0 14\ndo=jump 16\ndo=ifzero 0 16\ndo=jump 16\n",
                1,
            ),
        ],
    ),
    // A level that is closed may be opened again: eight deep, twice; in both bodies.
    (
        999,
        &[(b"if 0\n", 8), (b"end\n", 8), (b"if 1\n", 8), (b"end\n", 8)],
        &[(b"do=ifzero 0 8\n", 8), (b"do=ifzero 1 16\n", 8)],
    ),
    (
        999,
        &[
            (b"if 0\n", 7),
            (b"if 2\nend\nelse\nif 3\nend\n", 1),
            (b"end\n", 7),
        ],
        &[
            (b"do=ifzero 0 10\n", 6),
            (
                b"do=ifzero 0 9\ndo=ifzero 2 8\ndo=jump 10\ndo=ifzero 3 10\n",
                1,
            ),
        ],
    ),
    // 64 commands, the last of them a test, an `else`'s jump, a `while`'s jump: targets at the end.
    (
        999,
        &[(b"send\n", 63), (b"if 0\nend\n", 1)],
        &[(b"do=send\n", 63), (b"do=ifzero 0 64\n", 1)],
    ),
    (
        999,
        &[(b"if 0\n", 1), (b"send\n", 62), (b"else\nend\n", 1)],
        &[
            (b"do=ifzero 0 64\n", 1),
            (b"do=send\n", 62),
            (b"do=jump 64\n", 1),
        ],
    ),
    (
        999,
        &[(b"while 0\n", 1), (b"send\n", 62), (b"end\n", 1)],
        &[
            (b"do=ifzero 0 64\n", 1),
            (b"do=send\n", 62),
            (b"do=jump 0\n", 1),
        ],
    ),
    (
        999,
        &[(b"send\n", 62), (b"while 0\nend\n", 1)],
        &[(b"do=send\n", 62), (b"do=ifzero 0 64\ndo=jump 62\n", 1)],
    ),
    (
        999,
        &[(b"if 0\nelse\n", 1), (b"send\n", 62), (b"end\n", 1)],
        &[(b"do=ifzero 0 2\ndo=jump 64\n", 1), (b"do=send\n", 62)],
    ),
    // 64 commands of 128 lines and more: `end` and `else` are none.
    (
        9_999,
        &[(b"if 5\nsend\nend\n", 32)],
        &[
            (
                b"do=ifzero 5 2\ndo=send\ndo=ifzero 5 4\ndo=send\ndo=ifzero 5 6\ndo=send\n",
                1,
            ),
            (
                b"do=ifzero 5 8\ndo=send\ndo=ifzero 5 10\ndo=send\ndo=ifzero 5 12\ndo=send\n",
                1,
            ),
            (
                b"do=ifzero 5 14\ndo=send\ndo=ifzero 5 16\ndo=send\ndo=ifzero 5 18\ndo=send\n",
                1,
            ),
            (
                b"do=ifzero 5 20\ndo=send\ndo=ifzero 5 22\ndo=send\ndo=ifzero 5 24\ndo=send\n",
                1,
            ),
            (
                b"do=ifzero 5 26\ndo=send\ndo=ifzero 5 28\ndo=send\ndo=ifzero 5 30\ndo=send\n",
                1,
            ),
            (
                b"do=ifzero 5 32\ndo=send\ndo=ifzero 5 34\ndo=send\ndo=ifzero 5 36\ndo=send\n",
                1,
            ),
            (
                b"do=ifzero 5 38\ndo=send\ndo=ifzero 5 40\ndo=send\ndo=ifzero 5 42\ndo=send\n",
                1,
            ),
            (
                b"do=ifzero 5 44\ndo=send\ndo=ifzero 5 46\ndo=send\ndo=ifzero 5 48\ndo=send\n",
                1,
            ),
            (
                b"do=ifzero 5 50\ndo=send\ndo=ifzero 5 52\ndo=send\ndo=ifzero 5 54\ndo=send\n",
                1,
            ),
            (
                b"do=ifzero 5 56\ndo=send\ndo=ifzero 5 58\ndo=send\ndo=ifzero 5 60\ndo=send\n",
                1,
            ),
            (b"do=ifzero 5 62\ndo=send\ndo=ifzero 5 64\ndo=send\n", 1),
        ],
    ),
    // No text gives longer lines: 64 of 21 bytes.
    (
        LENT,
        &[(b"set 7 -2147483648\n", 64)],
        &[(b"do=set 7 -2147483648\n", 64)],
    ),
];

/// Number, line, text. K is 2.
type LongRefused = (u32, u32, Pieces);

/// A megabyte.
const MEGABYTE: usize = 1_048_576;

/// Texts with a ninth level, with more than 64 commands, and texts much longer than any that is
/// accepted.
pub const LONG_REFUSED: &[LongRefused] = &[
    // Worked examples: a ninth level, and an `end` too many.
    (52, 9, &[(b"if 0\n", 8), (b"if 1\n", 1), (b"end\n", 9)]),
    (52, 9, &[(b"if 0\n", 8), (b"while\n", 1), (b"end\n", 9)]),
    (52, 9, &[(b"if 0\n", 8), (b"if 9 9\n", 1), (b"end\n", 9)]),
    (51, 18, &[(b"if 0\n", 8), (b"send\n", 1), (b"end\n", 9)]),
    // Worked examples: 65 commands.
    (53, 0, &[(b"send\n", 65)]),
    (6, 66, &[(b"send\n", 65), (b"nope\n", 1)]),
    (51, 67, &[(b"send\n", 65), (b"if 0\n", 1)]),
    // 52: by the first word, whatever follows, in every kind of block.
    (52, 9, &[(b"if 0\n", 8), (b"if\n", 1)]),
    (52, 9, &[(b"if 0\n", 8), (b"if \n", 1), (b"end\n", 9)]),
    (52, 9, &[(b"if 0\n", 8), (b"if 9\n", 1), (b"end\n", 9)]),
    (52, 9, &[(b"if 0\n", 8), (b"if 1 2\n", 1), (b"end\n", 9)]),
    (52, 9, &[(b"if 0\n", 8), (b"if x y\n", 1), (b"end\n", 9)]),
    (52, 9, &[(b"if 0\n", 8), (b"while 0\n", 1), (b"end\n", 9)]),
    (52, 9, &[(b"if 0\n", 8), (b"while 1 2\n", 1), (b"end\n", 9)]),
    (52, 9, &[(b"if 0\n", 8), (b"while -0\n", 1), (b"end\n", 9)]),
    (52, 9, &[(b"while 0\n", 9), (b"end\n", 9)]),
    (52, 9, &[(b"while 0\n", 8), (b"if\n", 1), (b"end\n", 9)]),
    (
        52,
        9,
        &[(b"while 0\nif 1\n", 4), (b"while 2\n", 1), (b"end\n", 9)],
    ),
    (
        52,
        9,
        &[(b"if 1\nwhile 0\n", 4), (b"if 2\n", 1), (b"end\n", 9)],
    ),
    (
        52,
        17,
        &[(b"if 0\nelse\n", 8), (b"if 0\n", 1), (b"end\n", 9)],
    ),
    (
        52,
        10,
        &[
            (b"if 0\n", 8),
            (b"else\n", 1),
            (b"if 1\n", 1),
            (b"end\n", 9),
        ],
    ),
    (
        52,
        25,
        &[(b"if 0\n", 8), (b"end\n", 8), (b"if 0\n", 9), (b"end\n", 9)],
    ),
    (52, 9, &[(b"if 0\n", 300)]),
    // 52 is not for what only looks like a ninth level.
    (6, 9, &[(b"if 0\n", 8), (b"If 0\n", 1), (b"end\n", 8)]),
    (6, 9, &[(b"if 0\n", 8), (b" if 0\n", 1), (b"end\n", 8)]),
    (6, 9, &[(b"if 0\n", 8), (b"ifzero 0 0\n", 1), (b"end\n", 8)]),
    (51, 18, &[(b"if 0\n", 8), (b"else\n", 1), (b"end\n", 9)]),
    (51, 9, &[(b"while 0\n", 8), (b"else\n", 1), (b"end\n", 8)]),
    (51, 10, &[(b"if 0\n", 8), (b"else\n", 2), (b"end\n", 8)]),
    (51, 9, &[(b"if 0\n", 8)]),
    (51, 16, &[(b"if 0\n", 8), (b"end\n", 7)]),
    // 53: the 65th command is a test, an `else`'s jump, a `while`'s jump.
    (53, 0, &[(b"send\n", 64), (b"if 0\nend\n", 1)]),
    (53, 0, &[(b"send\n", 63), (b"if 0\nelse\nend\n", 1)]),
    (53, 0, &[(b"send\n", 63), (b"while 0\nend\n", 1)]),
    (
        53,
        0,
        &[(b"if 0\n", 1), (b"send\n", 63), (b"else\nend\n", 1)],
    ),
    (
        53,
        0,
        &[(b"if 0\nelse\n", 1), (b"send\n", 63), (b"end\n", 1)],
    ),
    (53, 0, &[(b"while 0\n", 1), (b"send\n", 63), (b"end\n", 1)]),
    (53, 0, &[(b"send\n", 66)]),
    (53, 0, &[(b"send\n", 128)]),
    (53, 0, &[(b"send\n", 256)]),
    (53, 0, &[(b"send\n", 257)]),
    (53, 0, &[(b"send\n", 320)]),
    (53, 0, &[(b"while 0\nend\n", 33)]),
    (53, 0, &[(b"if 0\nelse\nend\n", 33)]),
    // "53, last": each fault of a line behind the 65th command comes before it, and a missing `end`.
    (2, 66, &[(b"send\n", 65), (b"send", 1)]),
    (2, 66, &[(b"send\n", 65), (b"\0\n", 1)]),
    (51, 66, &[(b"send\n", 65), (b"else\n", 1)]),
    (51, 66, &[(b"send\n", 65), (b"end 3\n", 1)]),
    (4, 66, &[(b"send\n", 65), (b"set 8 0\n", 1)]),
    (4, 67, &[(b"send\n", 65), (b"if 0\nif 8\n", 1)]),
    (52, 74, &[(b"send\n", 65), (b"if 0\n", 9)]),
    (51, 68, &[(b"send\n", 65), (b"while 0\nsend\n", 1)]),
    (51, 67, &[(b"if 0\n", 1), (b"send\n", 65)]),
    (
        51,
        68,
        &[(b"if 0\n", 1), (b"send\n", 65), (b"end\nend\n", 1)],
    ),
    // A megabyte that would be accepted but for its length.
    (53, 0, &[(b"send\n", MEGABYTE / 5)]),
    (53, 0, &[(b"if 0\nend\n", MEGABYTE / 9)]),
    (53, 0, &[(b"if 0\nelse\nend\n", MEGABYTE / 14)]),
    (
        53,
        0,
        &[(b"while 0\nif 1\nelse\nsend\nend\nend\n", MEGABYTE / 32)],
    ),
    (
        53,
        0,
        &[(b"if 0\n", 8), (b"send\n", MEGABYTE / 5), (b"end\n", 8)],
    ),
    // A megabyte with a fault in its last line, and behind it.
    (6, 209_716, &[(b"send\n", MEGABYTE / 5), (b"nope\n", 1)]),
    (4, 209_716, &[(b"send\n", MEGABYTE / 5), (b"if 8\n", 1)]),
    (51, 209_716, &[(b"send\n", MEGABYTE / 5), (b"end\n", 1)]),
    (51, 209_716, &[(b"send\n", MEGABYTE / 5), (b"else\n", 1)]),
    (52, 209_724, &[(b"send\n", MEGABYTE / 5), (b"if 0\n", 9)]),
    (51, 209_717, &[(b"send\n", MEGABYTE / 5), (b"if 0\n", 1)]),
    (2, 209_716, &[(b"send\n", MEGABYTE / 5), (b"send", 1)]),
    (2, 209_716, &[(b"nope\n", MEGABYTE / 5), (b"\r\n", 1)]),
    // A megabyte of one line, of spaces, of digits, of nothing but line feeds, of forbidden bytes.
    (6, 1, &[(b"s", MEGABYTE), (b"\n", 1)]),
    (6, 1, &[(b" ", MEGABYTE), (b"\n", 1)]),
    (6, 1, &[(b"send", 1), (b" ", MEGABYTE), (b"\n", 1)]),
    (6, 1, &[(b"set 0 0", 1), (b" 0", MEGABYTE / 2), (b"\n", 1)]),
    (6, 1, &[(b"if", 1), (b" 0", MEGABYTE / 2), (b"\nend\n", 1)]),
    (51, 1, &[(b"else", 1), (b" 0", MEGABYTE / 2), (b"\n", 1)]),
    (51, 1, &[(b"end", 1), (b" ", MEGABYTE), (b"\n", 1)]),
    (4, 1, &[(b"set 0 ", 1), (b"1", MEGABYTE), (b"\n", 1)]),
    (4, 1, &[(b"if ", 1), (b"0", MEGABYTE), (b"\nend\n", 1)]),
    (6, 1, &[(b"\n", MEGABYTE)]),
    (2, 1, &[(b"s", MEGABYTE)]),
    (2, 1, &[(b"\0", MEGABYTE)]),
    (2, 1, &[(b"\r\n", MEGABYTE / 2)]),
    (52, 9, &[(b"while 0\n", MEGABYTE / 8)]),
    (51, 1, &[(b"end\n", MEGABYTE / 4)]),
];

/// A line and the number that it gets where it stands.
type Fault = (u32, &'static [u8]);

/// Where eight blocks are open, the innermost a `while`: one fault each, or two on the line, of which
/// the first in order counts.
pub const FAULTS: &[Fault] = &[
    // 2 before all that a line can have: "over the whole text".
    (2, b"send\x07"),
    (2, b"else\r"),
    (2, b"if \x80"),
    (2, b"\t"),
    (2, b"set 8 \x7f"),
    // 51 before 6.
    (51, b"else"),
    (51, b"else 7"),
    // 52 before 6 and 4.
    (52, b"if 0"),
    (52, b"while"),
    (52, b"if 1 2"),
    (52, b"while 9"),
    // 6 before 4.
    (6, b"nope"),
    (6, b"set 8"),
    (6, b"jump 99"),
    (6, b""),
    // 4, and 4 again to the right of it.
    (4, b"set 8 0"),
    (4, b"put 2 9"),
];

/// The same where no block is open: an `end` is at fault too.
pub const FAULTS_OUTSIDE: &[Fault] = &[
    (2, b"send\x07"),
    (2, b"end\r"),
    (2, b"end 7\x80"),
    (2, b"else\t"),
    (2, b"nope\x7f"),
    (2, b"set 8 \0"),
    (51, b"end"),
    (51, b"end 7"),
    (51, b"else"),
    (51, b"else 7"),
    (6, b"nope"),
    (6, b"set 8"),
    (4, b"set 8 0"),
];

/// The same behind the `else` of the innermost `if`: an `end` closes it, so one with a further part has
/// no fault but that.
pub const FAULTS_BEHIND_ELSE: &[Fault] = &[
    (2, b"send\x07"),
    (2, b"else\r"),
    (2, b"else 7\x80"),
    (2, b"end 7\t"),
    (2, b"nope\x7f"),
    (2, b"set 8 \0"),
    (51, b"else"),
    (51, b"else 7"),
    (6, b"end 7"),
    (6, b"nope"),
    (6, b"set 8"),
    (4, b"set 8 0"),
];

/// A place in a text, and the faults that a line can have there.
struct Place {
    /// The lines above it.
    before: Vec<u8>,
    faults: &'static [Fault],
    /// Lines that close every block that is open there.
    closing: Vec<u8>,
    /// Lines that leave one block open.
    unclosing: Vec<u8>,
}

fn places() -> [Place; 3] {
    [
        Place {
            before: b"while 0\n".repeat(8),
            faults: FAULTS,
            closing: b"end\n".repeat(8),
            unclosing: b"end\n".repeat(7),
        },
        Place {
            before: Vec::new(),
            faults: FAULTS_OUTSIDE,
            closing: Vec::new(),
            unclosing: b"if 0\n".to_vec(),
        },
        Place {
            before: b"if 0\nelse\n".to_vec(),
            faults: FAULTS_BEHIND_ELSE,
            closing: b"end\n".to_vec(),
            unclosing: b"if 0\nend\n".to_vec(),
        },
    ]
}

impl Place {
    /// The line of it.
    fn line(&self) -> u32 {
        lines_of(&self.before) + 1
    }

    /// The text with these lines there, each without its line feed, and these behind them.
    fn text(&self, lines: &[&[u8]], behind: &[u8]) -> Vec<u8> {
        let ended = lines.iter().flat_map(|line| [line, b"\n".as_slice()]);
        let parts: Vec<&[u8]> = ended.collect();
        [&self.before, &parts.concat(), behind].concat()
    }
}

fn lines_of(text: &[u8]) -> u32 {
    text.iter().filter(|&&byte| byte == b'\n').count() as u32
}

/// Two faults in one text, at each of the places.
fn two_faults() -> Vec<Corner> {
    let mut corners = Vec::new();
    for place in places() {
        for &fault in place.faults {
            corners.extend(place.faults.iter().map(|&other| pair(&place, fault, other)));
            corners.extend(with_faults_of_the_text(&place, fault));
        }
    }
    corners
}

/// Two lines at fault: "line by line"; but 2 "over the whole text".
fn pair(place: &Place, (number, first): Fault, (other, second): Fault) -> Corner {
    let wanted = match (number, other) {
        (2, _) => [2, place.line()],
        (_, 2) => [2, place.line() + 1],
        _ => [number, place.line()],
    };
    let text = place.text(&[first, second], &place.closing);
    refused(wanted, PLENTY, 2, text)
}

/// A line at fault before nothing, before a missing `end`, with too many commands on either side of it,
/// too little memory, a K beyond its limit, and a missing last line feed.
fn with_faults_of_the_text(place: &Place, (number, line): Fault) -> [Corner; 7] {
    let wanted = [number, place.line()];
    let behind = |lines: &[u8]| refused(wanted, PLENTY, 2, place.text(&[line], lines));
    let many = b"send\n".repeat(65);
    let late = place.text(&[&many[..many.len() - 1], line], &place.closing);
    let text = place.text(&[line], &place.closing);
    let unended = text[..text.len() - 1].to_vec();
    // 2 at the last line, unless a forbidden byte stands before it.
    let at = if number == 2 {
        place.line()
    } else {
        lines_of(&text)
    };
    [
        behind(b""),
        behind(&place.unclosing),
        behind(&[many.as_slice(), &place.closing].concat()),
        refused([number, place.line() + 65], PLENTY, 2, late),
        refused(wanted, 0, 2, text.clone()),
        refused([4, 0], PLENTY, 9, text),
        refused([2, at], PLENTY, 2, unended),
    ]
}
