//! Hand-written exports of a belt log, each with the answer and the lines that Note 1 of document
//! 02 demands. Nothing here was computed by the model: all was worked out from the note.

/// An export, the bytes lent to it, the three numbers, and what stands in the output memory then.
#[derive(Debug, Clone, PartialEq, Eq)]
pub struct Corner {
    pub lent: usize,
    pub export: Vec<u8>,
    pub numbers: [u32; 3],
    pub lines: Vec<u8>,
}

/// Every corner of the tables below, in their order.
pub fn corners() -> Vec<Corner> {
    let mut corners = Vec::new();
    for &(lent, export, lines) in EXAMPLES.iter().chain(WRITTEN) {
        corners.push(written(lent, export.to_vec(), lines.into()));
    }
    for &(lent, export) in TOO_SHORT {
        corners.push(refused([43, 0], lent, export.to_vec()));
    }
    for &(number, row, export) in REFUSED_EXAMPLES.iter().chain(REFUSED) {
        corners.push(refused([number, row], PLENTY, export.to_vec()));
    }
    for row in BAD_ROWS {
        let export = [b"0,1\r\n7,7\r\n", *row, b"\r\n8,8\r\n"].concat();
        corners.push(refused([42, 3], PLENTY, export));
    }
    for &(export, lines) in LONG {
        corners.push(written(PLENTY, joined(export), joined(lines)));
    }
    for &(number, row, export) in LONG_REFUSED {
        corners.push(refused([number, row], PLENTY, joined(export)));
    }
    corners
}

/// More bytes than any export needs.
const PLENTY: usize = 4_000;

/// "0 on success".
fn written(lent: usize, export: Vec<u8>, lines: Vec<u8>) -> Corner {
    Corner {
        lent,
        export,
        numbers: [0, 0, lines.len() as u32],
        lines,
    }
}

/// "a refusal writes nothing".
fn refused([number, row]: [u32; 2], lent: usize, export: Vec<u8>) -> Corner {
    Corner {
        lent,
        export,
        numbers: [number, row, 0],
        lines: Vec::new(),
    }
}

/// Texts, each with the count of its repetitions.
type Pieces = &'static [(&'static [u8], usize)];

fn joined(pieces: Pieces) -> Vec<u8> {
    let repeated = |(text, count): &(&[u8], usize)| text.repeat(*count);
    pieces.iter().flat_map(repeated).collect()
}

/// Bytes lent, export, lines.
type Written = (usize, &'static [u8], &'static str);

/// Worked examples of the note that give lines. The one with 32 messages is in
/// [`LONG`].
pub const EXAMPLES: &[Written] = &[
    (
        40,
        b"0,3\r\n1,\r\n,-5\r\n,\r\n",
        "msg=0:1\nmsg=3:-5\nmsg=\n",
    ),
    (40, b"5\r\n\r\n7\r\n", "msg=\nmsg=5:7\n"),
    (0, b"0\r\n", ""),
    (8, b"0\r\n1\r\n", "msg=0:1\n"),
];

/// Those that are refused. The two with more than 33 rows are in [`LONG_REFUSED`], the one with 7
/// bytes lent is in [`TOO_SHORT`].
pub const REFUSED_EXAMPLES: &[Refused] = &[
    (41, 1, b""),
    (42, 1, b"\r\n"),
    (42, 1, b"0,,2\r\n"),
    (42, 1, b"0,0\r\n"),
    (42, 1, b"8\r\n"),
    (41, 1, b"0,1\n5,6\n"),
    (41, 2, b"0\r\n1\r\r\n"),
    (41, 2, b"0\r\n1"),
    (41, 3, b"0,1\r\n5,6\r\n\r\n"),
    (41, 2, b"0,1\r\nx,\"\r\n"),
    (41, 2, b"0,1\r\nx\r\n"),
    (42, 2, b"0\r\nx\r\n\n"),
    (42, 2, b"0\r\n-0\r\n"),
    (42, 2, b"0\r\n 1\r\n"),
    (42, 2, b"0\r\n\xc8\r\n"),
    (42, 2, b"0\r\n2147483648\r\n"),
];

/// Exports that give lines, on one sentence each.
pub const WRITTEN: &[Written] = &[
    // The first row alone, with each count of keys.
    (9, b"7\r\n", ""),
    (9, b"0,7\r\n", ""),
    (9, b"0,1,2,3,4,5,6,7\r\n", ""),
    // Keys by their number and not by their place.
    (40, b"2,5,6\r\n1,2,3\r\n", "msg=2:1,5:2,6:3\n"),
    (
        99,
        b"0,1,2,3,4,5,6,7\r\n7,6,5,4,3,2,1,0\r\n",
        "msg=0:7,1:6,2:5,3:4,4:3,5:2,6:1,7:0\n",
    ),
    // "an empty field is an absent entry": the first, one between, the last, all.
    (
        99,
        b"1,2,3\r\n,5,6\r\n4,,6\r\n4,5,\r\n,,6\r\n,5,\r\n4,,\r\n,,\r\n",
        "msg=2:5,3:6\nmsg=1:4,3:6\nmsg=1:4,2:5\nmsg=3:6\nmsg=2:5\nmsg=1:4\nmsg=\n",
    ),
    // An empty row is one empty field, so with one key it is a message.
    (40, b"0\r\n\r\n\r\n", "msg=\nmsg=\n"),
    (40, b"7\r\n1\r\n\r\n2\r\n", "msg=7:1\nmsg=\nmsg=7:2\n"),
    // "Numbers follow the sheet's rule": both ends of the range, and what is next to them and to 0.
    (
        99,
        b"0\r\n-2147483648\r\n-2147483647\r\n-1\r\n0\r\n1\r\n2147483646\r\n2147483647\r\n",
        "msg=0:-2147483648\nmsg=0:-2147483647\nmsg=0:-1\nmsg=0:0\nmsg=0:1\nmsg=0:2147483646\n\
         msg=0:2147483647\n",
    ),
    (
        99,
        b"0,1\r\n10,-10\r\n999999999,1000000000\r\n",
        "msg=0:10,1:-10\nmsg=0:999999999,1:1000000000\n",
    ),
    // Exactly enough memory, and one byte more.
    (5, b"0\r\n\r\n", "msg=\n"),
    (6, b"0\r\n\r\n", "msg=\n"),
    (
        22,
        b"0,3\r\n1,\r\n,-5\r\n,\r\n",
        "msg=0:1\nmsg=3:-5\nmsg=\n",
    ),
    (
        23,
        b"0,3\r\n1,\r\n,-5\r\n,\r\n",
        "msg=0:1\nmsg=3:-5\nmsg=\n",
    ),
];

/// 43: "where the lent memory is too short". Bytes lent, export.
pub const TOO_SHORT: &[(usize, &[u8])] = &[
    (7, b"0\r\n1\r\n"),
    (0, b"0\r\n1\r\n"),
    (0, b"0\r\n\r\n"),
    (4, b"0\r\n\r\n"),
    // No line is written, though the first would fit.
    (8, b"0\r\n1\r\n2\r\n"),
    (21, b"0,3\r\n1,\r\n,-5\r\n,\r\n"),
];

/// Number, row, export.
type Refused = (u32, u32, &'static [u8]);

/// Refused exports, whatever the memory.
pub const REFUSED: &[Refused] = &[
    // 41: no row is ended by carriage return and line feed.
    (41, 1, b"\r"),
    (41, 1, b"\n"),
    (41, 1, b"\n\r"),
    (41, 1, b","),
    (41, 1, b"0"),
    (41, 1, b"0,1"),
    (41, 1, b"x"),
    (41, 1, b"0\r"),
    (41, 1, b"0\n"),
    (41, 1, b"0\n\r"),
    (41, 1, b"0\r1\r"),
    // 41: bare ones before, within and behind a field, in the first row and in others.
    (41, 1, b"\r0\r\n"),
    (41, 1, b"\n0\r\n"),
    (41, 1, b"0\r\r\n"),
    (41, 1, b"0\n\r\n"),
    (41, 1, b"0\n\r\r\n"),
    (41, 1, b"0,\r1\r\n"),
    (41, 1, b"0,1\n2,3\r\n"),
    (41, 1, b"\n\r\n"),
    (41, 1, b"\r\r\n"),
    (41, 2, b"0\r\n\r1\r\n"),
    (41, 2, b"0\r\n1\n\r\n"),
    (41, 2, b"0\r\n1\n2\r\n"),
    (41, 2, b"0\r\n\r\r\n"),
    (41, 2, b"0\r\n\n\r\n"),
    (41, 2, b"0,1\r\n1,\r2\r\n"),
    (41, 2, b"0,1\r\n1\n,2\r\n"),
    (41, 3, b"0,1\r\n1,2\r\n3,\n4\r\n"),
    // 41: "an unfinished last row": anything behind the last pair.
    (41, 2, b"0\r\n\r"),
    (41, 2, b"0\r\n\n"),
    (41, 2, b"0\r\n1\r"),
    (41, 2, b"0\r\n1\n"),
    (41, 2, b"0\r\n "),
    (41, 2, b"0\r\n\0"),
    (41, 2, b"0\r\n\x1a"),
    (41, 3, b"0\r\n1\r\n2"),
    (41, 3, b"0,1\r\n1,2\r\n,"),
    // 41: a quote mark, wherever it stands and whatever RFC 4180 makes of it.
    (41, 1, b"\""),
    (41, 1, b"\"\"\r\n"),
    (41, 1, b"\"0\"\r\n1\r\n"),
    (41, 1, b"0,\"1\"\r\n"),
    (41, 2, b"0\r\n\"1\"\r\n"),
    (41, 2, b"0\r\n\"\"\r\n"),
    (41, 2, b"0\r\n1\"\r\n"),
    (41, 2, b"0,1\r\n\"1,2\"\r\n"),
    (41, 2, b"0\r\n\"1\r\n2\"\r\n"),
    (41, 3, b"0,1\r\n1,2\r\n3,\"4\r\n"),
    // 41: "another count of fields than the first row".
    (41, 2, b"0\r\n,\r\n"),
    (41, 2, b"0\r\n1,\r\n"),
    (41, 2, b"0\r\n1,2\r\n"),
    (41, 2, b"0,1\r\n\r\n"),
    (41, 2, b"0,1\r\n1\r\n"),
    (41, 2, b"0,1\r\n1,2,\r\n"),
    (41, 2, b"0,1\r\n1,2,3\r\n"),
    (41, 2, b"0,1,2,3,4,5,6,7\r\n1,2,3,4,5,6,7\r\n"),
    (41, 2, b"0,1,2,3,4,5,6,7\r\n1,2,3,4,5,6,7,8,9\r\n"),
    (41, 4, b"0,1\r\n1,2\r\n,\r\n\r\n"),
    // 42: the first row has a field that is no key number, or does not rise.
    (42, 1, b",\r\n"),
    (42, 1, b"0,\r\n"),
    (42, 1, b",0\r\n"),
    (42, 1, b"x\r\n"),
    (42, 1, b"00\r\n"),
    (42, 1, b"01\r\n"),
    (42, 1, b"-0\r\n"),
    (42, 1, b"-1\r\n"),
    (42, 1, b"+1\r\n"),
    (42, 1, b" 1\r\n"),
    (42, 1, b"1 \r\n"),
    (42, 1, b"0, 1\r\n"),
    (42, 1, b"0;1\r\n"),
    (42, 1, b"0,8\r\n"),
    (42, 1, b"0,10\r\n"),
    (42, 1, b"2147483647\r\n"),
    (42, 1, b"4294967296\r\n"),
    (42, 1, b"18446744073709551616\r\n"),
    (42, 1, b"1,0\r\n"),
    (42, 1, b"0,1,1\r\n"),
    (42, 1, b"0,2,1\r\n"),
    (42, 1, b"7,7\r\n"),
    (42, 1, b"0,1,2,3,4,5,6,7,7\r\n"),
    (42, 1, b"0,1,2,3,4,5,6,7,8\r\n"),
    (42, 1, b"key\r\n1\r\n"),
    // 42: a byte order mark is no part of a number, nor is any other byte.
    (42, 1, b"\xef\xbb\xbf0\r\n1\r\n"),
    (42, 1, b"\xef\xbb\xbf\r\n"),
    (42, 1, b"\xff\xfe0\r\n"),
    (42, 1, b"0\0\r\n"),
    (41, 1, b"\xff\xfe0\0\r\0\n\0"),
    (41, 1, b"\xef\xbb\xbf\"0\"\r\n"),
    // "Rows go from the top", and in one row 41 comes before 42.
    (42, 1, b"x\r\n1,2\r\n"),
    (42, 1, b"0,0\r\n1,\"\r\n"),
    (42, 1, b"1,0\r\n1"),
    (42, 1, b"0,,2\r\n1\r\n"),
    (42, 1, b"8\r\n\""),
    (41, 1, b"x\"\r\n"),
    (41, 1, b"8\n\r\n"),
    (41, 1, b"8"),
    (41, 1, b"1,0"),
    (41, 1, b"0,0\"\r\nx\r\n"),
    (41, 2, b"0\r\nx\"\r\ny\r\n"),
    (41, 2, b"0\r\nx\n\r\ny\r\n"),
    (41, 2, b"0\r\nx"),
    (41, 2, b"0,1\r\nx,1,1\r\n"),
    (41, 2, b"0,1\r\n1,x,\r\n"),
    (41, 2, b"0\r\n\"\r\nx\r\n"),
    (42, 2, b"0\r\nx\r\n\"\r\n"),
    (42, 2, b"0\r\nx\r\n1,2\r\n"),
    (42, 2, b"0\r\nx\r\ny"),
    (42, 2, b"0,1\r\nx,\r\n1\r\n"),
];

/// Rows that are 42 behind other rows of two fields.
pub const BAD_ROWS: &[&[u8]] = &[
    b"x,",
    b",x",
    b"1,x",
    b"x,1",
    b"x,x",
    // Beyond the range, by one and by much.
    b",2147483648",
    b",-2147483649",
    b"2147483648,",
    b"-2147483649,1",
    b",4294967295",
    b",4294967296",
    b",4294967297",
    b",-4294967296",
    b",9223372036854775807",
    b",9223372036854775808",
    b",-9223372036854775809",
    b",18446744073709551616",
    b",18446744073709551617",
    b",10000000000",
    b",99999999999999999999999999999999999999999",
    // Badly written.
    b",00",
    b",01",
    b",007",
    b",-0",
    b",-00",
    b",-01",
    b",+0",
    b",+1",
    b",-",
    b",--1",
    b",1-",
    b",1-1",
    b", ",
    b", 1",
    b",1 ",
    b",- 1",
    b",1.0",
    b",1e3",
    b",0x1",
    b",1 000",
    b",'1'",
    b",1;",
    b",0:1",
    // Bytes next to the digits, and bytes that a sheet forbids.
    b",/",
    b",:",
    b",\0",
    b",1\0",
    b",\t1",
    b",1\x0b",
    b",\x7f",
    b",\x80",
    b",\xb1",
    b",\xff",
    b"\xef\xbb\xbf1,2",
];

/// Exports of 33 rows and more, and the largest.
pub const LONG: &[(Pieces, Pieces)] = &[
    // A worked example: 32 messages.
    (&[(b"0\r\n", 1), (b"1\r\n", 32)], &[(b"msg=0:1\n", 32)]),
    (&[(b"3\r\n", 1), (b"\r\n", 32)], &[(b"msg=\n", 32)]),
    (&[(b"0,1\r\n", 1), (b",\r\n", 31)], &[(b"msg=\n", 31)]),
    // No text is longer, and no accepted export: 3,121 bytes, and 3,712.
    (
        &[
            (b"0,1,2,3,4,5,6,7\r\n", 1),
            (
                b"-2147483648,-2147483648,-2147483648,-2147483648,\
                  -2147483648,-2147483648,-2147483648,-2147483648\r\n",
                32,
            ),
        ],
        &[(
            b"msg=0:-2147483648,1:-2147483648,2:-2147483648,3:-2147483648,\
              4:-2147483648,5:-2147483648,6:-2147483648,7:-2147483648\n",
            32,
        )],
    ),
];

/// Number, row, export.
type LongRefused = (u32, u32, Pieces);

/// A megabyte.
const MEGABYTE: usize = 1_048_576;

/// Exports with a row too many, and exports much longer than any that is accepted.
pub const LONG_REFUSED: &[LongRefused] = &[
    // Worked examples.
    (8, 34, &[(b"0\r\n", 1), (b"1\r\n", 32), (b"\"", 1)]),
    (42, 1, &[(b"1,0\r\n", 1), (b"1\r\n", 40)]),
    // 8: any byte behind the 33rd row's end, "within a row 8 comes first".
    (8, 34, &[(b"0\r\n", 1), (b"1\r\n", 33)]),
    (8, 34, &[(b"0\r\n", 1), (b"1\r\n", 34)]),
    (8, 34, &[(b"0\r\n", 1), (b"\r\n", 33)]),
    (8, 34, &[(b"0\r\n", 1), (b"1\r\n", 32), (b"1", 1)]),
    (8, 34, &[(b"0\r\n", 1), (b"1\r\n", 32), (b"\r", 1)]),
    (8, 34, &[(b"0\r\n", 1), (b"1\r\n", 32), (b"\n", 1)]),
    (8, 34, &[(b"0\r\n", 1), (b"1\r\n", 32), (b" ", 1)]),
    (8, 34, &[(b"0\r\n", 1), (b"1\r\n", 32), (b"\0", 1)]),
    (8, 34, &[(b"0\r\n", 1), (b"1\r\n", 32), (b"x\r\n", 1)]),
    (8, 34, &[(b"0\r\n", 1), (b"1\r\n", 32), (b"1,2\r\n", 1)]),
    (8, 34, &[(b"0\r\n", 1), (b"1\r\n", 32), (b"\"1\"\r\n", 1)]),
    (8, 34, &[(b"0,1\r\n", 1), (b",\r\n", 32), (b"\r\n", 1)]),
    (8, 34, &[(b"0,1\r\n", 1), (b",\r\n", 32), (b"\r\r\n", 1)]),
    // Rows above it come first, the 33rd too.
    (41, 33, &[(b"0\r\n", 1), (b"1\r\n", 31), (b"1", 1)]),
    (41, 33, &[(b"0\r\n", 1), (b"1\r\n", 31), (b"\r", 1)]),
    (41, 33, &[(b"0\r\n", 1), (b"1\r\n", 31), (b"\"\r\n", 2)]),
    (41, 33, &[(b"0\r\n", 1), (b"1\r\n", 31), (b"1,\r\n", 2)]),
    (41, 33, &[(b"0\r\n", 1), (b"1\r\n", 31), (b"1\n1\r\n", 2)]),
    (42, 33, &[(b"0\r\n", 1), (b"1\r\n", 31), (b"x\r\n", 2)]),
    (42, 33, &[(b"0\r\n", 1), (b"1\r\n", 31), (b"-0\r\n", 9)]),
    (41, 2, &[(b"0,1\r\n", 1), (b"1\r\n", 40)]),
    (42, 2, &[(b"0\r\n", 1), (b"01\r\n", 40)]),
    // Rows that end with line feeds alone are one row.
    (41, 1, &[(b"0\n", 1), (b"1\n", 40)]),
    (41, 2, &[(b"0\r\n", 1), (b"1\n", 40)]),
    (41, 33, &[(b"0\r\n", 1), (b"1\r\n", 31), (b"1\n", 40)]),
    // A megabyte without carriage return and line feed: one unfinished row.
    (41, 1, &[(b"1", MEGABYTE)]),
    (41, 1, &[(b",", MEGABYTE)]),
    (41, 1, &[(b"\r", MEGABYTE)]),
    (41, 1, &[(b"\n", MEGABYTE)]),
    (41, 1, &[(b"\n\r", MEGABYTE / 2)]),
    (41, 1, &[(b"\0", MEGABYTE)]),
    (41, 1, &[(b"0,1\n5,6\n", MEGABYTE / 8)]),
    (41, 2, &[(b"0\r\n", 1), (b"1", MEGABYTE)]),
    (41, 2, &[(b"0,1\r\n", 1), (b",", MEGABYTE)]),
    (41, 2, &[(b"0\r\n", 1), (b"\r", MEGABYTE)]),
    // A megabyte in one row that is finished.
    (42, 1, &[(b"1", MEGABYTE), (b"\r\n", 1)]),
    (42, 1, &[(b",", MEGABYTE), (b"\r\n", 1)]),
    (42, 1, &[(b"0,", MEGABYTE / 2), (b"0\r\n", 1)]),
    (42, 2, &[(b"0\r\n", 1), (b"1", MEGABYTE), (b"\r\n", 1)]),
    (42, 2, &[(b"0\r\n-", 1), (b"0", MEGABYTE), (b"1\r\n", 1)]),
    (41, 2, &[(b"0\r\n", 1), (b",", MEGABYTE), (b"\r\n", 1)]),
    // The last byte of the row decides: a quote mark, a carriage return.
    (41, 1, &[(b"0", MEGABYTE), (b"\"\r\n", 1)]),
    (41, 2, &[(b"0\r\n", 1), (b"x", MEGABYTE), (b"\"\r\n", 1)]),
    (41, 2, &[(b"0\r\n", 1), (b"x", MEGABYTE), (b"\r\r\n", 1)]),
    // A megabyte of rows.
    (42, 1, &[(b"\r\n", MEGABYTE / 2)]),
    (8, 34, &[(b"0\r\n", 1), (b"\r\n", MEGABYTE / 2)]),
    (8, 34, &[(b"0,1\r\n", 1), (b"1,\r\n", MEGABYTE / 4)]),
    (8, 34, &[(b"0\r\n", 1), (b"1\r\n", 32), (b"1", MEGABYTE)]),
    (8, 34, &[(b"0\r\n", 1), (b"1\r\n", 32), (b"\"", MEGABYTE)]),
    (41, 2, &[(b"0,1\r\n", 1), (b"\r\n", MEGABYTE / 2)]),
];
