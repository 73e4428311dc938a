//! A safe wrapper over `libpavebox.a`, the proved confidential run of one sheet.
//!
//! [`run`] runs a sheet:
//!
//! ```
//! let sheet = b"sheet=1\nkeys=1\ndo=receive\ndo=send\nmsg=0:7\nturns=LL\n";
//! let mut output = [0; 100];
//! let answer = pavebox::run(sheet, &mut output);
//! assert_eq!((answer.ending, answer.written), (pavebox::STOPPED, 22));
//! assert_eq!(&output[..22], b"sent=0001 +0000000007\n");
//! ```
//!
//! Both forms of sheets are taken. In one of form 2 each secret has an owner, and each owner an execution:
//!
//! ```
//! let sheet = b"sheet=2\nkeys=2\nsecret=0:300:A\nsecret=1:400:B\ndo=receive\ndo=read 0 1\ndo=put 0 0\n\
//!     do=send\nmsg=0:10,1:20\nturns=LABLABLABLAB\n";
//! let mut output = [0; 100];
//! let answer = pavebox::run(sheet, &mut output);
//! assert_eq!((answer.ending, answer.written), (pavebox::STOPPED, 34));
//! // The program copies what it sees of B's entry into A's column. A's execution sees B's dummy.
//! assert_eq!(&output[..34], b"sent=0009 +0000000400 +0000000020\n");
//! ```
//!
//! [`csv`] makes the `msg` lines of a sheet out of the export of a belt log:
//!
//! ```
//! let export = b"0,3\r\n1500,\r\n,-5\r\n";
//! let mut output = [0; pavebox::MOST_CSV_OUTPUT_BYTES];
//! let answer = pavebox::csv(export, &mut output);
//! assert_eq!((answer.number, answer.written), (pavebox::WRITTEN, 20));
//! assert_eq!(&output[..20], b"msg=0:1500\nmsg=3:-5\n");
//! ```
//!
//! [`blocks`] makes the `do` lines of a sheet with so many keys out of a program with blocks:
//!
//! ```
//! let program = b"receive\nhas 0 0\nif 0\nsend\nend\n";
//! let mut output = [0; pavebox::MOST_BLOCKS_OUTPUT_BYTES];
//! let answer = pavebox::blocks(program, 1, &mut output);
//! assert_eq!((answer.number, answer.written), (pavebox::WRITTEN, 44));
//! assert_eq!(&output[..44], b"do=receive\ndo=has 0 0\ndo=ifzero 0 4\ndo=send\n");
//! ```
//!
//! [`read`] opens a sheet as a record of plain numbers, a [`Job`], and [`write`] saves a record as a
//! sheet:
//!
//! ```
//! let sheet = b"sheet=1\nkeys=1\ndo=receive\ndo=send\nmsg=0:7\nturns=LL\n";
//! let mut job = pavebox::Job::default();
//! assert_eq!(pavebox::read(sheet, &mut job).number, pavebox::ACCEPTED);
//! job.messages[0].entries[0].value = -40;
//! let mut output = [0; pavebox::MOST_WRITE_OUTPUT_BYTES];
//! let answer = pavebox::write(&job, &mut output);
//! assert_eq!((answer.number, answer.written), (pavebox::WRITTEN, 53));
//! assert_eq!(&output[34..53], b"msg=0:-40\nturns=LL\n");
//! ```
//!
//! [`to_sheet2`] turns a sheet of form 1 into one of form 2, whose secrets all have the owner A, and
//! [`to_sheet1`] turns it back to the first bytes:
//!
//! ```
//! let old = b"sheet=1\nkeys=1\nsecret=0:5\ndo=receive\ndo=send\nmsg=0:7\nturns=LHL\n";
//! let mut new = [0; pavebox::MOST_SHEET2_BYTES];
//! let answer = pavebox::to_sheet2(old, &mut new);
//! assert_eq!((answer.number, answer.written), (pavebox::WRITTEN, 65));
//! let new = &new[..65];
//! assert_eq!(new, b"sheet=2\nkeys=1\nsecret=0:5:A\ndo=receive\ndo=send\nmsg=0:7\nturns=LAL\n");
//! let mut back = [0; pavebox::MOST_SHEET1_BYTES];
//! assert_eq!(pavebox::to_sheet1(new, &mut back).numbers(), [pavebox::WRITTEN, 0, 63]);
//! assert_eq!(&back[..63], old);
//! ```

use std::mem::{align_of, offset_of, size_of};

/// The bytes of an answer.
pub const ANSWER_BYTES: usize = 28;
/// The ending of a run whose low execution has stopped.
pub const STOPPED: u32 = 0;
/// The ending of a run that has used all letters.
pub const LETTERS_USED: u32 = 31;
/// The ending of a run whose output memory has no room for the next line.
pub const NO_ROOM: u32 = 32;
/// What [`entry`] returns if the answer memory is not exactly [`ANSWER_BYTES`] long, [`csv_entry`] if
/// it is not exactly [`CSV_ANSWER_BYTES`] long, [`blocks_entry`] if it is not exactly
/// [`BLOCKS_ANSWER_BYTES`] long, [`write_entry`] if it is not exactly [`WRITE_ANSWER_BYTES`] long,
/// [`read_entry`] if it is not exactly [`READ_ANSWER_BYTES`] long, and [`to_sheet2_entry`] and
/// [`to_sheet1_entry`] if it is not exactly [`FORM_ANSWER_BYTES`] long.
pub const BAD_ANSWER: u32 = 10;
/// The refusal of a sheet of form 2 with a secret whose owner is neither `A` nor `B`.
pub const BAD_OWNER: u32 = 46;

/// The bytes of an answer of [`csv_entry`].
pub const CSV_ANSWER_BYTES: usize = 12;
/// No export gives more bytes of lines. With so much output memory [`NO_ROOM_FOR_LINES`] never
/// occurs.
pub const MOST_CSV_OUTPUT_BYTES: usize = 3_712;
/// The number of an export, or of a program with blocks, whose lines are in the output memory, of a
/// record whose sheet is there, and of a sheet that is there in its other form.
pub const WRITTEN: u32 = 0;
/// The refusal of an export with a 33rd message.
pub const TOO_MANY: u32 = 8;
/// The refusal of an export with a quote mark, a bare carriage return or line feed, an unfinished
/// last row, another count of fields than the first row has, or nothing at all.
pub const BAD_ROW: u32 = 41;
/// The refusal of an export with a bad number, or a key that does not rise.
pub const BAD_FIELD: u32 = 42;
/// The refusal of an export whose lines are longer than the output memory.
pub const NO_ROOM_FOR_LINES: u32 = 43;

/// The bytes of a [`TextAnswer`].
const TEXT_ANSWER_BYTES: usize = 12;
/// The bytes of an answer of [`blocks_entry`].
pub const BLOCKS_ANSWER_BYTES: usize = TEXT_ANSWER_BYTES;
/// No program with blocks gives more bytes of lines. With so much output memory
/// [`NO_ROOM_FOR_COMMANDS`] occurs for more than 64 commands only.
pub const MOST_BLOCKS_OUTPUT_BYTES: usize = 1_344;
/// The refusal of a program with a forbidden byte, without a line feed at its end, or of none at all.
pub const BAD_BYTE: u32 = 2;
/// The refusal of a program with a bad number, and, at line 0, of a count of keys beyond 1 to 8.
pub const BAD_NUMBER: u32 = 4;
/// The refusal of a program with a word that is no command, or with a wrong count of parts.
pub const BAD_COMMAND: u32 = 6;
/// The refusal of a program with an `else` that is not directly in the first body of an `if`, with an
/// `end` outside blocks, or with a missing `end`.
pub const BAD_BLOCK: u32 = 51;
/// The refusal of a program with a ninth level of blocks.
pub const TOO_DEEP: u32 = 52;
/// The refusal of a program with more than 64 commands, or whose lines are longer than the output
/// memory.
pub const NO_ROOM_FOR_COMMANDS: u32 = 53;

/// The places of a [`Job`] for secrets, and of a [`Message`] for entries. In a sheet there are at most as many
/// of each as keys, 1 to 8.
pub const KEY_PLACES: usize = 16;
/// The places of a [`Job`] for commands, of which a sheet has 1 to 64.
pub const COMMAND_PLACES: usize = 256;
/// The places of a [`Job`] for messages, of which a sheet has none or more.
pub const MESSAGE_PLACES: usize = 32;
/// The places of a [`Job`] for letters, of which a sheet has 1 or more.
pub const LETTER_PLACES: usize = 1_024;
/// The bytes of a [`Job`].
pub const JOB_BYTES: usize = 11_608;
/// The owner `A` of a secret in a sheet of form 2.
pub const OWNER_A: u32 = 65;
/// The owner `B` of a secret in a sheet of form 2.
pub const OWNER_B: u32 = 66;
/// The word of `set v n`.
pub const WORD_SET: u32 = 0;
/// The word of `add v w`.
pub const WORD_ADD: u32 = 1;
/// The word of `sub v w`.
pub const WORD_SUB: u32 = 2;
/// The word of `mul v w`.
pub const WORD_MUL: u32 = 3;
/// The word of `div v w`.
pub const WORD_DIV: u32 = 4;
/// The word of `read v k`.
pub const WORD_READ: u32 = 5;
/// The word of `has v k`.
pub const WORD_HAS: u32 = 6;
/// The word of `put k v`.
pub const WORD_PUT: u32 = 7;
/// The word of `drop k`.
pub const WORD_DROP: u32 = 8;
/// The word of `ifneg v t`.
pub const WORD_IFNEG: u32 = 9;
/// The word of `ifzero v t`.
pub const WORD_IFZERO: u32 = 10;
/// The word of `jump t`.
pub const WORD_JUMP: u32 = 11;
/// The word of `receive`.
pub const WORD_RECEIVE: u32 = 12;
/// The word of `send`.
pub const WORD_SEND: u32 = 13;
/// The word of `stop`.
pub const WORD_STOP: u32 = 14;
/// The bytes of an answer of [`write_entry`].
pub const WRITE_ANSWER_BYTES: usize = 8;
/// No record gives a longer sheet. With so much output memory [`NO_ROOM_FOR_SHEET`] never occurs. One of
/// form 2 can be so long, one of form 1 has at most 6,270 bytes.
pub const MOST_WRITE_OUTPUT_BYTES: usize = 6_286;
/// The refusal of a record with a number or count outside its limits, an operand that must be 0 and is not,
/// an owner or a letter that its form does not have, keys that do not rise, or a target above the count of
/// commands.
pub const BAD_RECORD: u32 = 54;
/// The refusal of a record whose sheet is longer than the output memory.
pub const NO_ROOM_FOR_SHEET: u32 = 55;
/// The bytes of an answer of [`read_entry`].
pub const READ_ANSWER_BYTES: usize = 8;
/// The number of a sheet that the record holds.
pub const ACCEPTED: u32 = 0;
/// The bytes of an answer of [`to_sheet2_entry`] and of [`to_sheet1_entry`].
pub const FORM_ANSWER_BYTES: usize = TEXT_ANSWER_BYTES;
/// No sheet that is turned into form 2 is longer. With so much output memory [`to_sheet2`] never answers
/// [`NO_ROOM_FOR_FORM`].
pub const MOST_SHEET2_BYTES: usize = 6_286;
/// No sheet that is turned into form 1 is longer. With so much output memory [`to_sheet1`] never answers
/// [`NO_ROOM_FOR_FORM`].
pub const MOST_SHEET1_BYTES: usize = 6_270;
/// The refusal of a sheet of form 2 that is to be turned into form 1 and has a secret with the owner `B`,
/// or a turn `B`.
pub const CANNOT_GO_BACK: u32 = 47;
/// The refusal of a sheet that already has the form asked for.
pub const HAS_THE_FORM: u32 = 48;
/// The refusal of a sheet that is longer in its other form than the output memory.
pub const NO_ROOM_FOR_FORM: u32 = 49;

mod archive {
    use super::Job;

    /// An entry of the archive: bytes that are read, the output memory and the answer memory.
    pub type Entry = unsafe extern "C" fn(*const u8, usize, *mut u8, usize, *mut u8, usize) -> u32;

    extern "C" {
        pub fn pavebox_run(
            sheet: *const u8,
            sheet_len: usize,
            output: *mut u8,
            output_len: usize,
            answer: *mut u8,
            answer_len: usize,
        ) -> u32;

        pub fn pavebox_csv(
            log: *const u8,
            log_len: usize,
            output: *mut u8,
            output_len: usize,
            answer: *mut u8,
            answer_len: usize,
        ) -> u32;

        pub fn pavebox_blocks(
            text: *const u8,
            text_len: usize,
            keys: u32,
            output: *mut u8,
            output_len: usize,
            answer: *mut u8,
            answer_len: usize,
        ) -> u32;

        pub fn pavebox_write(
            job: *const Job,
            output: *mut u8,
            output_len: usize,
            answer: *mut u8,
            answer_len: usize,
        ) -> u32;

        pub fn pavebox_read(
            sheet: *const u8,
            sheet_len: usize,
            job: *mut Job,
            answer: *mut u8,
            answer_len: usize,
        ) -> u32;

        pub fn pavebox_to_sheet2(
            sheet: *const u8,
            sheet_len: usize,
            output: *mut u8,
            output_len: usize,
            answer: *mut u8,
            answer_len: usize,
        ) -> u32;

        pub fn pavebox_to_sheet1(
            sheet: *const u8,
            sheet_len: usize,
            output: *mut u8,
            output_len: usize,
            answer: *mut u8,
            answer_len: usize,
        ) -> u32;
    }
}

/// The seven numbers of a run. After a refusal the last five are 0.
#[derive(Debug, Clone, Copy, PartialEq, Eq)]
pub struct Answer {
    /// 0, 31 or 32 if the sheet ran, else the refusal: 1 to 9, or 46.
    pub ending: u32,
    /// The line that is refused, from 1; 0 if there is none.
    pub line: u32,
    /// Letters of `turns` whose turns were taken.
    pub positions: u32,
    /// Letters `L` among them.
    pub low_steps: u32,
    /// Bytes of sent lines at the start of the output memory.
    pub written: u32,
    /// Message lines taken.
    pub taken: u32,
    /// Results of `add`, `sub`, `mul` and `div` in the low execution that were clamped, because the
    /// exact one lay outside the range.
    pub clamped: u32,
}

impl Answer {
    /// The seven numbers out of an answer memory, where each has 32 bits, low byte first.
    pub fn from_bytes(bytes: &[u8; ANSWER_BYTES]) -> Answer {
        Answer {
            ending: number(bytes, 0),
            line: number(bytes, 1),
            positions: number(bytes, 2),
            low_steps: number(bytes, 3),
            written: number(bytes, 4),
            taken: number(bytes, 5),
            clamped: number(bytes, 6),
        }
    }

    /// The seven numbers in their order.
    pub fn numbers(&self) -> [u32; ANSWER_BYTES / 4] {
        [
            self.ending,
            self.line,
            self.positions,
            self.low_steps,
            self.written,
            self.taken,
            self.clamped,
        ]
    }
}

/// The three numbers of an export.
#[derive(Debug, Clone, Copy, PartialEq, Eq)]
pub struct CsvAnswer {
    /// 0 if the lines were written, else the refusal: 8, 41, 42 or 43.
    pub number: u32,
    /// The row that is refused, from 1; 0 if there is none.
    pub row: u32,
    /// Bytes of `msg` lines at the start of the output memory.
    pub written: u32,
}

impl CsvAnswer {
    /// The three numbers out of an answer memory, where each has 32 bits, low byte first.
    pub fn from_bytes(bytes: &[u8; CSV_ANSWER_BYTES]) -> CsvAnswer {
        CsvAnswer {
            number: number(bytes, 0),
            row: number(bytes, 1),
            written: number(bytes, 2),
        }
    }

    /// The three numbers in their order.
    pub fn numbers(&self) -> [u32; 3] {
        [self.number, self.row, self.written]
    }
}

/// The three numbers of a text that is made of another one: of [`blocks`], [`to_sheet2`] and [`to_sheet1`].
#[derive(Debug, Clone, Copy, PartialEq, Eq)]
pub struct TextAnswer {
    /// 0 if the text was written, else the refusal.
    pub number: u32,
    /// The line that is refused, from 1; 0 if there is none. Of a line beyond 4,294,967,295 the low 32
    /// bits.
    pub line: u32,
    /// Bytes of the text at the start of the output memory.
    pub written: u32,
}

/// The three numbers of a program with blocks. The refusals are 2, 4, 6, 51, 52 or 53.
pub type BlocksAnswer = TextAnswer;
/// The three numbers of a sheet that is to be turned into its other form. The refusals are 1 to 9 or 46, as on
/// reading, or 47, 48 or 49.
pub type FormAnswer = TextAnswer;

impl TextAnswer {
    /// The three numbers out of an answer memory, where each has 32 bits, low byte first.
    pub fn from_bytes(bytes: &[u8; TEXT_ANSWER_BYTES]) -> TextAnswer {
        TextAnswer {
            number: number(bytes, 0),
            line: number(bytes, 1),
            written: number(bytes, 2),
        }
    }

    /// The three numbers in their order.
    pub fn numbers(&self) -> [u32; 3] {
        [self.number, self.line, self.written]
    }
}

/// A secret key of a [`Job`].
#[repr(C)]
#[derive(Debug, Clone, Copy, PartialEq, Eq, Default)]
pub struct Secret {
    pub key: u32,
    pub dummy: i32,
    /// 0 in a sheet of form 1, where secrets have no owner; [`OWNER_A`] or [`OWNER_B`] in one of form 2.
    pub owner: u32,
}

/// A command of a [`Job`]. An operand that its word lacks is 0.
#[repr(C)]
#[derive(Debug, Clone, Copy, PartialEq, Eq, Default)]
pub struct Command {
    /// One of [`WORD_SET`] to [`WORD_STOP`], 0 to 14.
    pub word: u32,
    pub v: u32,
    pub w: u32,
    pub k: u32,
    pub t: u32,
    pub n: i32,
}

/// An entry of a [`Message`].
#[repr(C)]
#[derive(Debug, Clone, Copy, PartialEq, Eq, Default)]
pub struct Entry {
    pub key: u32,
    pub value: i32,
}

/// A message of a [`Job`].
#[repr(C)]
#[derive(Debug, Clone, Copy, PartialEq, Eq, Default)]
pub struct Message {
    pub entry_count: u32,
    pub entries: [Entry; KEY_PLACES],
}

/// A job as a screen holds it: plain numbers, of which a count says how many places are used. What
/// stands behind them is neither looked at nor changed. Any numbers will do; [`write`] says which are a
/// job.
#[repr(C)]
#[derive(Debug, Clone, PartialEq, Eq)]
pub struct Job {
    /// The number behind `sheet=`: 1 or 2.
    pub form: u32,
    pub keys: u32,
    pub secret_count: u32,
    pub secrets: [Secret; KEY_PLACES],
    pub command_count: u32,
    pub commands: [Command; COMMAND_PLACES],
    pub message_count: u32,
    pub messages: [Message; MESSAGE_PLACES],
    pub letter_count: u32,
    /// `L` or `H` each in form 1, and `L`, `A` or `B` in form 2.
    pub letters: [u8; LETTER_PLACES],
}

// The layout that a C program has. Nothing but the fields is in it.
const _: () = {
    assert!(size_of::<Secret>() == 12 && size_of::<Command>() == 24);
    assert!(size_of::<Entry>() == 8 && size_of::<Message>() == 132);
    assert!(offset_of!(Secret, key) == 0 && offset_of!(Secret, dummy) == 4);
    assert!(offset_of!(Secret, owner) == 8);
    assert!(offset_of!(Command, word) == 0 && offset_of!(Command, v) == 4);
    assert!(offset_of!(Command, w) == 8 && offset_of!(Command, k) == 12);
    assert!(offset_of!(Command, t) == 16 && offset_of!(Command, n) == 20);
    assert!(offset_of!(Entry, key) == 0 && offset_of!(Entry, value) == 4);
    assert!(offset_of!(Message, entry_count) == 0 && offset_of!(Message, entries) == 4);
    assert!(offset_of!(Job, form) == 0 && offset_of!(Job, keys) == 4);
    assert!(offset_of!(Job, secret_count) == 8 && offset_of!(Job, secrets) == 12);
    assert!(offset_of!(Job, command_count) == 204 && offset_of!(Job, commands) == 208);
    assert!(offset_of!(Job, message_count) == 6_352 && offset_of!(Job, messages) == 6_356);
    assert!(offset_of!(Job, letter_count) == 10_580 && offset_of!(Job, letters) == 10_584);
    assert!(size_of::<Job>() == JOB_BYTES && align_of::<Job>() == 4);
};

/// All numbers 0, which is no job yet.
impl Default for Job {
    fn default() -> Job {
        Job {
            form: 0,
            keys: 0,
            secret_count: 0,
            secrets: Default::default(),
            command_count: 0,
            commands: [Command::default(); COMMAND_PLACES],
            message_count: 0,
            messages: [Message::default(); MESSAGE_PLACES],
            letter_count: 0,
            letters: [0; LETTER_PLACES],
        }
    }
}

impl Job {
    /// The record that lies in these bytes, as a C program has it. There is none if they are not
    /// [`JOB_BYTES`], or do not begin at a multiple of 4.
    pub fn in_bytes(bytes: &[u8]) -> Option<&Job> {
        let job = bytes.as_ptr().cast::<Job>();
        // SAFETY: The bytes are as many as a record has, begin where one may begin, and stay borrowed.
        // Every field is a number, so that any bytes are a record.
        (bytes.len() == JOB_BYTES && job.is_aligned()).then(|| unsafe { &*job })
    }

    /// The same, to be changed.
    pub fn in_bytes_mut(bytes: &mut [u8]) -> Option<&mut Job> {
        let job = bytes.as_mut_ptr().cast::<Job>();
        // SAFETY: As above; and since every byte of a record belongs to a field, none of them is ever
        // left without a value.
        (bytes.len() == JOB_BYTES && job.is_aligned()).then(|| unsafe { &mut *job })
    }

    /// The bytes of the record, as they lie in memory.
    pub fn as_bytes(&self) -> &[u8; JOB_BYTES] {
        // SAFETY: A record has so many bytes, and each of them belongs to a field.
        unsafe { &*std::ptr::from_ref(self).cast() }
    }
}

/// The two numbers of a record that is to be written.
#[derive(Debug, Clone, Copy, PartialEq, Eq)]
pub struct WriteAnswer {
    /// 0 if the sheet was written, else the refusal: 54 or 55.
    pub number: u32,
    /// Bytes of the sheet at the start of the output memory.
    pub written: u32,
}

impl WriteAnswer {
    /// The two numbers out of an answer memory, where each has 32 bits, low byte first.
    pub fn from_bytes(bytes: &[u8; WRITE_ANSWER_BYTES]) -> WriteAnswer {
        WriteAnswer {
            number: number(bytes, 0),
            written: number(bytes, 1),
        }
    }

    /// The two numbers in their order.
    pub fn numbers(&self) -> [u32; 2] {
        [self.number, self.written]
    }
}

/// The two numbers of a sheet that is to be read.
#[derive(Debug, Clone, Copy, PartialEq, Eq)]
pub struct ReadAnswer {
    /// 0 if the record holds the sheet, else the refusal: 1 to 9, or 46.
    pub number: u32,
    /// The line that is refused, from 1; 0 if there is none.
    pub line: u32,
}

impl ReadAnswer {
    /// The two numbers out of an answer memory, where each has 32 bits, low byte first.
    pub fn from_bytes(bytes: &[u8; READ_ANSWER_BYTES]) -> ReadAnswer {
        ReadAnswer {
            number: number(bytes, 0),
            line: number(bytes, 1),
        }
    }

    /// The two numbers in their order.
    pub fn numbers(&self) -> [u32; 2] {
        [self.number, self.line]
    }
}

/// One number of an answer memory, by its place among them.
fn number(bytes: &[u8], place: usize) -> u32 {
    let byte = |place: usize| u32::from(bytes[place]);
    let place = 4 * place;
    byte(place) | byte(place + 1) << 8 | byte(place + 2) << 16 | byte(place + 3) << 24
}

/// Reads a sheet and runs it to its ending. The sent lines are at the start of `output`; behind
/// them, and everywhere if the sheet is refused, `output` keeps its bytes.
pub fn run(sheet: &[u8], output: &mut [u8]) -> Answer {
    let mut answer = [0; ANSWER_BYTES];
    entry(sheet, output, &mut answer);
    Answer::from_bytes(&answer)
}

/// The entry as a C program has it. It fills `answer` and returns the first of the seven numbers;
/// if `answer` is not exactly [`ANSWER_BYTES`] long it returns [`BAD_ANSWER`] and writes nothing.
pub fn entry(sheet: &[u8], output: &mut [u8], answer: &mut [u8]) -> u32 {
    call(archive::pavebox_run, sheet, output, answer)
}

/// Makes a `msg` line out of each row of an export but the first, which has the keys. The lines are
/// at the start of `output`; behind them, and everywhere if the export is refused, `output` keeps
/// its bytes.
pub fn csv(log: &[u8], output: &mut [u8]) -> CsvAnswer {
    let mut answer = [0; CSV_ANSWER_BYTES];
    csv_entry(log, output, &mut answer);
    CsvAnswer::from_bytes(&answer)
}

/// The same as a C program has it. It fills `answer` and returns the first of the three numbers; if
/// `answer` is not exactly [`CSV_ANSWER_BYTES`] long it returns [`BAD_ANSWER`] and writes nothing.
pub fn csv_entry(log: &[u8], output: &mut [u8], answer: &mut [u8]) -> u32 {
    call(archive::pavebox_csv, log, output, answer)
}

/// Makes the `do` lines of a sheet with so many keys out of a program with blocks. The lines are at
/// the start of `output`; behind them, and everywhere if the program is refused, `output` keeps its
/// bytes.
pub fn blocks(text: &[u8], keys: u32, output: &mut [u8]) -> BlocksAnswer {
    let mut answer = [0; BLOCKS_ANSWER_BYTES];
    blocks_entry(text, keys, output, &mut answer);
    BlocksAnswer::from_bytes(&answer)
}

/// The same as a C program has it. It fills `answer` and returns the first of the three numbers; if
/// `answer` is not exactly [`BLOCKS_ANSWER_BYTES`] long it returns [`BAD_ANSWER`] and writes nothing.
pub fn blocks_entry(text: &[u8], keys: u32, output: &mut [u8], answer: &mut [u8]) -> u32 {
    // SAFETY: As for the other entries, in `call`. A number beside them has no duty.
    unsafe {
        archive::pavebox_blocks(
            text.as_ptr(),
            text.len(),
            keys,
            output.as_mut_ptr(),
            output.len(),
            answer.as_mut_ptr(),
            answer.len(),
        )
    }
}

/// Writes a record as a sheet. It is at the start of `output`; behind it, and everywhere if the record is
/// refused, `output` keeps its bytes.
pub fn write(job: &Job, output: &mut [u8]) -> WriteAnswer {
    let mut answer = [0; WRITE_ANSWER_BYTES];
    write_entry(job, output, &mut answer);
    WriteAnswer::from_bytes(&answer)
}

/// The same as a C program has it. It fills `answer` and returns the first of the two numbers; if
/// `answer` is not exactly [`WRITE_ANSWER_BYTES`] long it returns [`BAD_ANSWER`] and writes nothing.
pub fn write_entry(job: &Job, output: &mut [u8], answer: &mut [u8]) -> u32 {
    // SAFETY: As for the other entries, in `call`; and the record is there to be read, and no part of
    // the others, during the call.
    unsafe {
        archive::pavebox_write(
            job,
            output.as_mut_ptr(),
            output.len(),
            answer.as_mut_ptr(),
            answer.len(),
        )
    }
}

/// Reads a sheet into a record. What its counts do not cover, and everything if the sheet is refused,
/// keeps its bytes.
pub fn read(sheet: &[u8], job: &mut Job) -> ReadAnswer {
    let mut answer = [0; READ_ANSWER_BYTES];
    read_entry(sheet, job, &mut answer);
    ReadAnswer::from_bytes(&answer)
}

/// The same as a C program has it. It fills `answer` and returns the first of the two numbers; if
/// `answer` is not exactly [`READ_ANSWER_BYTES`] long it returns [`BAD_ANSWER`] and writes nothing.
pub fn read_entry(sheet: &[u8], job: &mut Job, answer: &mut [u8]) -> u32 {
    // SAFETY: As for the other entries, in `call`; and the record is there to be read and to be
    // written, and no part of the others, during the call.
    unsafe {
        archive::pavebox_read(
            sheet.as_ptr(),
            sheet.len(),
            job,
            answer.as_mut_ptr(),
            answer.len(),
        )
    }
}

/// Turns a sheet of form 1 into one of form 2, with the owner `A` at each secret and an `A` for each `H` of
/// the turns. It is at the start of `output`; behind it, and everywhere if the sheet is refused, `output`
/// keeps its bytes.
pub fn to_sheet2(sheet: &[u8], output: &mut [u8]) -> FormAnswer {
    let mut answer = [0; FORM_ANSWER_BYTES];
    to_sheet2_entry(sheet, output, &mut answer);
    FormAnswer::from_bytes(&answer)
}

/// The same as a C program has it. It fills `answer` and returns the first of the three numbers; if
/// `answer` is not exactly [`FORM_ANSWER_BYTES`] long it returns [`BAD_ANSWER`] and writes nothing.
pub fn to_sheet2_entry(sheet: &[u8], output: &mut [u8], answer: &mut [u8]) -> u32 {
    call(archive::pavebox_to_sheet2, sheet, output, answer)
}

/// Turns a sheet of form 2 back into one of form 1, if all its secrets and turns beside `L` are A's. It is
/// at the start of `output`; behind it, and everywhere if the sheet is refused, `output` keeps its bytes.
pub fn to_sheet1(sheet: &[u8], output: &mut [u8]) -> FormAnswer {
    let mut answer = [0; FORM_ANSWER_BYTES];
    to_sheet1_entry(sheet, output, &mut answer);
    FormAnswer::from_bytes(&answer)
}

/// The same as a C program has it. It fills `answer` and returns the first of the three numbers; if
/// `answer` is not exactly [`FORM_ANSWER_BYTES`] long it returns [`BAD_ANSWER`] and writes nothing.
pub fn to_sheet1_entry(sheet: &[u8], output: &mut [u8], answer: &mut [u8]) -> u32 {
    call(archive::pavebox_to_sheet1, sheet, output, answer)
}

/// Calls an entry of the archive that has three memories and nothing beside them.
fn call(entry: archive::Entry, input: &[u8], output: &mut [u8], answer: &mut [u8]) -> u32 {
    // SAFETY: Each pointer and length are those of a slice, so the bytes are there to be read, and
    // those of `output` and `answer` to be written, during the call. The two are borrowed mutably,
    // so that no two of the three ranges overlap. The archive keeps none of the pointers.
    unsafe {
        entry(
            input.as_ptr(),
            input.len(),
            output.as_mut_ptr(),
            output.len(),
            answer.as_mut_ptr(),
            answer.len(),
        )
    }
}

#[cfg(test)]
mod tests {
    use super::*;

    /// Takes a message, sends it, and begins again until the letters are used.
    const SHEET: &[u8] =
        b"sheet=1\nkeys=1\ndo=receive\ndo=send\ndo=jump 0\nmsg=0:7\nturns=LHLHLHL\n";

    #[test]
    fn lines_stand_at_the_start_of_the_output() {
        let mut output = [b'~'; 25];
        let answer = run(SHEET, &mut output);
        assert_eq!(answer.numbers(), [LETTERS_USED, 0, 7, 4, 22, 1, 0]);
        assert_eq!(&output, b"sent=0002 +0000000007\n~~~");
    }

    #[test]
    fn each_number_has_its_name_and_place() {
        let bytes = std::array::from_fn(|place| place as u8);
        let answer = Answer {
            ending: 0x03_02_01_00,
            line: 0x07_06_05_04,
            positions: 0x0b_0a_09_08,
            low_steps: 0x0f_0e_0d_0c,
            written: 0x13_12_11_10,
            taken: 0x17_16_15_14,
            clamped: 0x1b_1a_19_18,
        };
        assert_eq!(Answer::from_bytes(&bytes), answer);
        let bytes_again = answer.numbers().map(u32::to_le_bytes).concat();
        assert_eq!(bytes_again, bytes);
    }

    #[test]
    fn empty_memories_are_lawful() {
        assert_eq!(run(SHEET, &mut []).numbers(), [NO_ROOM, 0, 2, 1, 0, 1, 0]);
        assert_eq!(run(&[], &mut []).numbers(), [2, 1, 0, 0, 0, 0, 0]);
        assert_eq!(entry(&[], &mut [], &mut []), BAD_ANSWER);
    }

    #[test]
    fn an_answer_memory_of_another_length_stays_as_it_is() {
        // 24 bytes had room for the numbers before the count of clamped results was one of them.
        for length in [24, 27, 29, 32] {
            let (mut output, mut answer) = ([b'~'; 25], vec![b'~'; length]);
            assert_eq!(entry(SHEET, &mut output, &mut answer), BAD_ANSWER);
            assert_eq!((output, answer), ([b'~'; 25], vec![b'~'; length]));
        }
    }

    #[test]
    fn clamped_results_of_the_low_execution_are_counted() {
        // The greatest number plus itself, minus itself twice, and by 0: only the first is clamped.
        let low = b"sheet=1\nkeys=1\ndo=set 0 2147483647\ndo=set 1 2147483647\ndo=add 0 1\n\
            do=sub 0 1\ndo=sub 0 1\ndo=div 0 2\nturns=LLLLLL\n";
        assert_eq!(run(low, &mut []).numbers(), [STOPPED, 0, 6, 6, 0, 0, 1]);
        // The high execution doubles the greatest number, the low one its dummy 0.
        let high = b"sheet=1\nkeys=1\nsecret=0:0\ndo=receive\ndo=read 0 0\ndo=add 0 0\n\
            do=put 0 0\ndo=send\nmsg=0:2147483647\nturns=LHLHLHLHL\n";
        let mut output = [b'~'; 22];
        let answer = run(high, &mut output);
        assert_eq!(answer.numbers(), [STOPPED, 0, 9, 5, 22, 1, 0]);
        assert_eq!(&output, b"sent=0008 +2147483647\n");
    }

    /// A secret of each owner. The program puts the sum of both, as an execution sees them, at both keys.
    const OWNED: &[u8] =
        b"sheet=2\nkeys=2\nsecret=0:300:A\nsecret=1:-400:B\ndo=receive\ndo=read 0 0\n\
        do=read 1 1\ndo=add 0 1\ndo=put 0 0\ndo=put 1 0\ndo=send\nmsg=0:10,1:20\n\
        turns=LABLABLABLABLABLABL\n";

    #[test]
    fn a_secret_column_comes_from_its_owners_execution() {
        let sent = |sheet: &[u8]| {
            let mut output = [b'~'; 34];
            let answer = run(sheet, &mut output);
            assert_eq!(answer.numbers(), [STOPPED, 0, 19, 7, 34, 1, 0]);
            String::from_utf8(output.to_vec()).expect("digits")
        };
        let with = |message: &str| {
            let sheet = String::from_utf8(OWNED.to_vec()).expect("letters");
            sent(sheet.replace("msg=0:10,1:20", message).as_bytes())
        };
        assert_eq!(sent(OWNED), "sent=0018 -0000000390 +0000000320\n");
        // Where the entries of one owner differ, or are missing, that owner's column alone does.
        assert_eq!(with("msg=0:10,1:21"), "sent=0018 -0000000390 +0000000321\n");
        assert_eq!(with("msg=0:10"), "sent=0018 -0000000390 +0000000300\n");
        assert_eq!(with("msg=1:20"), "sent=0018 -0000000400 +0000000320\n");
    }

    #[test]
    fn an_owner_that_is_neither_letter_is_refused() {
        let refused: [(&str, u32); 6] = [
            ("secret=0:300:C", BAD_OWNER),
            ("secret=0:300:", BAD_OWNER),
            ("secret=0:300:A:B", BAD_OWNER),
            ("secret=0:300", BAD_NUMBER),
            ("secret=0:x:C", BAD_NUMBER),
            ("secret=8:300:C", BAD_NUMBER),
        ];
        for (line, number) in refused {
            let sheet = String::from_utf8(OWNED.to_vec()).expect("letters");
            let sheet = sheet.replace("secret=0:300:A", line);
            let (mut output, mut job) = ([b'~'; 34], Job::default());
            let wanted = [number, 3, 0, 0, 0, 0, 0];
            assert_eq!(run(sheet.as_bytes(), &mut output).numbers(), wanted);
            assert_eq!(output, [b'~'; 34]);
            assert_eq!(read(sheet.as_bytes(), &mut job).numbers(), [number, 3]);
            assert_eq!(job, Job::default());
        }
    }

    /// Two messages, the second without its first entry.
    const EXPORT: &[u8] = b"2,5\r\n-40,7\r\n,300\r\n";

    #[test]
    fn lines_of_an_export_stand_at_the_start_of_the_output() {
        let mut output = [b'~'; 27];
        assert_eq!(csv(EXPORT, &mut output).numbers(), [WRITTEN, 0, 24]);
        assert_eq!(&output, b"msg=2:-40,5:7\nmsg=5:300\n~~~");
    }

    #[test]
    fn each_number_of_an_export_has_its_name_and_place() {
        let bytes = std::array::from_fn(|place| place as u8);
        let answer = CsvAnswer {
            number: 0x03_02_01_00,
            row: 0x07_06_05_04,
            written: 0x0b_0a_09_08,
        };
        assert_eq!(CsvAnswer::from_bytes(&bytes), answer);
        let bytes_again = answer.numbers().map(u32::to_le_bytes).concat();
        assert_eq!(bytes_again, bytes);
    }

    #[test]
    fn a_refused_export_leaves_the_output_as_it_is() {
        let too_many = [b"0\r\n".as_slice(), &b"1\r\n".repeat(33)].concat();
        let refused: [(&[u8], [u32; 3]); 4] = [
            (&too_many, [TOO_MANY, 34, 0]),
            (b"2,5\r\n1,2\r\n3\r\n", [BAD_ROW, 3, 0]),
            (b"5,2\r\n1,2\r\n", [BAD_FIELD, 1, 0]),
            (EXPORT, [NO_ROOM_FOR_LINES, 0, 0]),
        ];
        for (export, numbers) in refused {
            let mut output = [b'~'; 23];
            assert_eq!(csv(export, &mut output).numbers(), numbers);
            assert_eq!(output, [b'~'; 23]);
        }
    }

    #[test]
    fn lines_of_an_export_are_the_messages_of_a_sheet() {
        let mut lines = [b'~'; 24];
        csv(EXPORT, &mut lines);
        let head = b"sheet=1\nkeys=6\ndo=receive\ndo=send\ndo=jump 0\n";
        let sheet = [head.as_slice(), &lines, b"turns=LLLLL\n"].concat();
        let mut output = [b'~'; 164];
        assert_eq!(
            run(&sheet, &mut output).numbers(),
            [LETTERS_USED, 0, 5, 5, 164, 2, 0]
        );
        let sent: &[u8] = b"\
            sent=0001 ........... ........... -0000000040 ........... ........... +0000000007\n\
            sent=0004 ........... ........... ........... ........... ........... +0000000300\n";
        assert_eq!(output, sent);
    }

    #[test]
    fn empty_memories_are_lawful_for_an_export() {
        assert_eq!(csv(b"0\r\n", &mut []).numbers(), [WRITTEN, 0, 0]);
        assert_eq!(csv(&[], &mut []).numbers(), [BAD_ROW, 1, 0]);
        assert_eq!(csv_entry(&[], &mut [], &mut []), BAD_ANSWER);
    }

    #[test]
    fn another_length_than_that_of_three_numbers_is_refused() {
        for length in [11, 13, ANSWER_BYTES] {
            let (mut output, mut answer) = ([b'~'; 27], vec![b'~'; length]);
            assert_eq!(csv_entry(EXPORT, &mut output, &mut answer), BAD_ANSWER);
            assert_eq!((output, answer), ([b'~'; 27], vec![b'~'; length]));
        }
    }

    /// A choice in a loop.
    const PROGRAM: &[u8] = b"while 0\nif 1\nelse\nset 0 1\nend\nend\n";
    const DO_LINES: &[u8] = b"do=ifzero 0 5\ndo=ifzero 1 3\ndo=jump 4\ndo=set 0 1\ndo=jump 0\n";

    #[test]
    fn lines_of_a_program_stand_at_the_start_of_the_output() {
        let mut output = [b'~'; 62];
        assert_eq!(blocks(PROGRAM, 1, &mut output).numbers(), [WRITTEN, 0, 59]);
        assert_eq!(output, [DO_LINES, b"~~~"].concat().as_slice());
    }

    #[test]
    fn each_number_of_a_program_has_its_name_and_place() {
        let bytes = std::array::from_fn(|place| place as u8);
        let answer = BlocksAnswer {
            number: 0x03_02_01_00,
            line: 0x07_06_05_04,
            written: 0x0b_0a_09_08,
        };
        assert_eq!(BlocksAnswer::from_bytes(&bytes), answer);
        let bytes_again = answer.numbers().map(u32::to_le_bytes).concat();
        assert_eq!(bytes_again, bytes);
    }

    #[test]
    fn a_refused_program_leaves_the_output_as_it_is() {
        let refused: [(&[u8], u32, [u32; 3]); 10] = [
            (PROGRAM, 0, [BAD_NUMBER, 0, 0]),
            (PROGRAM, 9, [BAD_NUMBER, 0, 0]),
            (b"send\nsend\r\n", 1, [BAD_BYTE, 2, 0]),
            (b"send\nelse\n", 1, [BAD_BLOCK, 2, 0]),
            (b"send\nif 0\n", 1, [BAD_BLOCK, 3, 0]),
            (&b"if 0\n".repeat(9), 1, [TOO_DEEP, 9, 0]),
            (b"send\njump 0\n", 1, [BAD_COMMAND, 2, 0]),
            (b"send\ndrop 1\n", 1, [BAD_NUMBER, 2, 0]),
            (&b"send\n".repeat(65), 1, [NO_ROOM_FOR_COMMANDS, 0, 0]),
            (PROGRAM, 1, [NO_ROOM_FOR_COMMANDS, 0, 0]),
        ];
        for (program, keys, numbers) in refused {
            let mut output = [b'~'; 58];
            assert_eq!(blocks(program, keys, &mut output).numbers(), numbers);
            assert_eq!(output, [b'~'; 58]);
        }
    }

    #[test]
    fn lines_of_a_program_are_the_commands_of_a_sheet() {
        let program = b"receive\nhas 0 0\nwhile 0\nsend\nreceive\nhas 0 0\nend\n";
        let mut lines = [b'~'; 76];
        assert_eq!(blocks(program, 1, &mut lines).numbers(), [WRITTEN, 0, 76]);
        let (head, tail) = (b"sheet=1\nkeys=1\n", b"msg=0:7\nmsg=0:8\nturns=");
        let sheet = [head.as_slice(), &lines, tail, &[b'L'; 20], b"\n"].concat();
        let mut output = [b'~'; 44];
        assert_eq!(
            run(&sheet, &mut output).numbers(),
            [STOPPED, 0, 13, 13, 44, 2, 0]
        );
        let sent: &[u8] = b"sent=0003 +0000000007\nsent=0008 +0000000008\n";
        assert_eq!(output, sent);
    }

    #[test]
    fn empty_memories_are_lawful_for_a_program() {
        let no_room = [NO_ROOM_FOR_COMMANDS, 0, 0];
        assert_eq!(blocks(PROGRAM, 1, &mut []).numbers(), no_room);
        assert_eq!(blocks(&[], 1, &mut []).numbers(), [BAD_BYTE, 1, 0]);
        assert_eq!(blocks_entry(&[], 1, &mut [], &mut []), BAD_ANSWER);
    }

    #[test]
    fn another_length_is_refused_for_a_program_too() {
        for length in [0, 11, 13, ANSWER_BYTES] {
            for keys in [0, 1] {
                let (mut output, mut answer) = ([b'~'; 62], vec![b'~'; length]);
                let returned = blocks_entry(PROGRAM, keys, &mut output, &mut answer);
                assert_eq!(returned, BAD_ANSWER);
                assert_eq!((output, answer), ([b'~'; 62], vec![b'~'; length]));
            }
        }
    }

    /// Two keys, one of them secret, and a message with both.
    const SAVED: &[u8] = b"sheet=1\nkeys=2\nsecret=1:-300\ndo=receive\ndo=put 1 7\ndo=ifneg 7 4\n\
        do=send\nmsg=\nmsg=0:1500,1:-7\nturns=LHL\n";

    fn saved() -> Job {
        let mut job = Job::default();
        assert_eq!(read(SAVED, &mut job).numbers(), [ACCEPTED, 0]);
        job
    }

    #[test]
    fn a_sheet_is_read_number_by_number() {
        let job = saved();
        let command = |word, v, k, t| Command {
            word,
            v,
            k,
            t,
            ..Command::default()
        };
        let mut wanted = Job {
            form: 1,
            keys: 2,
            secret_count: 1,
            command_count: 4,
            message_count: 2,
            letter_count: 3,
            ..Job::default()
        };
        wanted.secrets[0] = Secret {
            key: 1,
            dummy: -300,
            owner: 0,
        };
        wanted.commands[0] = command(WORD_RECEIVE, 0, 0, 0);
        wanted.commands[1] = command(WORD_PUT, 7, 1, 0);
        wanted.commands[2] = command(WORD_IFNEG, 7, 0, 4);
        wanted.commands[3] = command(WORD_SEND, 0, 0, 0);
        wanted.messages[1].entry_count = 2;
        wanted.messages[1].entries[0].value = 1_500;
        wanted.messages[1].entries[1] = Entry { key: 1, value: -7 };
        wanted.letters[..3].copy_from_slice(b"LHL");
        assert_eq!(job, wanted);
    }

    #[test]
    fn each_word_has_its_number() {
        let words: [(&str, u32); 15] = [
            ("set 0 0", WORD_SET),
            ("add 0 0", WORD_ADD),
            ("sub 0 0", WORD_SUB),
            ("mul 0 0", WORD_MUL),
            ("div 0 0", WORD_DIV),
            ("read 0 0", WORD_READ),
            ("has 0 0", WORD_HAS),
            ("put 0 0", WORD_PUT),
            ("drop 0", WORD_DROP),
            ("ifneg 0 0", WORD_IFNEG),
            ("ifzero 0 0", WORD_IFZERO),
            ("jump 0", WORD_JUMP),
            ("receive", WORD_RECEIVE),
            ("send", WORD_SEND),
            ("stop", WORD_STOP),
        ];
        for (place, (command, word)) in words.into_iter().enumerate() {
            let sheet = format!("sheet=1\nkeys=1\ndo={command}\nturns=L\n");
            let mut job = Job::default();
            assert_eq!(read(sheet.as_bytes(), &mut job).numbers(), [ACCEPTED, 0]);
            assert_eq!((job.commands[0].word, word), (place as u32, place as u32));
        }
    }

    #[test]
    fn what_the_counts_do_not_cover_keeps_its_bytes() {
        let mut before = Job::default();
        before.commands.fill(Command {
            word: 99,
            v: 9,
            w: 9,
            k: 9,
            t: 99,
            n: 9,
        });
        before.secrets.fill(Secret {
            key: 9,
            dummy: 9,
            owner: 9,
        });
        let entries = [Entry { key: 9, value: 9 }; KEY_PLACES];
        before.messages.fill(Message {
            entry_count: 99,
            entries,
        });
        before.letters.fill(b'~');
        let mut job = before.clone();
        assert_eq!(read(b"sheet=3\n", &mut job).numbers(), [BAD_NUMBER, 1]);
        assert_eq!(job, before);
        assert_eq!(read(SAVED, &mut job).numbers(), [ACCEPTED, 0]);
        assert_eq!(job.secrets[1..], before.secrets[1..]);
        assert_eq!(job.commands[4..], before.commands[4..]);
        assert_eq!(job.messages[0].entries, before.messages[0].entries);
        assert_eq!(
            job.messages[1].entries[2..],
            before.messages[1].entries[2..]
        );
        assert_eq!(job.messages[2..], before.messages[2..]);
        assert_eq!(job.letters[3..], before.letters[3..]);
        assert_eq!(job.letters[..3], *b"LHL");
    }

    #[test]
    fn a_record_is_written_as_the_sheet_that_it_was_read_from() {
        let length = SAVED.len();
        let mut output = vec![b'~'; length + 3];
        assert_eq!(
            write(&saved(), &mut output).numbers(),
            [WRITTEN, length as u32]
        );
        assert_eq!(output, [SAVED, b"~~~"].concat());
        let mut just_fits = vec![b'~'; length];
        assert_eq!(write(&saved(), &mut just_fits).number, WRITTEN);
        assert_eq!(just_fits, SAVED);
    }

    #[test]
    fn a_refused_record_leaves_the_output_as_it_is() {
        type Change = fn(&mut Job);
        let refused: [(Change, u32); 6] = [
            (|job| job.form = 2, BAD_RECORD),
            (|job| job.secrets[0].owner = 65, BAD_RECORD),
            (|job| job.commands[3].v = 1, BAD_RECORD),
            (|job| job.message_count = u32::MAX, BAD_RECORD),
            (|job| job.letters[2] = b'A', BAD_RECORD),
            (|job| job.letters[3] = b'A', NO_ROOM_FOR_SHEET),
        ];
        for (change, number) in refused {
            let mut job = saved();
            change(&mut job);
            let before = job.clone();
            let mut output = vec![b'~'; SAVED.len() - 1];
            assert_eq!(write(&job, &mut output).numbers(), [number, 0]);
            assert_eq!(output, vec![b'~'; SAVED.len() - 1]);
            assert_eq!(job, before);
        }
    }

    #[test]
    fn a_record_of_form_2_has_owners_and_their_letters() {
        let mut job = Job::default();
        assert_eq!(read(OWNED, &mut job).numbers(), [ACCEPTED, 0]);
        let owner = |place: usize, job: &Job| job.secrets[place].owner;
        assert_eq!(
            (job.form, owner(0, &job), owner(1, &job)),
            (2, OWNER_A, OWNER_B)
        );
        assert_eq!(job.letters[..4], *b"LABL");
        let mut output = vec![b'~'; OWNED.len()];
        assert_eq!(
            write(&job, &mut output).numbers(),
            [WRITTEN, OWNED.len() as u32]
        );
        assert_eq!(output, OWNED);
        let mut short = vec![b'~'; OWNED.len() - 1];
        assert_eq!(write(&job, &mut short).numbers(), [NO_ROOM_FOR_SHEET, 0]);
        type Change = fn(&mut Job);
        let refused: [Change; 6] = [
            |job| job.form = 1,
            |job| job.form = 3,
            |job| job.secrets[1].owner = 0,
            |job| job.secrets[1].owner = 72,
            |job| job.letters[0] = b'H',
            |job| job.keys = 9,
        ];
        for change in refused {
            let mut changed = job.clone();
            change(&mut changed);
            assert_eq!(write(&changed, &mut short).numbers(), [BAD_RECORD, 0]);
        }
        assert_eq!(short, vec![b'~'; OWNED.len() - 1]);
    }

    #[test]
    fn each_number_of_a_record_has_its_place_in_the_answer() {
        let bytes = [0, 1, 2, 3, 4, 5, 6, 7];
        let (first, second) = (0x03_02_01_00, 0x07_06_05_04);
        let (written, line) = (
            WriteAnswer::from_bytes(&bytes),
            ReadAnswer::from_bytes(&bytes),
        );
        assert_eq!((written.number, written.written), (first, second));
        assert_eq!((line.number, line.line), (first, second));
        assert_eq!(written.numbers(), [first, second]);
        assert_eq!(line.numbers(), [first, second]);
    }

    #[test]
    fn empty_memories_are_lawful_for_a_record() {
        let mut job = saved();
        assert_eq!(write(&job, &mut []).numbers(), [NO_ROOM_FOR_SHEET, 0]);
        assert_eq!(write(&Job::default(), &mut []).numbers(), [BAD_RECORD, 0]);
        assert_eq!(write_entry(&job, &mut [], &mut []), BAD_ANSWER);
        assert_eq!(read(&[], &mut job).numbers(), [BAD_BYTE, 1]);
        assert_eq!(read_entry(&[], &mut job, &mut []), BAD_ANSWER);
        assert_eq!(job, saved());
    }

    #[test]
    fn another_length_is_refused_for_a_record_too() {
        for length in [0, 4, 7, 9, 12, ANSWER_BYTES] {
            let (mut output, mut answer) = ([b'~'; 200], vec![b'~'; length]);
            assert_eq!(write_entry(&saved(), &mut output, &mut answer), BAD_ANSWER);
            let mut job = Job::default();
            assert_eq!(read_entry(SAVED, &mut job, &mut answer), BAD_ANSWER);
            assert_eq!((output, answer), ([b'~'; 200], vec![b'~'; length]));
            assert_eq!(job, Job::default());
        }
    }

    #[test]
    fn a_record_lies_in_bytes_as_a_c_program_has_it() {
        let job = saved();
        let bytes = job.as_bytes();
        for (place, number) in [
            (0, 1),
            (4, 2),
            (8, 1),
            (12, 1),
            (204, 4),
            (232, 7),
            (236, 7),
        ] {
            assert_eq!(bytes[place..place + 4], u32::to_ne_bytes(number));
        }
        assert_eq!(bytes[16..20], i32::to_ne_bytes(-300));
        assert_eq!(bytes[10_580..10_584], u32::to_ne_bytes(3));
        assert_eq!(bytes[10_584..10_587], *b"LHL");
        // One of four places that follow each other is a multiple of 4.
        let mut memory = vec![b'~'; JOB_BYTES + 3];
        let places: Vec<usize> = (0..4)
            .filter(|&place| Job::in_bytes(&memory[place..place + JOB_BYTES]).is_some())
            .collect();
        assert_eq!(places.len(), 1);
        let lent = &mut memory[places[0]..places[0] + JOB_BYTES];
        *Job::in_bytes_mut(lent).expect("it begins where a record may") = job.clone();
        assert_eq!(lent, bytes);
        assert_eq!(Job::in_bytes(lent), Some(&job));
        assert_eq!(Job::in_bytes(&lent[..JOB_BYTES - 4]), None);
        assert_eq!(Job::in_bytes_mut(&mut lent[4..]), None);
    }

    /// The sheet `SAVED` in form 2.
    const TURNED: &[u8] =
        b"sheet=2\nkeys=2\nsecret=1:-300:A\ndo=receive\ndo=put 1 7\ndo=ifneg 7 4\n\
        do=send\nmsg=\nmsg=0:1500,1:-7\nturns=LAL\n";

    /// A sheet with one text in place of another, which it has once.
    fn replaced(sheet: &[u8], old: &str, new: &str) -> Vec<u8> {
        let sheet = String::from_utf8(sheet.to_vec()).expect("letters");
        assert_eq!(sheet.matches(old).count(), 1);
        sheet.replace(old, new).into_bytes()
    }

    #[test]
    fn a_turned_sheet_stands_at_the_start_of_the_output() {
        let (old_length, new_length) = (SAVED.len(), TURNED.len());
        assert_eq!(new_length, old_length + 2);
        let mut output = vec![b'~'; new_length + 3];
        let numbers = to_sheet2(SAVED, &mut output).numbers();
        assert_eq!(numbers, [WRITTEN, 0, new_length as u32]);
        assert_eq!(output, [TURNED, b"~~~"].concat());
        let mut output = vec![b'~'; old_length + 3];
        let numbers = to_sheet1(TURNED, &mut output).numbers();
        assert_eq!(numbers, [WRITTEN, 0, old_length as u32]);
        assert_eq!(output, [SAVED, b"~~~"].concat());
    }

    #[test]
    fn just_enough_memory_is_enough_for_a_turned_sheet() {
        let mut just_fits = vec![b'~'; TURNED.len()];
        assert_eq!(to_sheet2(SAVED, &mut just_fits).number, WRITTEN);
        assert_eq!(just_fits, TURNED);
        let mut just_fits = vec![b'~'; SAVED.len()];
        assert_eq!(to_sheet1(TURNED, &mut just_fits).number, WRITTEN);
        assert_eq!(just_fits, SAVED);
        let mut short = vec![b'~'; TURNED.len() - 1];
        let no_room = [NO_ROOM_FOR_FORM, 0, 0];
        assert_eq!(to_sheet2(SAVED, &mut short).numbers(), no_room);
        assert_eq!(short, vec![b'~'; TURNED.len() - 1]);
        short.truncate(SAVED.len() - 1);
        assert_eq!(to_sheet1(TURNED, &mut short).numbers(), no_room);
        assert_eq!(short, vec![b'~'; SAVED.len() - 1]);
    }

    #[test]
    fn each_number_of_a_turned_sheet_has_its_name_and_place() {
        let bytes = std::array::from_fn(|place| place as u8);
        let answer = FormAnswer {
            number: 0x03_02_01_00,
            line: 0x07_06_05_04,
            written: 0x0b_0a_09_08,
        };
        assert_eq!(FormAnswer::from_bytes(&bytes), answer);
        let bytes_again = answer.numbers().map(u32::to_le_bytes).concat();
        assert_eq!(bytes_again, bytes);
    }

    #[test]
    fn a_sheet_that_is_not_turned_leaves_the_output_as_it_is() {
        let owner_b = replaced(TURNED, ":A", ":B");
        let turn_b = replaced(TURNED, "LAL", "LBL");
        let bad_owner = replaced(TURNED, ":A", ":C");
        let bad_letter = replaced(SAVED, "LHL", "LAL");
        let refused: [(&[u8], [u32; 2], [u32; 2]); 8] = [
            (SAVED, [NO_ROOM_FOR_FORM, 0], [HAS_THE_FORM, 0]),
            (TURNED, [HAS_THE_FORM, 0], [NO_ROOM_FOR_FORM, 0]),
            (OWNED, [HAS_THE_FORM, 0], [CANNOT_GO_BACK, 0]),
            (&owner_b, [HAS_THE_FORM, 0], [CANNOT_GO_BACK, 0]),
            (&turn_b, [HAS_THE_FORM, 0], [CANNOT_GO_BACK, 0]),
            (&bad_owner, [BAD_OWNER, 3], [BAD_OWNER, 3]),
            (&bad_letter, [9, 10], [9, 10]),
            (b"sheet=3\n", [BAD_NUMBER, 1], [BAD_NUMBER, 1]),
        ];
        for (sheet, [number, line], [number_back, line_back]) in refused {
            let mut output = [b'~'; 20];
            let numbers = to_sheet2(sheet, &mut output).numbers();
            assert_eq!(numbers, [number, line, 0]);
            let numbers = to_sheet1(sheet, &mut output).numbers();
            assert_eq!(numbers, [number_back, line_back, 0]);
            assert_eq!(output, [b'~'; 20]);
        }
    }

    #[test]
    fn a_turned_sheet_runs_to_the_same_lines_and_numbers() {
        let high = b"sheet=1\nkeys=2\nsecret=1:-3\ndo=receive\ndo=read 0 1\ndo=add 0 0\n\
            do=put 1 0\ndo=send\nmsg=0:1500,1:-7\nturns=LHLHLHLHLH\n";
        let mut turned = vec![b'~'; high.len() + 2];
        assert_eq!(to_sheet2(high, &mut turned).number, WRITTEN);
        for lent in [0, 33, 34, 35] {
            let (mut before, mut after) = (vec![b'~'; lent], vec![b'~'; lent]);
            assert_eq!(run(high, &mut before), run(&turned, &mut after));
            assert_eq!(before, after);
        }
        let mut sent = [b'~'; 34];
        assert_eq!(run(&turned, &mut sent).ending, STOPPED);
        assert_eq!(&sent, b"sent=0008 +0000001500 -0000000014\n");
    }

    #[test]
    fn empty_memories_are_lawful_for_a_turned_sheet() {
        let no_room = [NO_ROOM_FOR_FORM, 0, 0];
        assert_eq!(to_sheet2(SAVED, &mut []).numbers(), no_room);
        assert_eq!(to_sheet1(TURNED, &mut []).numbers(), no_room);
        assert_eq!(to_sheet2(&[], &mut []).numbers(), [BAD_BYTE, 1, 0]);
        assert_eq!(to_sheet1(&[], &mut []).numbers(), [BAD_BYTE, 1, 0]);
        assert_eq!(to_sheet2_entry(&[], &mut [], &mut []), BAD_ANSWER);
        assert_eq!(to_sheet1_entry(&[], &mut [], &mut []), BAD_ANSWER);
    }

    #[test]
    fn another_length_is_refused_for_a_turned_sheet_too() {
        for length in [0, 4, 8, 11, 13, ANSWER_BYTES] {
            for sheet in [SAVED, TURNED, b"sheet=3\n"] {
                let (mut output, mut answer) = ([b'~'; 200], vec![b'~'; length]);
                let returned = to_sheet2_entry(sheet, &mut output, &mut answer);
                assert_eq!(returned, BAD_ANSWER);
                let returned = to_sheet1_entry(sheet, &mut output, &mut answer);
                assert_eq!(returned, BAD_ANSWER);
                assert_eq!((output, answer), ([b'~'; 200], vec![b'~'; length]));
            }
        }
    }

    #[test]
    fn an_entry_that_turns_a_sheet_returns_the_first_number() {
        let (mut output, mut answer) = ([b'~'; MOST_SHEET2_BYTES], [b'~'; FORM_ANSWER_BYTES]);
        for (sheet, number, number_back) in [
            (SAVED, WRITTEN, HAS_THE_FORM),
            (TURNED, HAS_THE_FORM, WRITTEN),
            (OWNED, HAS_THE_FORM, CANNOT_GO_BACK),
        ] {
            let returned = to_sheet2_entry(sheet, &mut output, &mut answer);
            let first = FormAnswer::from_bytes(&answer).number;
            assert_eq!((returned, first), (number, number));
            let returned = to_sheet1_entry(sheet, &mut output, &mut answer);
            let first = FormAnswer::from_bytes(&answer).number;
            assert_eq!((returned, first), (number_back, number_back));
        }
    }
}
