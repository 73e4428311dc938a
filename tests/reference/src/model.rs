//! The reference model of document 01, in the order of its text, with the rule of document 02's
//! Note 2 for the calls of the high execution, the seventh number of its Note 3, the classes of
//! bytes without a table, as its Note 6 has them, and the second form of a sheet of its Note 8, with
//! two owners of secrets. Both forms are read and run by the same functions: a sheet of form 1 is one
//! with a single owner, whose letter is `H` and whose execution is document 01's high one.
//!
//! Words between quotation marks are the documents' own. A comment that begins with "Reading:"
//! names the reading taken where the text leaves a choice, or seems to leave one.

/// "Values are ... from -2147483648 to 2147483647."
pub const LOWEST: i64 = -2_147_483_648;
/// The other end of that range.
pub const HIGHEST: i64 = 2_147_483_647;
/// "A sheet has at most 16,384 bytes."
pub const MOST_BYTES: usize = 16_384;
/// "K from 1 to 8."
pub const MOST_KEYS: usize = 8;
/// "`do=command`, 1 to 64 lines".
pub const MOST_COMMANDS: usize = 64;
/// "0 to 32 lines", of `msg=`.
pub const MOST_MESSAGES: usize = 32;
/// "1 to 1,024 letters".
pub const MOST_TURNS: usize = 1_024;
/// "v and w are variables 0 to 7".
pub const VARIABLES: usize = 8;
/// The numbers of an answer: document 01's "Six numbers", to which Note 3 adds one: "The answer gains
/// a seventh number".
pub const NUMBERS: usize = 7;
/// Document 01 has "exactly 24 bytes", for six numbers "in 32 bits each". Note 3: "The C answer memory
/// becomes 28 bytes".
pub const ANSWER_BYTES: usize = 4 * NUMBERS;
/// The bytes that `runsheet` lends.
pub const LENT: usize = 32_768;

const LINE_FEED: u8 = 10;

// ---------------------------------------------------------------------------------------------
// The sheet
// ---------------------------------------------------------------------------------------------

/// The number behind `sheet=`. Note 8: "A new sheet begins `sheet=2`", and "`sheet=1` runs as before".
#[derive(Debug, Clone, Copy, PartialEq, Eq, PartialOrd, Ord)]
pub enum Form {
    One,
    Two,
}

impl Form {
    pub const ALL: [Form; 2] = [Form::One, Form::Two];

    pub fn number(self) -> usize {
        match self {
            Form::One => 1,
            Form::Two => 2,
        }
    }

    /// The form of this number, if there is one.
    pub fn of(number: usize) -> Option<Form> {
        Form::ALL.into_iter().find(|form| form.number() == number)
    }

    /// "An airport and its handler both have secret entries": the owners of a sheet of form 2. On one of
    /// form 1 every secret is that of the one high execution.
    pub fn owners(self) -> &'static [Owner] {
        match self {
            Form::One => &[Owner::H],
            Form::Two => &[Owner::A, Owner::B],
        }
    }

    /// "turns use `L`, `A`, `B`"; of form 1 "each `L` or `H`".
    pub fn level(self, letter: u8) -> Option<Level> {
        let followers = self.owners().iter().copied().map(Level::Of);
        let mut levels = [Level::Low].into_iter().chain(followers);
        levels.find(|level| level.letter() == letter)
    }

    /// Reading: Note 8 names no limit of form 2 but those of document 01.
    pub fn limits(self) -> Limits {
        match self {
            Form::One | Form::Two => Limits {
                keys: MOST_KEYS,
                commands: MOST_COMMANDS,
                messages: MOST_MESSAGES,
                turns: MOST_TURNS,
            },
        }
    }
}

/// How much of everything a sheet of a form may have.
#[derive(Debug, Clone, Copy, PartialEq, Eq)]
pub struct Limits {
    pub keys: usize,
    pub commands: usize,
    pub messages: usize,
    pub turns: usize,
}

/// Whose a secret is. "owner `A` or `B`"; on a sheet of form 1 secrets have no owner's name, and are
/// `H`'s.
#[derive(Debug, Clone, Copy, PartialEq, Eq, PartialOrd, Ord)]
pub enum Owner {
    H,
    A,
    B,
}

impl Owner {
    pub fn letter(self) -> u8 {
        match self {
            Owner::H => b'H',
            Owner::A => b'A',
            Owner::B => b'B',
        }
    }
}

/// A secret key: what others see in place of its entries, and who sees these.
#[derive(Debug, Clone, Copy, PartialEq, Eq)]
pub struct Secret {
    pub dummy: i32,
    pub owner: Owner,
}

/// What an accepted sheet says.
#[derive(Debug, Clone, PartialEq, Eq)]
pub struct Job {
    pub form: Form,
    /// K. "Keys are 0 to K-1."
    pub keys: usize,
    /// One place per key. "Every other key is open", and has `None`.
    pub secrets: Vec<Option<Secret>>,
    /// The `do=` lines, "numbered from 0".
    pub commands: Vec<Command>,
    /// The `msg=` lines, one place per key; `None` where the line lacks the key.
    pub messages: Vec<Vec<Option<i32>>>,
    /// The letters of `turns=`.
    pub turns: Vec<Level>,
}

impl Job {
    /// The bytes of one sent line: "That is 10 + 12 × K bytes."
    pub fn line_length(&self) -> usize {
        10 + 12 * self.keys
    }

    /// The secret at a key, if it is one of this owner's.
    pub fn secret_of(&self, owner: Owner, key: usize) -> Option<Secret> {
        self.secrets[key].filter(|secret| secret.owner == owner)
    }
}

/// A letter of `turns=`, and the execution whose turn it is: the low one, or the one of an owner.
#[derive(Debug, Clone, Copy, PartialEq, Eq)]
pub enum Level {
    Low,
    Of(Owner),
}

/// Document 01's high execution.
pub const HIGH: Level = Level::Of(Owner::H);

impl Level {
    pub fn letter(self) -> u8 {
        match self {
            Level::Low => b'L',
            Level::Of(owner) => owner.letter(),
        }
    }
}

/// One row of the table of commands. Parts stand in the order of the words: `v`, `w` are
/// variables, `k` a key, `n` a number, `t` a target.
#[derive(Debug, Clone, Copy, PartialEq, Eq)]
pub enum Command {
    /// `set v n`
    Set(usize, i32),
    /// `add v w`
    Add(usize, usize),
    /// `sub v w`
    Sub(usize, usize),
    /// `mul v w`
    Mul(usize, usize),
    /// `div v w`
    Div(usize, usize),
    /// `read v k`
    Read(usize, usize),
    /// `has v k`
    Has(usize, usize),
    /// `put k v`
    Put(usize, usize),
    /// `drop k`
    Drop(usize),
    /// `ifneg v t`
    IfNeg(usize, usize),
    /// `ifzero v t`
    IfZero(usize, usize),
    /// `jump t`
    Jump(usize),
    /// `receive`
    Receive,
    /// `send`
    Send,
    /// `stop`
    Stop,
}

impl Command {
    /// The target, where the command has one.
    pub fn target(self) -> Option<usize> {
        match self {
            Command::IfNeg(_, t) | Command::IfZero(_, t) | Command::Jump(t) => Some(t),
            _ => None,
        }
    }

    /// "`receive`, `send`: the two calls".
    pub fn is_call(self) -> bool {
        matches!(self, Command::Receive | Command::Send)
    }
}

/// Why a sheet is not accepted: the refusal number, from 1 to 9 or 46, and the line it names.
#[derive(Debug, Clone, Copy, PartialEq, Eq)]
pub struct Refusal {
    pub number: u32,
    pub line: u32,
}

/// "The class of a byte". Its number is its place in document 01's list, from 0.
#[derive(Debug, Clone, Copy, PartialEq, Eq)]
pub enum Class {
    Digit,
    Minus,
    Comma,
    Colon,
    Equals,
    Space,
    LineFeed,
    SmallLetter,
    CapitalLetter,
    Other,
    Forbidden,
}

/// Document 01 has it "looked up in a table of 256 entries". Note 6: "Replace it by tests on ranges of the
/// byte. The contract of the class is the same."
// The first arm that fits decides, so `Other` is what the arms above it leave.
#[allow(clippy::match_overlapping_arm)]
pub fn class(byte: u8) -> Class {
    match byte {
        b'0'..=b'9' => Class::Digit,
        b'-' => Class::Minus,
        b',' => Class::Comma,
        b':' => Class::Colon,
        b'=' => Class::Equals,
        b' ' => Class::Space,
        LINE_FEED => Class::LineFeed,
        b'a'..=b'z' => Class::SmallLetter,
        b'A'..=b'Z' => Class::CapitalLetter,
        32..=126 => Class::Other,
        _ => Class::Forbidden,
    }
}

// ---------------------------------------------------------------------------------------------
// From the input: refusals 1 to 9, and 46
// ---------------------------------------------------------------------------------------------

/// Reads a sheet. "Order: ... 1, 2 over the whole sheet, then line by line from the top ... 7 comes
/// last, for the first such line, once every line has passed."
pub fn read(sheet: &[u8]) -> Result<Job, Refusal> {
    check_bytes(sheet)?;
    let lines = lines(sheet);
    let mut reader = Reader::new();
    for (line, text) in (1..).zip(&lines) {
        reader
            .take_line(line, text)
            .map_err(|number| Refusal { number, line })?;
    }
    reader.check_end(lines.len() as u32 + 1)?;
    reader.check_targets()?;
    Ok(reader.job)
}

/// Refusals 1 and 2, "over the whole sheet".
fn check_bytes(sheet: &[u8]) -> Result<(), Refusal> {
    // 1: "more than 16,384 bytes; line 0".
    if sheet.len() > MOST_BYTES {
        return Err(Refusal { number: 1, line: 0 });
    }
    check_text(sheet)
}

/// Refusal 2, of a sheet and of every other text of lines.
pub(crate) fn check_text(text: &[u8]) -> Result<(), Refusal> {
    // 2: "a byte that is neither 10 nor 32 to 126 (its line, the first such)".
    let forbidden = |&byte: &u8| class(byte) == Class::Forbidden;
    if let Some(place) = text.iter().position(forbidden) {
        let line = line_feeds(&text[..place]) + 1;
        return Err(Refusal { number: 2, line });
    }
    // 2: "else the last byte is not 10, or the sheet is empty (line = line feeds + 1)".
    if text.last() != Some(&LINE_FEED) {
        let line = line_feeds(text) + 1;
        return Err(Refusal { number: 2, line });
    }
    Ok(())
}

fn line_feeds(bytes: &[u8]) -> u32 {
    bytes.iter().filter(|&&byte| byte == LINE_FEED).count() as u32
}

/// "Each line ends with a line feed (byte 10)." The line feed is not part of the text handed on.
pub(crate) fn lines(text: &[u8]) -> Vec<&[u8]> {
    let mut lines: Vec<&[u8]> = text.split(|&byte| byte == LINE_FEED).collect();
    // What stands after the last line feed is no line; after refusal 2 it is empty.
    lines.pop();
    lines
}

/// The names that lines may have.
#[derive(Debug, Clone, Copy, PartialEq, Eq)]
enum Name {
    Sheet,
    Keys,
    Secret,
    Do,
    Msg,
    Turns,
}

/// "the name before the first `=`", and what stands after that `=`. Refusal 3 if "there is no `=`"
/// or the name may stand nowhere.
fn split_name(text: &[u8]) -> Result<(Name, &[u8]), u32> {
    let equals = text.iter().position(|&byte| byte == b'=').ok_or(3u32)?;
    let name = match &text[..equals] {
        b"sheet" => Name::Sheet,
        b"keys" => Name::Keys,
        b"secret" => Name::Secret,
        b"do" => Name::Do,
        b"msg" => Name::Msg,
        b"turns" => Name::Turns,
        _ => return Err(3),
    };
    Ok((name, &text[equals + 1..]))
}

/// "The lines come in this order", and "Nothing follows": which name may stand after which.
fn may_stand(before: Option<Name>, name: Name) -> bool {
    match before {
        None => name == Name::Sheet,
        Some(Name::Sheet) => name == Name::Keys,
        Some(Name::Keys | Name::Secret) => matches!(name, Name::Secret | Name::Do),
        // Reading: a 65th `do` and a 33rd `msg` may stand here by name; their refusal is 8, not 3
        // ("65 get 8").
        Some(Name::Do) => matches!(name, Name::Do | Name::Msg | Name::Turns),
        Some(Name::Msg) => matches!(name, Name::Msg | Name::Turns),
        Some(Name::Turns) => false,
    }
}

/// What the lines so far have said.
struct Reader {
    before: Option<Name>,
    secret_before: Option<usize>,
    command_lines: Vec<u32>,
    job: Job,
}

impl Reader {
    fn new() -> Reader {
        Reader {
            before: None,
            secret_before: None,
            command_lines: Vec::new(),
            job: Job {
                form: Form::One,
                keys: 0,
                secrets: Vec::new(),
                commands: Vec::new(),
                messages: Vec::new(),
                turns: Vec::new(),
            },
        }
    }

    /// One line: "3, then 8, then the rest". A refusal comes back as its number.
    fn take_line(&mut self, line: u32, text: &[u8]) -> Result<(), u32> {
        let (name, rest) = split_name(text)?;
        if !may_stand(self.before, name) {
            return Err(3);
        }
        if self.one_too_many(name, rest) {
            return Err(8);
        }
        match name {
            Name::Sheet => self.job.form = form(rest)?,
            Name::Keys => self.take_keys(rest)?,
            Name::Secret => self.take_secret(rest)?,
            Name::Do => self.take_command(line, rest)?,
            Name::Msg => self.job.messages.push(message(rest, self.job.keys)?),
            Name::Turns => self.job.turns = turns(rest, self.job.form)?,
        }
        self.before = Some(name);
        Ok(())
    }

    /// 8: "a 65th command, a 33rd message, a 1,025th byte after `turns=`".
    ///
    /// Reading: the line feed that ends the line is not a byte "after `turns=`", for 8 and for 9;
    /// else 1,024 letters could not stand. There is no such limit on `secret` lines: a ninth cannot
    /// have a key both greater than the one before it and below K, so it gets 4 or 5.
    fn one_too_many(&self, name: Name, rest: &[u8]) -> bool {
        let limits = self.job.form.limits();
        match name {
            Name::Do => self.job.commands.len() == limits.commands,
            Name::Msg => self.job.messages.len() == limits.messages,
            Name::Turns => rest.len() > limits.turns,
            Name::Sheet | Name::Keys | Name::Secret => false,
        }
    }

    /// "`keys=K`, once, K from 1 to 8." Reading: 0 is "beyond its limit" just as 9 is.
    fn take_keys(&mut self, rest: &[u8]) -> Result<(), u32> {
        self.job.keys = small(rest, 1, self.job.form.limits().keys)?;
        self.job.secrets = vec![None; self.job.keys];
        Ok(())
    }

    /// "`secret=key:dummy`, none or more, keys rising." Reading: the keys rise from one `secret`
    /// line to the next. What stands after `secret=` is one part; a comma does not divide it.
    ///
    /// Note 8: on a sheet of form 2 it reads `secret=key:dummy:owner`.
    fn take_secret(&mut self, rest: &[u8]) -> Result<(), u32> {
        let (key_and_dummy, letter) = match self.job.form {
            Form::One => (rest, None),
            Form::Two => split_owner(rest).map(|(front, letter)| (front, Some(letter)))?,
        };
        let (key, dummy) = entry(key_and_dummy, self.job.keys, self.secret_before)?;
        let owner = letter.map_or(Ok(Owner::H), owner)?;
        self.job.secrets[key] = Some(Secret { dummy, owner });
        self.secret_before = Some(key);
        Ok(())
    }

    fn take_command(&mut self, line: u32, rest: &[u8]) -> Result<(), u32> {
        let most_commands = self.job.form.limits().commands;
        let command = command(rest, self.job.keys, most_commands)?;
        self.job.commands.push(command);
        self.command_lines.push(line);
        Ok(())
    }

    /// 3: "an early end of the sheet names the line after the last". Reading: this too comes before
    /// 7, since "7 comes last".
    fn check_end(&self, line_after: u32) -> Result<(), Refusal> {
        if self.before == Some(Name::Turns) {
            return Ok(());
        }
        Err(Refusal {
            number: 3,
            line: line_after,
        })
    }

    /// 7: "a target exceeds the count of commands", "for the first such line".
    fn check_targets(&self) -> Result<(), Refusal> {
        let count = self.job.commands.len();
        for (command, &line) in self.job.commands.iter().zip(&self.command_lines) {
            if command.target().is_some_and(|target| target > count) {
                return Err(Refusal { number: 7, line });
            }
        }
        Ok(())
    }
}

/// 4: "the 1 of `sheet`". Note 8: "Refusal 4 allows 1 or 2 for `sheet`".
fn form(text: &[u8]) -> Result<Form, u32> {
    Form::of(small(text, 1, 2)?).ok_or(4)
}

/// Note 8: "a secret line divides at its first two colons and, lacking either, gets 4, before its key".
/// What stands before the second colon, and what stands behind it. Reading: the rest of the line is the
/// owner, further colons too.
fn split_owner(text: &[u8]) -> Result<(&[u8], &[u8]), u32> {
    let is_colon = |&place: &usize| text[place] == b':';
    let second = (0..text.len()).filter(is_colon).nth(1).ok_or(4u32)?;
    Ok((&text[..second], &text[second + 1..]))
}

/// "46, after the dummy, for an owner that is neither letter". Reading: an owner is one of the two
/// letters and nothing else, so an empty one and a longer one get 46 too.
fn owner(text: &[u8]) -> Result<Owner, u32> {
    match text {
        b"A" => Ok(Owner::A),
        b"B" => Ok(Owner::B),
        _ => Err(46),
    }
}

/// 4: "a number is malformed or beyond its limit".
fn number(text: &[u8], lowest: i64, highest: i64) -> Result<i64, u32> {
    // "there is no plus sign": a plus is no digit.
    let (minus, digits) = match text.strip_prefix(b"-") {
        Some(digits) => (true, digits),
        None => (false, text),
    };
    if digits.is_empty() || digits.iter().any(|&byte| class(byte) != Class::Digit) {
        return Err(4);
    }
    // "A number has no leading zero except 0 itself."
    if digits.starts_with(b"0") && digits != b"0" {
        return Err(4);
    }
    // "A minus sign stands only before a number other than 0".
    if minus && digits == b"0" {
        return Err(4);
    }
    // A number too large for 64 bits is beyond every limit.
    let mut size: i64 = 0;
    for &digit in digits {
        let digit = i64::from(digit - b'0');
        size = size.checked_mul(10).ok_or(4u32)?;
        size = size.checked_add(digit).ok_or(4u32)?;
    }
    let number = if minus { -size } else { size };
    if number < lowest || number > highest {
        return Err(4);
    }
    Ok(number)
}

/// A number that names a variable, a key, a place or a count.
pub(crate) fn small(text: &[u8], lowest: usize, highest: usize) -> Result<usize, u32> {
    let number = number(text, lowest as i64, highest as i64)?;
    usize::try_from(number).map_err(|_| 4)
}

/// "v and w are variables 0 to 7".
pub(crate) fn variable(text: &[u8]) -> Result<usize, u32> {
    small(text, 0, VARIABLES - 1)
}

/// "k a key": "Keys are 0 to K-1." Reading: the limit of a key is this sheet's K-1, not 7.
fn key(text: &[u8], keys: usize) -> Result<usize, u32> {
    small(text, 0, keys - 1)
}

/// "t a target from 0 to the count of commands"; here "t up to 64", the most commands that there may be,
/// and the rest is refusal 7.
fn target(text: &[u8], most_commands: usize) -> Result<usize, u32> {
    small(text, 0, most_commands)
}

/// "Dummies and message values have the full range above." Reading: so has the n of `set`.
pub(crate) fn value(text: &[u8]) -> Result<i32, u32> {
    let number = number(text, LOWEST, HIGHEST)?;
    i32::try_from(number).map_err(|_| 4)
}

/// "In a `key:value` part the colon and key come first (4), then the order (5), then the value
/// (4)."
fn entry(part: &[u8], keys: usize, key_before: Option<usize>) -> Result<(usize, i32), u32> {
    // "The first colon of a part divides it."
    let colon = part.iter().position(|&byte| byte == b':').ok_or(4u32)?;
    let key = key(&part[..colon], keys)?;
    // 5: "a key is not greater than the one before it".
    if key_before.is_some_and(|before| key <= before) {
        return Err(5);
    }
    let value = value(&part[colon + 1..])?;
    Ok((key, value))
}

/// "`msg=key:value,key:value`, ... keys rising within a line."
fn message(rest: &[u8], keys: usize) -> Result<Vec<Option<i32>>, u32> {
    let mut entries = vec![None; keys];
    // "`msg=` alone is a message with no entries."
    if rest.is_empty() {
        return Ok(entries);
    }
    // "Parts run from left to right." Reading: every comma divides, so a comma at either end leaves
    // an empty part, which "has no colon".
    let mut key_before = None;
    for part in rest.split(|&byte| byte == b',') {
        let (key, value) = entry(part, keys, key_before)?;
        entries[key] = Some(value);
        key_before = Some(key);
    }
    Ok(entries)
}

/// 9: "no byte after `turns=`, or one other than `L` and `H`". Note 8: "9 tests the new letters".
/// Reading: on a sheet of form 2 these are `L`, `A` and `B`, and `H` is none of them.
fn turns(rest: &[u8], form: Form) -> Result<Vec<Level>, u32> {
    if rest.is_empty() {
        return Err(9);
    }
    let level = |&byte: &u8| form.level(byte).ok_or(9);
    rest.iter().map(level).collect()
}

// ---------------------------------------------------------------------------------------------
// Commands
// ---------------------------------------------------------------------------------------------

/// A command from its words. "A command is tested for 6 and then for 4 from left to right."
///
/// 6: "a command word is not in the table, or the count of parts is wrong; every space splits".
/// Reading: the word is a part too, and a part may be empty; so `stop` with a space after it has
/// two parts and gets 6, and `set 0 ` has three parts, of which the last is no number, and gets 4.
pub(crate) fn command(text: &[u8], keys: usize, most_commands: usize) -> Result<Command, u32> {
    let target = |text: &[u8]| target(text, most_commands);
    let command = match parts(text).as_slice() {
        [b"set", v, n] => Command::Set(variable(v)?, value(n)?),
        [b"add", v, w] => Command::Add(variable(v)?, variable(w)?),
        [b"sub", v, w] => Command::Sub(variable(v)?, variable(w)?),
        [b"mul", v, w] => Command::Mul(variable(v)?, variable(w)?),
        [b"div", v, w] => Command::Div(variable(v)?, variable(w)?),
        [b"read", v, k] => Command::Read(variable(v)?, key(k, keys)?),
        [b"has", v, k] => Command::Has(variable(v)?, key(k, keys)?),
        [b"put", k, v] => Command::Put(key(k, keys)?, variable(v)?),
        [b"drop", k] => Command::Drop(key(k, keys)?),
        [b"ifneg", v, t] => Command::IfNeg(variable(v)?, target(t)?),
        [b"ifzero", v, t] => Command::IfZero(variable(v)?, target(t)?),
        [b"jump", t] => Command::Jump(target(t)?),
        [b"receive"] => Command::Receive,
        [b"send"] => Command::Send,
        [b"stop"] => Command::Stop,
        _ => return Err(6),
    };
    Ok(command)
}

/// "every space splits".
pub(crate) fn parts(text: &[u8]) -> Vec<&[u8]> {
    text.split(|&byte| byte == b' ').collect()
}

/// The words of a command.
pub(crate) fn words(command: Command) -> String {
    match command {
        Command::Set(v, n) => format!("set {v} {n}"),
        Command::Add(v, w) => format!("add {v} {w}"),
        Command::Sub(v, w) => format!("sub {v} {w}"),
        Command::Mul(v, w) => format!("mul {v} {w}"),
        Command::Div(v, w) => format!("div {v} {w}"),
        Command::Read(v, k) => format!("read {v} {k}"),
        Command::Has(v, k) => format!("has {v} {k}"),
        Command::Put(k, v) => format!("put {k} {v}"),
        Command::Drop(k) => format!("drop {k}"),
        Command::IfNeg(v, t) => format!("ifneg {v} {t}"),
        Command::IfZero(v, t) => format!("ifzero {v} {t}"),
        Command::Jump(t) => format!("jump {t}"),
        Command::Receive => "receive".to_string(),
        Command::Send => "send".to_string(),
        Command::Stop => "stop".to_string(),
    }
}

/// What one of `add`, `sub`, `mul` and `div` gives. Note 3: each "shall say whether its exact result
/// lay outside the range".
#[derive(Clone, Copy)]
struct Outcome {
    value: i32,
    clamped: bool,
}

impl Outcome {
    /// The value. A clamped one is added to the count.
    fn counted(self, clamped: &mut usize) -> i32 {
        *clamped += usize::from(self.clamped);
        self.value
    }
}

/// "clamped to the nearest end of the range". Reading: an exact result that just reaches an end lies
/// in the range, and is not clamped.
fn clamped(exact: i64) -> Outcome {
    let value = if exact < LOWEST {
        i32::MIN
    } else if exact > HIGHEST {
        i32::MAX
    } else {
        exact as i32
    };
    Outcome {
        value,
        clamped: !(LOWEST..=HIGHEST).contains(&exact),
    }
}

/// "v becomes v + w, v - w, v times w, clamped". No step of it leaves 64 bits.
fn sum(v: i32, w: i32) -> Outcome {
    clamped(i64::from(v) + i64::from(w))
}

fn difference(v: i32, w: i32) -> Outcome {
    clamped(i64::from(v) - i64::from(w))
}

fn product(v: i32, w: i32) -> Outcome {
    clamped(i64::from(v) * i64::from(w))
}

/// "quotient cut toward zero and clamped; a zero divisor gives 0". Reading: the exact result is the
/// quotient that is cut already, so that of all pairs only -2147483648 and -1 leave the range.
fn quotient(v: i32, w: i32) -> Outcome {
    // Note 3: "a zero divisor doesn't count".
    if w == 0 {
        return Outcome {
            value: 0,
            clamped: false,
        };
    }
    clamped(i64::from(v) / i64::from(w))
}

// ---------------------------------------------------------------------------------------------
// The executions and one message
// ---------------------------------------------------------------------------------------------

/// "Each execution has its place and eight variables, all 0 at first." Each counts its own clamped
/// results too, for Note 3.
#[derive(Clone, Copy)]
pub(crate) struct Execution {
    pub(crate) place: usize,
    pub(crate) variables: [i32; VARIABLES],
    clamped: usize,
}

pub(crate) const FIRST: Execution = Execution {
    place: 0,
    variables: [0; VARIABLES],
    clamped: 0,
};

/// One field per key. "At each key it has a low field and a high field", and by Note 8, whose "three
/// executions" see a message line each in its own way, a field for each of them.
type Fields = Vec<Option<i32>>;

/// What an execution sees of a message line, or of none. The executions "share one message", and
/// `receive` "fills all fields".
fn fields_of(job: &Job, line: Option<&Vec<Option<i32>>>, level: Level) -> Fields {
    let Some(line) = line else {
        // "With no line left, every field becomes absent", which Note 8 says again. Reading: the field of
        // a dummy too; it stands in for a line only.
        return vec![None; job.keys];
    };
    let field = |key: usize| match job.secrets[key] {
        // "at an open key both fields are the entry or absent". Reading: of form 2, all three.
        None => line[key],
        // "and the high field is the entry or absent"; "A's sees A's entries".
        Some(secret) if level == Level::Of(secret.owner) => line[key],
        // "At a secret key the low field is the dummy, whether or not the line has that key"; "and B's
        // dummies, whether or not the line has those keys, and B's the reverse".
        Some(secret) => Some(secret.dummy),
    };
    (0..job.keys).map(field).collect()
}

/// One step of one execution. `fields` are its own: "The low execution reads and changes only low
/// fields, the high one only high fields." Of a call, only the moving on is here.
pub(crate) fn step(
    mut execution: Execution,
    command: Command,
    fields: &mut [Option<i32>],
    end: usize,
) -> Execution {
    let variables = &mut execution.variables;
    let clamped = &mut execution.clamped;
    let mut next = execution.place + 1;
    match command {
        Command::Set(v, n) => variables[v] = n,
        // Note 3: "Each of `add`, `sub`, `mul` and `div` shall say whether its exact result lay outside
        // the range".
        Command::Add(v, w) => variables[v] = sum(variables[v], variables[w]).counted(clamped),
        Command::Sub(v, w) => {
            variables[v] = difference(variables[v], variables[w]).counted(clamped)
        }
        Command::Mul(v, w) => variables[v] = product(variables[v], variables[w]).counted(clamped),
        Command::Div(v, w) => variables[v] = quotient(variables[v], variables[w]).counted(clamped),
        // "v becomes the entry at k, 0 if absent".
        Command::Read(v, k) => variables[v] = fields[k].unwrap_or(0),
        // "1 if the entry at k is present, else 0".
        Command::Has(v, k) => variables[v] = i32::from(fields[k].is_some()),
        Command::Put(k, v) => fields[k] = Some(variables[v]),
        Command::Drop(k) => fields[k] = None,
        Command::IfNeg(v, t) if variables[v] < 0 => next = t,
        Command::IfZero(v, t) if variables[v] == 0 => next = t,
        Command::IfNeg(..) | Command::IfZero(..) => {}
        Command::Jump(t) => next = t,
        Command::Receive | Command::Send => {}
        // "go to the end, the place after the last command".
        Command::Stop => next = end,
    }
    execution.place = next;
    execution
}

/// When a call of an execution that follows the low one moves on.
#[derive(Debug, Clone, Copy, PartialEq, Eq)]
pub enum CallRule {
    /// Note 2: "only if the j-th low call has been made and was of the same kind". The rule of every
    /// run.
    SameKind,
    /// Document 01, before Note 2: "only if the low execution has made at least j calls, of either
    /// kind." For tests that ask what Note 2 has changed.
    EitherKind,
}

/// What happened in a run that no answer says. For tests that ask what random sheets reach.
#[derive(Debug, Clone, PartialEq, Eq)]
pub struct Unreported {
    /// Each owner's execution, in the order of the form's owners.
    pub followers: Vec<Followed>,
    /// The place of the low execution after the last turn.
    pub low_place: usize,
    /// Whether after some turn no two executions were at one place: of form 2, at three places.
    pub all_apart: bool,
    /// Results of the low execution that are an end of the range and were not clamped.
    pub low_at_an_end: usize,
    /// Times that the low execution divided by zero.
    pub low_zero_divisors: usize,
}

/// What an owner's execution did in a run.
#[derive(Debug, Clone, Copy, PartialEq, Eq)]
pub struct Followed {
    pub owner: Owner,
    /// Its place after the last turn.
    pub place: usize,
    /// How many calls it has moved on from.
    pub calls: usize,
    /// Turns that passed idle because the low call of that number was not made yet.
    pub idle_by_count: usize,
    /// Turns that passed idle because the low call of that number was of the other kind.
    pub idle_by_kind: usize,
    /// Turns that passed idle because it had stopped.
    pub idle_at_the_end: usize,
    /// Its clamped results.
    pub clamped: usize,
}

impl Unreported {
    /// What the execution of an owner did, who must be one of the form's.
    pub fn of(&self, owner: Owner) -> Followed {
        let mut followers = self.followers.iter();
        let followed = followers.find(|followed| followed.owner == owner);
        *followed.expect("the form has this owner")
    }

    /// Turns that passed idle because the low call of that number was of the other kind.
    pub fn idle_by_kind(&self) -> usize {
        self.followers.iter().map(|f| f.idle_by_kind).sum()
    }

    /// The clamped results that no answer counts.
    pub fn clamped(&self) -> usize {
        self.followers.iter().map(|f| f.clamped).sum()
    }
}

/// An owner's execution, its fields of the message, and what it did.
struct Follower {
    execution: Execution,
    fields: Fields,
    did: Followed,
}

impl Follower {
    fn first(owner: Owner, keys: usize) -> Follower {
        Follower {
            execution: FIRST,
            fields: vec![None; keys],
            did: Followed {
                owner,
                place: 0,
                calls: 0,
                idle_by_count: 0,
                idle_by_kind: 0,
                idle_at_the_end: 0,
                clamped: 0,
            },
        }
    }

    /// "The high execution does its command", or "the turn passes idle". Note 8: "Each waits for the low
    /// one as the high one did." Reading: by its own count of calls.
    fn turn(&mut self, rule: CallRule, commands: &[Command], low_calls: &[Command]) {
        // "A stopped high execution also idles."
        let Some(&command) = commands.get(self.execution.place) else {
            self.did.idle_at_the_end += 1;
            return;
        };
        if command.is_call() {
            if !self.moves_on(rule, command, low_calls) {
                return;
            }
            self.did.calls += 1;
        }
        // "A `receive` or `send` of its own has no effect but to move it on."
        self.execution = step(self.execution, command, &mut self.fields, commands.len());
        self.did.place = self.execution.place;
        self.did.clamped = self.execution.clamped;
    }

    /// Note 2: "the j-th high call moves on only if the j-th low call has been made and was of the
    /// same kind."
    fn moves_on(&mut self, rule: CallRule, call: Command, low_calls: &[Command]) -> bool {
        // "(j from 1)". Reading: a call that waits is not made yet, so j is one more than the calls
        // it has moved on from. The list of the low calls counts from 0.
        let j = self.did.calls + 1;
        let Some(&low_call) = low_calls.get(j - 1) else {
            self.did.idle_by_count += 1;
            return false;
        };
        // "If the kinds differ, the high execution idles for the rest of the run." Reading: this
        // follows, since a turn that passes idle leaves `call` and j as they are, and no later turn
        // changes the j-th low call. Of form 2, one of the two may idle so and the other go on.
        if low_call != call && rule == CallRule::SameKind {
            self.did.idle_by_kind += 1;
            return false;
        }
        true
    }
}

/// All that a run keeps.
struct Run<'a> {
    job: &'a Job,
    rule: CallRule,
    output: &'a mut [u8],
    low: Execution,
    low_fields: Fields,
    /// The calls that the low execution has made, in their order.
    low_calls: Vec<Command>,
    /// One for each owner of the form: of form 1 the high execution, and by Note 8 "There are three
    /// executions".
    followers: Vec<Follower>,
    positions: usize,
    low_steps: usize,
    written: usize,
    taken: usize,
    all_apart: bool,
    low_at_an_end: usize,
    low_zero_divisors: usize,
}

impl<'a> Run<'a> {
    /// "All fields are absent at first."
    fn first(job: &'a Job, rule: CallRule, output: &'a mut [u8]) -> Run<'a> {
        let owners = job.form.owners().iter();
        Run {
            job,
            rule,
            output,
            low: FIRST,
            low_fields: vec![None; job.keys],
            low_calls: Vec::new(),
            followers: owners
                .map(|&owner| Follower::first(owner, job.keys))
                .collect(),
            positions: 0,
            low_steps: 0,
            written: 0,
            taken: 0,
            all_apart: false,
            low_at_an_end: 0,
            low_zero_divisors: 0,
        }
    }

    /// "The low execution does its command."
    fn low_turn(&mut self, command: Command) {
        match command {
            Command::Receive => self.receive(),
            Command::Send => self.send(),
            _ => {}
        }
        if command.is_call() {
            self.low_calls.push(command);
        }
        let end = self.job.commands.len();
        let before = self.low;
        self.low = step(before, command, &mut self.low_fields, end);
        self.low_steps += 1;
        self.look_at_low_result(command, &before);
    }

    /// Counts what comes near to a clamped result of the low execution and is none.
    fn look_at_low_result(&mut self, command: Command, before: &Execution) {
        let (Command::Add(v, w) | Command::Sub(v, w) | Command::Mul(v, w) | Command::Div(v, w)) =
            command
        else {
            return;
        };
        let at_an_end = matches!(self.low.variables[v], i32::MIN | i32::MAX);
        if at_an_end && self.low.clamped == before.clamped {
            self.low_at_an_end += 1;
        }
        if command == Command::Div(v, w) && before.variables[w] == 0 {
            self.low_zero_divisors += 1;
        }
    }

    /// "`receive` takes the next message line and fills all fields".
    fn receive(&mut self) {
        let line = self.job.messages.get(self.taken);
        self.low_fields = fields_of(self.job, line, Level::Low);
        for follower in &mut self.followers {
            follower.fields = fields_of(self.job, line, Level::Of(follower.did.owner));
        }
        // "Messages taken counts lines, so a `receive` with none left adds nothing." Reading: it is
        // a call all the same, of this kind, and a high `receive` may follow it.
        if line.is_some() {
            self.taken += 1;
        }
    }

    /// "`send` writes one line ... The message is unchanged by it."
    fn send(&mut self) {
        let fields: Fields = (0..self.job.keys).map(|key| self.sent_field(key)).collect();
        let line = sent_line(self.positions, &fields);
        let end = self.written + line.len();
        self.output[self.written..end].copy_from_slice(line.as_bytes());
        self.written = end;
    }

    /// "open keys from the low fields, secret keys from the high fields". Note 8: "A secret column comes
    /// from its owner's execution."
    fn sent_field(&self, key: usize) -> Option<i32> {
        match self.job.secrets[key] {
            None => self.low_fields[key],
            Some(secret) => {
                let owns = |follower: &&Follower| follower.did.owner == secret.owner;
                let follower = self.followers.iter().find(owns);
                follower.expect("the form has this owner").fields[key]
            }
        }
    }

    /// The turn of an owner's execution.
    fn turn_of(&mut self, owner: Owner) {
        let owns = |follower: &&mut Follower| follower.did.owner == owner;
        let follower = self.followers.iter_mut().find(owns);
        let follower = follower.expect("the form has this owner");
        follower.turn(self.rule, &self.job.commands, &self.low_calls);
    }

    /// Sees whether no two executions are at one place.
    fn look_at_places(&mut self) {
        if self.all_apart {
            return;
        }
        let followers = self.followers.iter().map(|f| f.execution.place);
        let mut places: Vec<usize> = followers.chain([self.low.place]).collect();
        places.sort_unstable();
        places.dedup();
        self.all_apart = places.len() == self.followers.len() + 1;
    }

    fn answer(&self, ending: u32) -> [u32; NUMBERS] {
        // No count is above 1,024 lines of 106 bytes, so each fits in 32 bits.
        [
            ending,
            0,
            self.positions as u32,
            self.low_steps as u32,
            self.written as u32,
            self.taken as u32,
            // Note 3: "the clamped results of the low execution alone".
            self.low.clamped as u32,
        ]
    }

    fn unreported(&self) -> Unreported {
        Unreported {
            followers: self.followers.iter().map(|f| f.did).collect(),
            low_place: self.low.place,
            all_apart: self.all_apart,
            low_at_an_end: self.low_at_an_end,
            low_zero_divisors: self.low_zero_divisors,
        }
    }
}

/// "A sent line is `sent=`, the position in four digits, then for each key a space and 11
/// characters ... A line feed ends it."
pub(crate) fn sent_line(position: usize, fields: &[Option<i32>]) -> String {
    let mut line = format!("sent={position:04}");
    for &field in fields {
        line.push(' ');
        line.push_str(&column(field));
    }
    line.push('\n');
    line
}

/// "a sign `+` or `-` and ten digits, or eleven dots for absent". "Zero has `+`."
fn column(field: Option<i32>) -> String {
    match field {
        None => "...........".to_string(),
        Some(number) => {
            let sign = if number < 0 { '-' } else { '+' };
            format!("{sign}{:010}", i64::from(number).abs())
        }
    }
}

/// "The secret columns are the 11 characters of secret keys: place p of the output memory, from 0,
/// lies in one exactly when p is below the bytes written and the remainder of p by 10 + 12 × K is
/// from 10 + 12 × k to 20 + 12 × k for a secret key k." All else is under the secrecy rule, which by
/// Note 3 "covers the new number".
pub fn in_secret_column(job: &Job, place: usize, written: usize) -> bool {
    let mut owners = job.form.owners().iter();
    owners.any(|&owner| in_column_of(job, owner, place, written))
}

/// The same for the secret keys of one owner. Note 8: "if only B's entries differ, everything outside B's
/// columns is equal, and likewise for A".
pub fn in_column_of(job: &Job, owner: Owner, place: usize, written: usize) -> bool {
    let remainder = place % job.line_length();
    let in_column = |k: usize| (10 + 12 * k..=20 + 12 * k).contains(&remainder);
    place < written && (0..job.keys).any(|k| job.secret_of(owner, k).is_some() && in_column(k))
}

// ---------------------------------------------------------------------------------------------
// What a run answers
// ---------------------------------------------------------------------------------------------

/// Runs a job to its ending. Document 01's six numbers: "ending or refusal number, line, positions
/// used, low steps, bytes written, messages taken". Note 3: "The answer gains a seventh number, the
/// clamped results of the low execution alone". The job must be one that [`read`] could return.
pub fn run(job: &Job, output: &mut [u8]) -> [u32; NUMBERS] {
    run_by(CallRule::SameKind, job, output).0
}

/// Runs a job to its ending by one of the rules for calls, and says what its answer does not.
pub fn run_by(rule: CallRule, job: &Job, output: &mut [u8]) -> ([u32; NUMBERS], Unreported) {
    let mut run = Run::first(job, rule, output);
    let ending = take_turns(&mut run);
    (run.answer(ending), run.unreported())
}

/// Takes turn after turn, and gives the number of the ending.
fn take_turns(run: &mut Run) -> u32 {
    let job = run.job;
    // "Before each turn ... They are tested in that order."
    loop {
        // 0: "the low execution has stopped".
        let Some(&command) = job.commands.get(run.low.place) else {
            return 0;
        };
        // 31: "it has not, and all letters are used".
        let Some(&letter) = job.turns.get(run.positions) else {
            return 31;
        };
        // 32: "it has not, a letter L is next, its command is `send`, and fewer bytes are left than
        // a line needs; this turn is not counted".
        let left = run.output.len() - run.written;
        if letter == Level::Low && command == Command::Send && left < job.line_length() {
            return 32;
        }
        match letter {
            Level::Low => run.low_turn(command),
            Level::Of(owner) => run.turn_of(owner),
        }
        // "Positions used counts the letters whose turns were taken, idle ones included".
        run.positions += 1;
        run.look_at_places();
    }
}

/// Reads a sheet and runs it. "From the input. Output memory is untouched and the four counts are
/// 0." Note 3: the seventh number too "is 0 on a refusal of the sheet".
pub fn run_sheet(sheet: &[u8], output: &mut [u8]) -> [u32; NUMBERS] {
    match read(sheet) {
        Ok(job) => run(&job, output),
        Err(refusal) => [refusal.number, refusal.line, 0, 0, 0, 0, 0],
    }
}

/// What the C program calls. "The six numbers go there in 32 bits each, low byte first, and the
/// first is also the return." By Note 3 they are seven.
pub fn c_entry(sheet: &[u8], output: &mut [u8], answer: &mut [u8]) -> u32 {
    // 10: "the answer memory is not exactly 24 bytes; returned before anything else, nothing
    // written". Note 3: it "becomes 28 bytes, and 10 follows that". Reading: 24 bytes get 10 now.
    if answer.len() != ANSWER_BYTES {
        return 10;
    }
    let numbers = run_sheet(sheet, output);
    write_numbers(answer, &numbers);
    numbers[0]
}

/// "in 32 bits each, low byte first".
pub(crate) fn write_numbers(answer: &mut [u8], numbers: &[u32]) {
    for (bytes, number) in answer.chunks_exact_mut(4).zip(numbers) {
        bytes.copy_from_slice(&number.to_le_bytes());
    }
}

/// What `runsheet` prints when it lends `lent` bytes: "the sent lines and then `end=` with the six
/// numbers, single spaces between and a line feed last", and of the seventh number Note 3 says: "The
/// `end=` line shows it last". It "reads at most 16,385 bytes", which is enough to refuse every longer
/// sheet in the same words.
pub fn printed(sheet: &[u8], lent: usize) -> Vec<u8> {
    let mut output = vec![0; lent];
    let numbers = run_sheet(sheet, &mut output);
    output.truncate(numbers[4] as usize);
    output.extend_from_slice(&end_line(numbers));
    output
}

/// The last line that `runsheet` prints.
pub fn end_line(numbers: [u32; NUMBERS]) -> Vec<u8> {
    numbers_line("end", &numbers)
}

/// A name, an equals sign, and numbers with "single spaces between and a line feed last".
pub(crate) fn numbers_line(name: &str, numbers: &[u32]) -> Vec<u8> {
    let words: Vec<String> = numbers.iter().map(u32::to_string).collect();
    format!("{name}={}\n", words.join(" ")).into_bytes()
}
