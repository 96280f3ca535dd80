// What interpreting costs in plain Rust: the definitions, scripts, schedule and messages of a folder are read at run
// time, and run by the table of turns, with the log bytes and reply lines of the program.
//
//     interpreter define DIR                makes DIR/log anew
//     interpreter run DIR                   runs the folder over DIR/log, replies to standard output
//     interpreter DIR GROUP LOG REPLIES     the same over LOG, which begins as DIR/front; definitions have GROUP too
//     interpreter --open LOG                a start over LOG, by the definitions and scripts in its front
//
// It has what the folders of this bench use: main storage databases of fields C and P; the statements FLD, GU with a
// key, IF with EQ or NE, REPLY and ROLB; the tokens IN, R and LOG; message numbers; any regions and balancing groups.
// It stops with a line on standard error where it meets anything else, at a fault of the device, at want of memory, and
// at a cycle of waits. All locks are Exclusive: no call to a main storage database asks for another.
use std::cmp::Ordering;
use std::collections::{HashMap, VecDeque};
use std::fs::{self, File, OpenOptions};
use std::io::{self, Write};
use std::ops::Range;
use std::os::fd::AsFd;
use std::os::unix::fs::FileExt;

fn stop(why: impl std::fmt::Display) -> ! {
    eprintln!("{why}");
    std::process::exit(2)
}

// ---- names, words, numbers

/// 1 to 8 letters and digits, a letter first, as one number.
type Name = u64;

fn name_in(word: &[u8]) -> Option<Name> {
    if word.len() > 8 || !word.first()?.is_ascii_uppercase() {
        return None;
    }
    let mut name = 0;
    for byte in word {
        if !byte.is_ascii_uppercase() && !byte.is_ascii_digit() {
            return None;
        }
        name = name << 8 | *byte as u64;
    }
    Some(name)
}

fn is_separator(byte: &u8) -> bool {
    *byte == b' ' || *byte == b'\t'
}

/// The first word of a line, and what stands behind its separator.
fn first_word(line: &[u8]) -> (&[u8], &[u8]) {
    match line.iter().position(is_separator) {
        Some(end) => (&line[..end], &line[end + 1..]),
        None => (line, &[]),
    }
}

fn trimmed(text: &[u8]) -> &[u8] {
    &text[..text.iter().rposition(|b| *b != b' ').map_or(0, |last| last + 1)]
}

fn is_printable(text: &[u8]) -> bool {
    text.iter().all(|b| (32..127).contains(b))
}

/// What 1 to 31 digits are, perhaps with `-` before them.
fn number_in(text: &[u8]) -> Option<i128> {
    let (negative, digits) = match text {
        [b'-', digits @ ..] => (true, digits),
        digits => (false, digits),
    };
    if digits.is_empty() || digits.len() > 31 {
        return None;
    }
    // As many as a word holds; most numbers have no more.
    let (front, rest) = digits.split_at(digits.len().min(18));
    let mut number = 0u64;
    for byte in front {
        let digit = byte.wrapping_sub(b'0');
        if digit > 9 {
            return None;
        }
        number = number * 10 + digit as u64;
    }
    let mut number = number as i128;
    for byte in rest {
        let digit = byte.wrapping_sub(b'0');
        if digit > 9 {
            return None;
        }
        number = number * 10 + digit as i128;
    }
    Some(if negative { -number } else { number })
}

/// Decimal, behind what stands.
fn put_number(number: i128, out: &mut Vec<u8>) {
    let (mut digits, mut at) = ([0; 40], 40);
    let mut left = number.unsigned_abs();
    while left > u64::MAX as u128 {
        at -= 1;
        digits[at] = b'0' + (left % 10) as u8;
        left /= 10;
    }
    let mut left = left as u64;
    loop {
        at -= 1;
        digits[at] = b'0' + (left % 10) as u8;
        left /= 10;
        if left == 0 {
            break;
        }
    }
    if number < 0 {
        at -= 1;
        digits[at] = b'-';
    }
    out.extend_from_slice(&digits[at..]);
}

/// What two half bytes are as digits; 255 where they are none.
const UNPACKED: [u8; 256] = {
    let (mut table, mut number) = ([255; 256], 0);
    while number < 100 {
        table[PACKED[number as usize] as usize] = number;
        number += 1;
    }
    table
};

/// Two digits as half bytes.
const PACKED: [u8; 100] = {
    let (mut table, mut number) = ([0; 100], 0);
    while number < 100 {
        table[number as usize] = number / 10 << 4 | number % 10;
        number += 1;
    }
    table
};

/// The number that pairs of digits are, 16 digits at most.
fn unpacked_pairs(pairs: &[u8]) -> Option<u64> {
    let mut number = 0;
    for pair in pairs {
        let digits = UNPACKED[*pair as usize];
        if digits == 255 {
            return None;
        }
        number = number * 100 + digits as u64;
    }
    Some(number)
}

/// The number that packed bytes are: two digits a byte, the last half byte the sign.
fn unpacked(bytes: &[u8]) -> Option<i128> {
    let (last, pairs) = bytes.split_last()?;
    let (high, low) = pairs.split_at(pairs.len().saturating_sub(8));
    let (digit, sign) = (last >> 4, last & 15);
    if digit > 9 || sign < 10 {
        return None;
    }
    let mut number = (unpacked_pairs(low)? * 10 + digit as u64) as i128;
    if !high.is_empty() {
        number += unpacked_pairs(high)? as i128 * 10i128.pow(17);
    }
    Some(if sign == 11 || sign == 13 { -number } else { number })
}

fn put_pairs(mut left: u64, bytes: &mut [u8]) -> u64 {
    for byte in bytes.iter_mut().rev() {
        *byte = PACKED[(left % 100) as usize];
        left /= 100;
    }
    left
}

/// Puts a number into packed bytes; whether it fits. One that doesn't leaves them.
fn pack(number: i128, bytes: &mut [u8]) -> bool {
    const LOW: u128 = 10u128.pow(17);
    let (size, left) = (bytes.len(), number.unsigned_abs());
    let (high, low) = if left < LOW { (0, left as u64) } else { ((left / LOW) as u64, (left % LOW) as u64) };
    let mut packed = [0; 16];
    packed[15] = ((low % 10) << 4) as u8 | if number < 0 { 13 } else { 12 };
    let begin = 16 - size;
    let over = put_pairs(low / 10, &mut packed[begin.max(7)..15]) + put_pairs(high, &mut packed[begin.min(7)..7]);
    if over == 0 {
        bytes.copy_from_slice(&packed[begin..]);
    }
    over == 0
}

// ---- definitions

struct Field {
    name: Name,
    is_text: bool,
    at: usize,
    length: usize,
}

struct Database {
    name: Name,
    fields: Vec<Field>,
    length: usize,
    /// The loaded segments, one behind the other.
    load: Vec<u8>,
}

impl Database {
    fn field(&self, name: Name) -> Option<usize> {
        self.fields.iter().position(|field| field.name == name)
    }

    fn load(&mut self, row: &Value) {
        let begin = self.load.len();
        self.load.resize(begin + self.length, b' ');
        for (field, value) in self.fields.iter().zip(row.list()) {
            let (text, bytes) = (value.text().as_bytes(), &mut self.load[begin + field.at..][..field.length]);
            let fits = match field.is_text {
                true => bytes.get_mut(..text.len()).map(|bytes| bytes.copy_from_slice(text)).is_some(),
                false => number_in(text).is_some_and(|number| pack(number, bytes)),
            };
            if !fits {
                stop("definitions: bad field load")
            }
        }
    }
}

struct Definitions {
    /// The place of the balancing group of each region, and how many groups there are.
    regions: Vec<usize>,
    groups: usize,
    log_group: usize,
    databases: Vec<Database>,
}

impl Definitions {
    fn read(text: &[u8]) -> Definitions {
        let Ok(text) = std::str::from_utf8(text) else { stop("definitions: not TOML") };
        let tables = Toml { rest: text }.tables();
        let Some(((_, top), tables)) = tables.split_first() else { stop("definitions: not TOML") };
        let regions: Vec<_> = need(top, "regions").list().iter().map(|group| group.number() - 1).collect();
        let groups = regions.iter().max().map_or(0, |last| last + 1);
        if need(top, "router").text() != "FOLD" || top.iter().any(|(key, _)| *key == "tries") {
            stop("definitions: left out here")
        }
        let log_group = need(top, "log_group").number();
        Definitions { regions, groups, log_group, databases: tables.iter().map(Definitions::database).collect() }
    }

    fn database((table_name, table): &(&str, Table)) -> Database {
        if *table_name != "msdb" || table.iter().any(|(key, _)| *key == "dynamic") {
            stop("definitions: left out here")
        }
        let (mut fields, mut length) = (Vec::new(), 0);
        for triple in need(table, "fields").list() {
            let [name, kind, size] = triple.list() else { stop("definitions: bad field fields") };
            let is_text = match kind.text() {
                "C" => true,
                "P" => false,
                _ => stop("definitions: left out here"),
            };
            fields.push(Field { name: defined(name.text()), is_text, at: length, length: size.number() });
            length += size.number();
        }
        let mut database = Database { name: defined(need(table, "name").text()), fields, length, load: Vec::new() };
        need(table, "load").list().iter().for_each(|row| database.load(row));
        database
    }

    /// The place of a transaction's balancing group.
    fn group_of(&self, tran: &str) -> usize {
        tran.bytes().fold(0, |number, byte| (number * 31 + byte as usize) % self.groups)
    }
}

type Table<'t> = Vec<(&'t str, Value<'t>)>;

fn need<'v, 't>(table: &'v Table<'t>, key: &str) -> &'v Value<'t> {
    let found = table.iter().find(|(other, _)| *other == key);
    found.map_or_else(|| stop(format!("definitions: missing {key}")), |(_, value)| value)
}

fn defined(name: &str) -> Name {
    name_in(name.as_bytes()).unwrap_or_else(|| stop("definitions: bad field name"))
}

enum Value<'t> {
    Number(usize),
    Text(&'t str),
    List(Vec<Value<'t>>),
}

impl<'t> Value<'t> {
    fn number(&self) -> usize {
        if let Value::Number(number) = self { *number } else { stop("definitions: a number is wanted") }
    }

    fn text(&self) -> &'t str {
        if let Value::Text(text) = self { text } else { stop("definitions: a text is wanted") }
    }

    fn list(&self) -> &[Value<'t>] {
        if let Value::List(list) = self { list } else { stop("definitions: a list is wanted") }
    }
}

/// TOML as far as these definitions go: bare keys, whole numbers, texts without escapes, lists, tables in lists.
struct Toml<'t> {
    rest: &'t str,
}

impl<'t> Toml<'t> {
    fn takes(&mut self, text: &str) -> bool {
        self.rest = self.rest.trim_start();
        let behind = self.rest.strip_prefix(text);
        self.rest = behind.unwrap_or(self.rest);
        behind.is_some()
    }

    fn has(&mut self, text: &str) {
        if !self.takes(text) {
            stop("definitions: not TOML")
        }
    }

    fn until(&mut self, is_end: impl Fn(char) -> bool) -> &'t str {
        let (word, rest) = self.rest.split_at(self.rest.find(is_end).unwrap_or(self.rest.len()));
        self.rest = rest;
        word
    }

    fn bare(&mut self) -> &'t str {
        self.rest = self.rest.trim_start();
        self.until(|c| !c.is_ascii_alphanumeric() && c != '_')
    }

    fn value(&mut self) -> Value<'t> {
        if self.takes("\"") {
            let text = self.until(|c| c == '"');
            self.has("\"");
            return Value::Text(text);
        }
        if self.takes("[") {
            let mut list = Vec::new();
            while !self.takes("]") {
                list.push(self.value());
                if !self.takes(",") && !self.rest.starts_with(']') {
                    stop("definitions: not TOML")
                }
            }
            return Value::List(list);
        }
        let Ok(number) = self.bare().parse() else { stop("definitions: not TOML, or left out here") };
        Value::Number(number)
    }

    /// The top, and the tables behind it with their names.
    fn tables(mut self) -> Vec<(&'t str, Table<'t>)> {
        let (mut tables, mut name, mut table) = (Vec::new(), "", Table::new());
        while !self.rest.trim_start().is_empty() {
            if self.takes("[[") {
                tables.push((name, std::mem::take(&mut table)));
                name = self.bare();
                self.has("]]");
                continue;
            }
            let key = self.bare();
            self.has("=");
            table.push((key, self.value()));
        }
        tables.push((name, table));
        tables
    }
}

// ---- scripts

enum Operand {
    Text(Box<[u8]>),
    /// The text of the message, 0, or one of its words.
    Word(usize),
    Status,
    /// A field of the segment that was shown, by the database of that.
    Field(Vec<Option<usize>>),
}

/// A field search argument as it is written. A field that isn't there is answered a letter as the script runs.
struct ArgumentText {
    field: Option<usize>,
    operation: u8,
    operand: Operand,
}

enum Statement {
    If { left: Operand, equal: bool, right: Operand, taken: Vec<Statement>, otherwise: Vec<Statement> },
    Reply(Vec<Operand>),
    Roll(u16),
    Get { database: usize, key: Operand },
    Fld { database: usize, key: Operand, arguments: Vec<ArgumentText> },
}

struct Script {
    name: Name,
    group: usize,
    statements: Vec<Statement>,
}

#[derive(Clone, Copy, PartialEq)]
enum Token<'t> {
    Word(&'t str),
    /// `IO.` and a name
    Shown(&'t str),
    /// a number, or a text without its quotes
    Text(&'t str),
    /// `#` and a digit
    Place(usize),
    Sign(u8),
}

/// The tokens of a line.
fn tokens_of(line: &str) -> Option<Vec<Token<'_>>> {
    let (mut tokens, mut rest) = (Vec::new(), line.trim_start_matches([' ', '\t']));
    while let Some(first) = rest.bytes().next() {
        let word = |from: usize| from + rest[from..].bytes().take_while(u8::is_ascii_alphanumeric).count();
        let (token, length) = match first {
            b'\'' => {
                let end = 1 + rest[1..].find('\'')?;
                (Token::Text(&rest[1..end]), end + 1)
            }
            b'#' => (Token::Place(rest.get(1..2)?.parse().ok()?), 2),
            b'-' if word(1) == 1 => (Token::Sign(first), 1),
            b'-' | b'0'..=b'9' => (Token::Text(&rest[..word(1)]), word(1)),
            b'A'..=b'Z' if rest.starts_with("IO.") => (Token::Shown(&rest[3..word(3)]), word(3)),
            b'A'..=b'Z' => (Token::Word(&rest[..word(1)]), word(1)),
            b'(' | b')' | b'=' | b'+' => (Token::Sign(first), 1),
            _ => return None,
        };
        tokens.push(token);
        rest = rest[length..].trim_start_matches([' ', '\t']);
    }
    Some(tokens)
}

/// A line of scripts, read part by part.
struct Reader<'t, 'd> {
    definitions: &'d Definitions,
    tokens: std::vec::IntoIter<Token<'t>>,
}

impl<'t> Reader<'t, '_> {
    fn word(&mut self) -> Option<&'t str> {
        if let Token::Word(word) = self.tokens.next()? { Some(word) } else { None }
    }

    fn sign(&mut self, sign: u8) -> Option<()> {
        (self.tokens.next()? == Token::Sign(sign)).then_some(())
    }

    fn database(&mut self) -> Option<usize> {
        let name = name_in(self.word()?.as_bytes())?;
        self.definitions.databases.iter().position(|database| database.name == name)
    }

    fn operand(&mut self) -> Option<Operand> {
        Some(match self.tokens.next()? {
            Token::Text(text) => Operand::Text(text.as_bytes().into()),
            Token::Place(number) => Operand::Word(number),
            Token::Word("STATUS") => Operand::Status,
            Token::Shown(name) => {
                let name = name_in(name.as_bytes())?;
                let places: Vec<_> = self.definitions.databases.iter().map(|database| database.field(name)).collect();
                places.iter().any(Option::is_some).then_some(Operand::Field(places))?
            }
            Token::Word(_) | Token::Sign(_) => return None,
        })
    }

    fn key(&mut self) -> Option<Operand> {
        (self.word()? == "KEY").then_some(())?;
        self.sign(b'(')?;
        let key = self.operand()?;
        self.sign(b')')?;
        Some(key)
    }

    fn argument(&mut self, database: usize) -> Option<ArgumentText> {
        let name = name_in(self.word()?.as_bytes())?;
        let operation = match self.tokens.next()? {
            Token::Sign(sign @ (b'+' | b'-' | b'=')) => sign,
            Token::Word(word) if word.len() == 1 => word.as_bytes()[0],
            _ => return None,
        };
        let field = self.definitions.databases[database].field(name);
        Some(ArgumentText { field, operation, operand: self.operand()? })
    }

    fn several<T>(&mut self, mut one: impl FnMut(&mut Self) -> Option<T>) -> Option<Vec<T>> {
        let mut found = Vec::new();
        while self.tokens.len() > 0 {
            found.push(one(self)?);
        }
        Some(found)
    }

    /// The statement that the line is, with its blocks still empty.
    fn statement(&mut self, first: &str) -> Option<Statement> {
        let statement = match first {
            "IF" => {
                let left = self.operand()?;
                let equal = match self.word()? {
                    "EQ" => true,
                    "NE" => false,
                    _ => return None,
                };
                Statement::If { left, equal, right: self.operand()?, taken: Vec::new(), otherwise: Vec::new() }
            }
            "REPLY" => Statement::Reply(self.several(Self::operand)?),
            "ROLB" => {
                let Token::Text(digits) = self.tokens.next()? else { return None };
                Statement::Roll(digits.parse().ok()?)
            }
            "GU" => Statement::Get { database: self.database()?, key: self.key()? },
            "FLD" => {
                let (database, key) = (self.database()?, self.key()?);
                Statement::Fld { database, key, arguments: self.several(|reader| reader.argument(database))? }
            }
            _ => return None,
        };
        (self.tokens.len() == 0).then_some(statement)
    }
}

/// What ends a block: ELSE, END, the TRAN of the next script, or the text.
enum BlockEnd<'t> {
    Else,
    End,
    Next(&'t str),
    Text,
}

/// The lines of scripts, as blocks.
struct Blocks<'t, 'd> {
    definitions: &'d Definitions,
    lines: std::iter::Enumerate<std::str::Lines<'t>>,
}

impl<'t> Blocks<'t, '_> {
    fn next(&mut self) -> (Vec<Statement>, BlockEnd<'t>) {
        let mut statements = Vec::new();
        while let Some((number, line)) = self.lines.next() {
            let fault = || -> ! { stop(format!("scripts: line {}, at fault or left out here", number + 1)) };
            let mut tokens = tokens_of(line).unwrap_or_else(|| fault()).into_iter();
            let Some(token) = tokens.next() else { continue };
            let Token::Word(first) = token else { fault() };
            let mut reader = Reader { definitions: self.definitions, tokens };
            match first {
                "ELSE" => return (statements, BlockEnd::Else),
                "END" => return (statements, BlockEnd::End),
                "TRAN" => return (statements, BlockEnd::Next(reader.word().unwrap_or_else(|| fault()))),
                _ => {}
            }
            let mut statement = reader.statement(first).unwrap_or_else(|| fault());
            if let Statement::If { taken, otherwise, .. } = &mut statement {
                let end;
                (*taken, end) = self.next();
                if let BlockEnd::Else = end {
                    *otherwise = self.next().0;
                }
            }
            statements.push(statement);
        }
        (statements, BlockEnd::Text)
    }
}

/// The scripts of a text, by their names.
fn scripts_of(text: &str, definitions: &Definitions) -> Vec<Script> {
    let mut blocks = Blocks { definitions, lines: text.lines().enumerate() };
    let (mut scripts, mut end) = (Vec::new(), blocks.next().1);
    while let BlockEnd::Next(name) = end {
        let statements;
        (statements, end) = blocks.next();
        scripts.push(Script { name: defined(name), group: definitions.group_of(name), statements });
    }
    scripts.sort_by_key(|script| script.name);
    scripts
}

// ---- what is kept

/// The segments of a database. A segment's place never changes, so it stands for the segment once it is looked up.
struct Store {
    key_length: usize,
    length: usize,
    places: HashMap<Box<[u8]>, usize>,
    segments: Vec<u8>,
    /// The region that holds each, or 0.
    holders: Vec<u8>,
}

impl Store {
    fn new(database: &Database) -> Store {
        let (key_length, length, segments) = (database.fields[0].length, database.length, database.load.clone());
        let keys = segments.chunks_exact(length).map(|segment| Box::from(&segment[..key_length]));
        let places: HashMap<_, _> = keys.zip(0..).collect();
        let holders = vec![0; places.len()];
        Store { key_length, length, places, segments, holders }
    }

    fn segment(&self, place: usize) -> &[u8] {
        &self.segments[place * self.length..][..self.length]
    }

    fn key(&self, place: usize) -> &[u8] {
        &self.segment(place)[..self.key_length]
    }

    fn put(&mut self, place: usize, segment: &[u8]) {
        self.segments[place * self.length..][..self.length].copy_from_slice(segment);
    }

    /// The place of a key as a script gives it, if there is one; None where it is longer than a key.
    fn place_of(&self, text: &[u8]) -> Option<Option<usize>> {
        let mut key = [b' '; 64];
        let key = &mut key[..self.key_length];
        key.get_mut(..text.len())?.copy_from_slice(text);
        Some(self.places.get(&*key).copied())
    }
}

#[derive(Default)]
struct Terminal {
    busy: bool,
    /// The last number that it used, 0 for none, and the line that it got.
    last: u64,
    line: Vec<u8>,
}

#[derive(Default)]
struct Terminals {
    numbers: HashMap<Name, usize>,
    list: Vec<Terminal>,
}

impl Terminals {
    fn number_of(&mut self, name: Name) -> usize {
        let next = self.list.len();
        let number = *self.numbers.entry(name).or_insert(next);
        if number == next {
            self.list.push(Terminal::default());
        }
        number
    }
}

/// What a message line says.
struct Line<'a> {
    terminal: Option<Name>,
    number: Option<u64>,
    tran: Option<Name>,
    text: &'a [u8],
}

impl<'a> Line<'a> {
    fn of(line: &'a [u8]) -> Line<'a> {
        let (terminal, rest) = first_word(line);
        let (mut word, mut text) = first_word(rest);
        let mut number = None;
        if word.len() <= 18 && matches!(word.first(), Some(b'1'..=b'9')) {
            number = number_in(word).map(|n| n as u64);
        }
        if number.is_some() {
            (word, text) = first_word(text);
        }
        Line { terminal: name_in(terminal), number, tran: name_in(word), text }
    }

    fn is_message(&self) -> bool {
        self.terminal.is_some() && self.tran.is_some() && self.text.len() <= 1000 && is_printable(self.text)
    }
}

// ---- the log

#[derive(Clone, Copy)]
enum Outcome<'e> {
    Done,
    Verify { call: u32, argument: u16, found: &'e [u8] },
    Roll(u16),
    Unknown,
    Old(u64),
    Repeat(&'e [u8]),
}

struct Entry<'e> {
    from: u64,
    outcome: Outcome<'e>,
    line: &'e [u8],
    reply: &'e [u8],
    notes: &'e [u64],
}

fn put_part(out: &mut Vec<u8>, bytes: &[u8]) {
    out.extend_from_slice(&(bytes.len() as u16).to_be_bytes());
    out.extend_from_slice(bytes);
}

impl Entry<'_> {
    fn put_outcome(&self, out: &mut Vec<u8>) {
        match self.outcome {
            Outcome::Done => out.push(0),
            Outcome::Verify { call, argument, found } => {
                out.push(1);
                out.extend_from_slice(&call.to_be_bytes());
                out.extend_from_slice(&argument.to_be_bytes());
                put_part(out, found);
            }
            Outcome::Roll(code) => {
                out.push(2);
                out.extend_from_slice(&code.to_be_bytes());
            }
            Outcome::Unknown => out.push(7),
            Outcome::Old(number) => {
                out.push(9);
                out.extend_from_slice(&number.to_be_bytes());
            }
            Outcome::Repeat(line) => {
                out.push(10);
                put_part(out, line);
            }
        }
    }

    /// Its bytes, with items of a database, a key's length and a segment each.
    fn put<'i>(&self, items: impl ExactSizeIterator<Item = (usize, usize, &'i [u8])>, out: &mut Vec<u8>) {
        let begin = out.len();
        out.extend_from_slice(&[0; 8]);
        out.extend_from_slice(&self.from.to_be_bytes());
        self.put_outcome(out);
        put_part(out, self.line);
        put_part(out, self.reply);
        out.extend_from_slice(&(self.notes.len() as u32).to_be_bytes());
        for note in self.notes {
            out.extend_from_slice(&note.to_be_bytes());
        }
        out.extend_from_slice(&(items.len() as u32).to_be_bytes());
        for (database, key_length, segment) in items {
            out.extend_from_slice(&[1, database as u8, key_length as u8]);
            out.extend_from_slice(&segment[..key_length]);
            put_part(out, segment);
        }
        let length = (out.len() - begin - 8) as u64;
        out[begin..begin + 8].copy_from_slice(&length.to_be_bytes());
    }

    /// The reply line, without its newline.
    fn tell(&self, is_named: bool, out: &mut Vec<u8>) {
        if let Outcome::Repeat(line) = self.outcome {
            return out.extend_from_slice(line);
        }
        out.extend_from_slice(if is_named { first_word(self.line).0 } else { b"?" });
        match self.outcome {
            Outcome::Done if self.reply.is_empty() => out.extend_from_slice(b" OK"),
            Outcome::Done => {
                out.extend_from_slice(b" OK ");
                out.extend_from_slice(self.reply);
            }
            Outcome::Verify { .. } => out.extend_from_slice(b" NO VERIFY"),
            Outcome::Roll(code) => {
                out.extend_from_slice(b" NO ROLB ");
                put_number(code as i128, out);
            }
            Outcome::Old(number) => {
                out.extend_from_slice(b" NO OLD ");
                put_number(number as i128, out);
            }
            _ => out.extend_from_slice(b" NO UNKNOWN"),
        }
    }
}

/// Where an entry that isn't sealed ends in the body, its reply line in the lines; and its terminal.
struct Unsealed {
    body_end: usize,
    lines_end: usize,
    terminal: Option<usize>,
}

struct Log {
    file: File,
    /// Where the gate stands behind the last group.
    gate: u64,
    entries: u64,
    /// Eight bytes for a length, and the entries that aren't sealed.
    body: Vec<u8>,
    lines: Vec<u8>,
    unsealed: VecDeque<Unsealed>,
}

impl Log {
    fn append<'i>(
        &mut self, entry: Entry, number: Option<u64>, terminal: Option<usize>, terminals: &mut Terminals,
        items: impl ExactSizeIterator<Item = (usize, usize, &'i [u8])>,
    ) {
        entry.put(items, &mut self.body);
        let begin = self.lines.len();
        entry.tell(terminal.is_some(), &mut self.lines);
        if let (Some(number), Some(terminal)) = (number, terminal) {
            terminals.list[terminal].last = number;
            terminals.list[terminal].line.clear();
            terminals.list[terminal].line.extend_from_slice(&self.lines[begin..]);
        }
        self.lines.push(b'\n');
        self.entries += 1;
        self.unsealed.push_back(Unsealed { body_end: self.body.len(), lines_end: self.lines.len(), terminal });
    }

    /// Seals the oldest entries, so many at most: the group behind its gate, the gate behind it closed; a sync; the
    /// gate; a sync. Then their lines are sent.
    fn seal(&mut self, most: usize, terminals: &mut Terminals, out: &mut impl Write) -> io::Result<()> {
        let count = self.unsealed.len().min(most);
        let Some(last) = count.checked_sub(1) else { return Ok(()) };
        let Unsealed { body_end, lines_end, .. } = self.unsealed[last];
        let (rest, length) = (self.body.split_off(body_end), body_end - 8);
        self.body[..8].copy_from_slice(&(length as u64).to_be_bytes());
        self.body.push(0);
        self.file.write_all_at(&self.body, self.gate + 1)?;
        self.file.sync_all()?;
        self.file.write_all_at(&[1], self.gate)?;
        self.file.sync_all()?;
        self.gate += 9 + length as u64;
        self.body.truncate(8);
        self.body.extend_from_slice(&rest);
        out.write_all(&self.lines[..lines_end])?;
        self.lines.drain(..lines_end);
        for unsealed in self.unsealed.drain(..count) {
            if let Some(terminal) = unsealed.terminal {
                terminals.list[terminal].busy = false;
            }
        }
        for unsealed in &mut self.unsealed {
            unsealed.body_end -= length;
            unsealed.lines_end -= lines_end;
        }
        Ok(())
    }
}

/// Bytes, taken piece by piece.
struct Cut<'b> {
    bytes: &'b [u8],
}

impl<'b> Cut<'b> {
    fn take(&mut self, count: usize) -> Option<&'b [u8]> {
        let (taken, rest) = self.bytes.split_at_checked(count)?;
        self.bytes = rest;
        Some(taken)
    }

    fn number(&mut self, count: usize) -> Option<u64> {
        Some(self.take(count)?.iter().fold(0, |number, byte| number << 8 | *byte as u64))
    }

    fn part(&mut self, width: usize) -> Option<&'b [u8]> {
        let length = self.number(width)?;
        self.take(length as usize)
    }

    fn outcome(&mut self) -> Option<Outcome<'b>> {
        Some(match self.number(1)? {
            0 => Outcome::Done,
            1 => {
                let (call, argument) = (self.number(4)? as u32, self.number(2)? as u16);
                Outcome::Verify { call, argument, found: self.part(2)? }
            }
            2 => Outcome::Roll(self.number(2)? as u16),
            7 => Outcome::Unknown,
            9 => Outcome::Old(self.number(8)?),
            10 => Outcome::Repeat(self.part(2)?),
            _ => return None,
        })
    }

    /// An entry of the log: its items are put over the databases, its number and line are kept.
    fn apply(&mut self, stores: &mut [Store], terminals: &mut Terminals) -> Option<()> {
        let (from, outcome, line, reply) = (self.number(8)?, self.outcome()?, self.part(2)?, self.part(2)?);
        let notes = self.number(4)? as usize;
        self.take(8 * notes)?;
        for _ in 0..self.number(4)? {
            let (1, database, key) = (self.number(1)?, self.number(1)? as usize, self.part(1)?) else { return None };
            let (store, segment) = (stores.get_mut(database)?, self.part(2)?);
            let place = *store.places.get(key)?;
            (segment.len() == store.length && segment.starts_with(key)).then(|| store.put(place, segment))?;
        }
        let read = Line::of(line);
        let uses_number = !matches!(outcome, Outcome::Old(_) | Outcome::Repeat(_));
        if let (Some(number), Some(name)) = (read.number, read.terminal) {
            if uses_number && read.is_message() {
                let number_of_terminal = terminals.number_of(name);
                let terminal = &mut terminals.list[number_of_terminal];
                terminal.last = number;
                terminal.line.clear();
                Entry { from, outcome, line, reply, notes: &[] }.tell(true, &mut terminal.line);
            }
        }
        self.bytes.is_empty().then_some(())
    }
}

/// The log's front, with its gate, and the closed gate behind it.
fn front_of(definitions: &[u8], scripts: &[u8]) -> Vec<u8> {
    let mut front = b"\x01IMSFPLG2".to_vec();
    for part in [definitions, scripts] {
        front.extend_from_slice(&(part.len() as u32).to_be_bytes());
        front.extend_from_slice(part);
    }
    front.push(0);
    front
}

/// Applies the groups of a log up to the first gate that isn't open: where that is, and how many entries there are.
fn restart(log: &[u8], front: usize, stores: &mut [Store], terminals: &mut Terminals) -> (u64, u64) {
    let (mut gate, mut entries) = (front, 0);
    while log.get(gate) == Some(&1) {
        let damaged = || -> ! { stop(format!("damaged: data set 0 at {gate}")) };
        let body = Cut { bytes: &log[gate + 1..] }.part(8).unwrap_or_else(|| damaged());
        let mut cut = Cut { bytes: body };
        while !cut.bytes.is_empty() {
            let entry = cut.part(8).unwrap_or_else(|| damaged());
            Cut { bytes: entry }.apply(stores, terminals).unwrap_or_else(|| damaged());
            entries += 1;
        }
        gate += 9 + body.len();
    }
    (gate as u64, entries)
}

// ---- a script at work

/// A message that is queued or under way.
#[derive(Clone, Copy)]
struct Message<'a> {
    line: &'a [u8],
    text: &'a [u8],
    number: Option<u64>,
    terminal: usize,
    script: &'a Script,
}

/// What a script knows as it runs.
#[derive(Default)]
struct Knowledge<'a> {
    text: &'a [u8],
    words: Vec<&'a [u8]>,
    status: &'static [u8],
    /// The database of the segment that was shown last, and the segment.
    shown: Option<usize>,
    segment: Vec<u8>,
}

impl Knowledge<'_> {
    /// The text of an operand. It is made in a place beside, where it doesn't stand anywhere; None ends the script.
    fn value<'v>(&'v self, operand: &'v Operand, databases: &[Database], made: &'v mut Vec<u8>) -> Option<&'v [u8]> {
        match operand {
            Operand::Text(text) => Some(text),
            Operand::Word(0) => Some(self.text),
            Operand::Word(number) => Some(self.words.get(number - 1).copied().unwrap_or(&[])),
            Operand::Status => Some(self.status),
            Operand::Field(places) => {
                let database = self.shown?;
                let field = &databases[database].fields[places[database]?];
                let bytes = &self.segment[field.at..][..field.length];
                if field.is_text {
                    return Some(trimmed(bytes));
                }
                made.clear();
                put_number(unpacked(bytes)?, made);
                Some(made)
            }
        }
    }

    /// Learns the answer to a GU: a segment, or that there is none.
    fn look(&mut self, database: usize, place: Option<usize>, stores: &[Store]) {
        let Some(place) = place else {
            self.status = b"GE";
            return;
        };
        self.segment.clear();
        self.segment.extend_from_slice(stores[database].segment(place));
        (self.status, self.shown) = (b"", Some(database));
    }
}

/// What a field search argument gives: a number, a text among those of its transaction, or what doesn't suit the field.
enum Given {
    Number(i128),
    Text(Range<usize>),
    Bad,
}

struct Argument {
    field: Option<usize>,
    operation: u8,
    given: Given,
}

impl Argument {
    /// An argument with the value of its operand.
    fn new(written: &ArgumentText, value: &[u8], fields: &[Field], texts: &mut Vec<u8>) -> Argument {
        let given = match written.field.map(|place| &fields[place]) {
            Some(field) if field.is_text && value.len() <= field.length => {
                texts.extend_from_slice(value);
                Given::Text(texts.len() - value.len()..texts.len())
            }
            Some(field) if !field.is_text => number_in(value).map_or(Given::Bad, Given::Number),
            _ => Given::Bad,
        };
        Argument { field: written.field, operation: written.operation, given }
    }

    /// Its letter on a segment, a blank where it is good; then its change is made.
    fn tried(&self, fields: &[Field], texts: &[u8], segment: &mut [u8]) -> u8 {
        let is_sum = matches!(self.operation, b'+' | b'-');
        let is_change = is_sum || self.operation == b'=';
        if !is_change && !matches!(self.operation, b'E' | b'G' | b'H' | b'L' | b'M' | b'N') {
            return b'A';
        }
        let Some(field) = self.field.map(|place| &fields[place]) else { return b'H' };
        if is_sum && field.is_text {
            return b'A';
        }
        if is_change && field.at == 0 {
            return b'C';
        }
        let bytes = &mut segment[field.at..][..field.length];
        let order = match &self.given {
            Given::Bad => return b'B',
            Given::Text(range) => {
                let mut padded = texts[range.clone()].iter().copied().chain(std::iter::repeat(b' '));
                if is_change {
                    bytes.fill_with(|| padded.next().expect("a blank"));
                    return b' ';
                }
                bytes.iter().copied().cmp(padded.take(field.length))
            }
            Given::Number(given) => {
                let held = if self.operation == b'=' { Some(0) } else { unpacked(bytes) };
                let Some(held) = held else { return b'E' };
                if is_change {
                    let number = if self.operation == b'-' { held - given } else { held + given };
                    return if pack(number, bytes) { b' ' } else { b'G' };
                }
                held.cmp(given)
            }
        };
        if self.verifies(order) { b' ' } else { b'D' }
    }

    /// Whether its verify holds, by how the field compares with what is given.
    fn verifies(&self, order: Ordering) -> bool {
        match self.operation {
            b'E' => order.is_eq(),
            b'G' => order.is_gt(),
            b'H' => order.is_ge(),
            b'L' => order.is_lt(),
            b'M' => order.is_le(),
            _ => order.is_ne(),
        }
    }
}

/// A segment, by its database and its place there.
type Lock = (usize, usize);

/// A field call that waits for the sync point.
struct Queued {
    segment: Lock,
    arguments: Range<usize>,
}

/// A segment as the sync point leaves it, and where its bytes stand.
struct Settled {
    segment: Lock,
    bytes: Range<usize>,
}

#[derive(Clone, Copy)]
enum Ending {
    Reply,
    Roll(u16),
}

enum Step {
    Next,
    Called,
    Ended(Ending),
}

/// A region, and its transaction, if it has one. What has memory keeps it for the next.
#[derive(Default)]
struct Region<'a> {
    message: Option<Message<'a>>,
    from: u64,
    notes: Vec<u64>,
    /// What is left of the blocks under way, the innermost behind the others.
    blocks: Vec<&'a [Statement]>,
    knowledge: Knowledge<'a>,
    queue: Vec<Queued>,
    arguments: Vec<Argument>,
    texts: Vec<u8>,
    ending: Option<Ending>,
    reply: Vec<u8>,
    /// The segments of the queue, ascending; those that are held, and the one that is asked for.
    wanted: Vec<Lock>,
    held: Vec<Lock>,
    request: Option<Lock>,
    settled: Vec<Settled>,
    segments: Vec<u8>,
    made: [Vec<u8>; 2],
}

impl<'a> Region<'a> {
    /// A message's transaction begins, behind so many entries.
    fn begin(&mut self, message: Message<'a>, from: u64) {
        (self.message, self.from, self.ending) = (Some(message), from, None);
        self.notes.clear();
        self.blocks.clear();
        self.blocks.push(&message.script.statements);
        let knowledge = &mut self.knowledge;
        (knowledge.text, knowledge.status, knowledge.shown) = (message.text, b"", None);
        knowledge.words.clear();
        let words = message.text.split(is_separator).filter(|word| !word.is_empty());
        knowledge.words.extend(words.take(9));
        self.queue.clear();
        self.arguments.clear();
        self.texts.clear();
    }

    /// Runs the script through its next call, or to its end.
    fn go_on(&mut self, databases: &[Database], stores: &[Store], entries: u64) -> Option<Ending> {
        loop {
            let Some(block) = self.blocks.last_mut() else {
                self.reply.clear();
                return Some(Ending::Reply);
            };
            let Some((statement, left)) = block.split_first() else {
                self.blocks.pop();
                continue;
            };
            *block = left;
            match self.step(statement, databases, stores) {
                None => return Some(Ending::Roll(99)),
                Some(Step::Next) => {}
                Some(Step::Called) => {
                    self.notes.push(entries);
                    return None;
                }
                Some(Step::Ended(ending)) => return Some(ending),
            }
        }
    }

    fn step(&mut self, statement: &'a Statement, databases: &[Database], stores: &[Store]) -> Option<Step> {
        let ([made, other], knowledge) = (&mut self.made, &mut self.knowledge);
        match statement {
            Statement::If { left, equal, right, taken, otherwise } => {
                let left = trimmed(knowledge.value(left, databases, made)?);
                let right = trimmed(knowledge.value(right, databases, other)?);
                self.blocks.push(if (left == right) == *equal { taken } else { otherwise });
                Some(Step::Next)
            }
            Statement::Reply(operands) => {
                self.reply.clear();
                for operand in operands {
                    self.reply.extend_from_slice(knowledge.value(operand, databases, made)?);
                }
                (self.reply.len() <= 1000 && is_printable(&self.reply)).then_some(Step::Ended(Ending::Reply))
            }
            Statement::Roll(code) => Some(Step::Ended(Ending::Roll(*code))),
            Statement::Get { database, key } => {
                let place = stores[*database].place_of(knowledge.value(key, databases, made)?)?;
                knowledge.look(*database, place, stores);
                Some(Step::Called)
            }
            Statement::Fld { database, key, arguments } => {
                let fields = &databases[*database].fields;
                let place = stores[*database].place_of(knowledge.value(key, databases, made)?)?;
                let first = self.arguments.len();
                for argument in arguments {
                    let value = knowledge.value(&argument.operand, databases, made)?;
                    self.arguments.push(Argument::new(argument, value, fields, &mut self.texts));
                }
                self.call(*database, place, first, fields, stores);
                Some(Step::Called)
            }
        }
    }

    /// Answers a field call whose arguments are the last. A good one is queued.
    fn call(&mut self, database: usize, place: Option<usize>, first: usize, fields: &[Field], stores: &[Store]) {
        let Some(place) = place else {
            self.knowledge.status = b"GE";
            return;
        };
        self.segments.clear();
        self.segments.extend_from_slice(stores[database].segment(place));
        let mut is_good = true;
        for argument in &self.arguments[first..] {
            is_good &= argument.tried(fields, &self.texts, &mut self.segments) == b' ';
        }
        self.knowledge.status = if is_good { b"" } else { b"FE" };
        if is_good {
            self.queue.push(Queued { segment: (database, place), arguments: first..self.arguments.len() });
        }
    }

    /// The segments that the sync point locks.
    fn want(&mut self, stores: &[Store]) {
        self.wanted.clear();
        self.wanted.extend(self.queue.iter().map(|queued| queued.segment));
        if self.wanted.len() > 1 {
            self.wanted.sort_by_key(|(database, place)| (*database, stores[*database].key(*place)));
            self.wanted.dedup();
        }
    }

    /// Makes the queue's changes beside the databases. None, or the call and the argument that fail.
    fn settle(&mut self, databases: &[Database], stores: &[Store]) -> Option<(u32, u16)> {
        self.settled.clear();
        self.segments.clear();
        for (call, queued) in self.queue.iter().enumerate() {
            let (database, place) = queued.segment;
            let bytes = match self.settled.iter().find(|settled| settled.segment == queued.segment) {
                Some(settled) => settled.bytes.clone(),
                None => {
                    let begin = self.segments.len();
                    self.segments.extend_from_slice(stores[database].segment(place));
                    let bytes = begin..self.segments.len();
                    self.settled.push(Settled { segment: queued.segment, bytes: bytes.clone() });
                    bytes
                }
            };
            let fields = &databases[database].fields;
            for (number, argument) in self.arguments[queued.arguments.clone()].iter().enumerate() {
                if argument.tried(fields, &self.texts, &mut self.segments[bytes.clone()]) != b' ' {
                    let field = &fields[argument.field.expect("a field, as its letter was blank")];
                    self.made[0].clear();
                    self.made[0].extend_from_slice(&self.segments[bytes][field.at..][..field.length]);
                    return Some((call as u32, number as u16));
                }
            }
        }
        if self.settled.len() > 1 {
            self.settled.sort_by_key(|settled| {
                let (database, place) = settled.segment;
                (database, stores[database].key(place))
            });
        }
        None
    }
}

// ---- the table of turns

#[derive(Clone, Copy)]
enum Event {
    In,
    Region(u8),
    Log,
}

fn events_of(text: &[u8], regions: usize) -> Vec<Event> {
    let (mut events, mut rest) = (Vec::with_capacity(text.len() / 3), text);
    loop {
        while let [b' ' | b'\t' | b'\n' | b'\r', behind @ ..] = rest {
            rest = behind;
        }
        let event;
        (event, rest) = match rest {
            [] => return events,
            [b'I', b'N', behind @ ..] => (Event::In, behind),
            [b'L', b'O', b'G', behind @ ..] => (Event::Log, behind),
            [b'R', digits @ ..] => {
                let (mut number, mut behind) = (0, digits);
                while let [digit @ b'0'..=b'9', others @ ..] = behind {
                    (number, behind) = (number * 10 + (digit - b'0') as usize, others);
                    if number == 0 || number > regions {
                        stop(format!("schedule: bad token {}", events.len() + 1))
                    }
                }
                (Event::Region((number as u8).wrapping_sub(1)), behind)
            }
            _ => stop(format!("schedule: token {}, bad or left out here", events.len() + 1)),
        };
        if !matches!(rest.first(), None | Some(b' ' | b'\t' | b'\n' | b'\r')) || matches!(event, Event::Region(255)) {
            stop(format!("schedule: bad token {}", events.len() + 1))
        }
        events.push(event);
    }
}

struct System<'a, W> {
    definitions: &'a Definitions,
    scripts: &'a [Script],
    messages: &'a [u8],
    line_number: usize,
    held: Option<&'a [u8]>,
    log: Log,
    queues: Vec<VecDeque<Message<'a>>>,
    regions: Vec<Region<'a>>,
    terminals: Terminals,
    stores: Vec<Store>,
    out: W,
}

impl<'a, W: Write> System<'a, W> {
    fn next_line(&mut self) -> Option<&'a [u8]> {
        if self.messages.is_empty() {
            return None;
        }
        let messages = self.messages;
        let end = messages.iter().position(|b| *b == b'\n').unwrap_or(messages.len());
        self.messages = messages.get(end + 1..).unwrap_or(&[]);
        self.line_number += 1;
        if end > 2_100 || self.line_number > 1_000_000 {
            stop(format!("messages: line {}", self.line_number))
        }
        let line = &messages[..end];
        Some(if end < messages.len() { line.strip_suffix(b"\r").unwrap_or(line) } else { line })
    }

    fn take_in(&mut self) {
        let Some(line) = self.held.take().or_else(|| self.next_line()) else { return };
        let read = Line::of(line);
        let terminal = read.terminal.map(|name| self.terminals.number_of(name));
        if let Some(terminal) = terminal.map(|number| &mut self.terminals.list[number]) {
            if terminal.busy {
                self.held = Some(line);
                return;
            }
            terminal.busy = true;
        }
        let (mut used, mut repeated) = (None, Vec::new());
        let mut outcome = Outcome::Unknown;
        if let (true, Some(terminal), Some(tran)) = (read.is_message(), terminal, read.tran) {
            let last = &self.terminals.list[terminal];
            match read.number {
                Some(number) if number < last.last => outcome = Outcome::Old(last.last),
                Some(number) if number == last.last => {
                    repeated.extend_from_slice(&last.line);
                    outcome = Outcome::Repeat(&repeated);
                }
                number => {
                    if let Ok(place) = self.scripts.binary_search_by_key(&tran, |script| script.name) {
                        let script = &self.scripts[place];
                        let message = Message { line, text: read.text, number, terminal, script };
                        return self.queues[script.group].push_back(message);
                    }
                    used = number;
                }
            }
        }
        let entry = Entry { from: self.log.entries, outcome, line, reply: b"", notes: &[] };
        self.log.append(entry, used, terminal, &mut self.terminals, [].into_iter());
    }

    fn turn(&mut self, number: usize) {
        let region = &mut self.regions[number];
        let Some(message) = region.message else {
            if let Some(message) = self.queues[self.definitions.regions[number]].pop_front() {
                region.begin(message, self.log.entries);
            }
            return;
        };
        if region.ending.is_none() {
            region.ending = region.go_on(&self.definitions.databases, &self.stores, self.log.entries);
            if let Some(Ending::Reply) = region.ending {
                region.want(&self.stores);
            }
        }
        match region.ending {
            None => {}
            Some(Ending::Roll(code)) => self.end(number, message, Outcome::Roll(code)),
            Some(Ending::Reply) => {
                let is_lacking = |lock: &&Lock| self.stores[lock.0].holders[lock.1] as usize != number + 1;
                match region.wanted.iter().find(is_lacking).copied() {
                    Some(lock) => self.ask(number, lock),
                    None => self.commit(number, message),
                }
            }
        }
    }

    /// Gains a lock, or waits for it.
    fn ask(&mut self, number: usize, lock: Lock) {
        let mut request = Some(lock);
        while let Some((database, place)) = request {
            request = match self.stores[database].holders[place] as usize {
                0 => None,
                holder if holder == number + 1 => stop("a cycle of waits: left out here"),
                holder => self.regions[holder - 1].request,
            };
        }
        let (region, holder) = (&mut self.regions[number], &mut self.stores[lock.0].holders[lock.1]);
        region.request = (*holder != 0).then_some(lock);
        if *holder == 0 {
            *holder = number as u8 + 1;
            region.held.push(lock);
        }
    }

    fn commit(&mut self, number: usize, message: Message<'a>) {
        let region = &mut self.regions[number];
        match region.settle(&self.definitions.databases, &self.stores) {
            None => self.end(number, message, Outcome::Done),
            Some((call, argument)) => {
                let found = region.made[0].clone();
                self.end(number, message, Outcome::Verify { call, argument, found: &found })
            }
        }
    }

    /// The transaction's entry; its changes, where it is done; its locks go, and the region is idle.
    fn end(&mut self, number: usize, message: Message<'a>, outcome: Outcome) {
        let (region, stores) = (&mut self.regions[number], &mut self.stores);
        let is_done = matches!(outcome, Outcome::Done);
        let (settled, reply) = if is_done { (&region.settled[..], &region.reply[..]) } else { (&[][..], &[][..]) };
        let items = settled.iter().map(|Settled { segment: (database, _), bytes }| {
            (*database, stores[*database].key_length, &region.segments[bytes.clone()])
        });
        let entry = Entry { from: region.from, outcome, line: message.line, reply, notes: &region.notes };
        self.log.append(entry, message.number, Some(message.terminal), &mut self.terminals, items);
        for Settled { segment: (database, place), bytes } in settled {
            stores[*database].put(*place, &region.segments[bytes.clone()]);
        }
        for (database, place) in region.held.drain(..) {
            stores[database].holders[place] = 0;
        }
        (region.message, region.request) = (None, None);
    }

    fn seal(&mut self) -> io::Result<()> {
        self.log.seal(self.definitions.log_group, &mut self.terminals, &mut self.out)
    }

    fn is_drained(&self) -> bool {
        self.messages.is_empty() && self.held.is_none() && self.log.unsealed.is_empty()
            && self.queues.iter().all(VecDeque::is_empty) && self.regions.iter().all(|region| region.message.is_none())
    }

    fn run(&mut self, events: &[Event]) -> io::Result<()> {
        for event in events {
            match event {
                Event::In => self.take_in(),
                Event::Region(number) => self.turn(*number as usize),
                Event::Log => self.seal()?,
            }
        }
        while !self.is_drained() {
            self.take_in();
            (0..self.regions.len()).for_each(|number| self.turn(number));
            self.seal()?;
        }
        Ok(())
    }
}

// ---- the commands

/// A start over a log, and a run behind it.
fn run(log: &str, parts: [&[u8]; 4], out: impl Write) -> io::Result<()> {
    let [definition_text, script_text, schedule, messages] = parts;
    let definitions = &Definitions::read(definition_text);
    let Ok(text) = std::str::from_utf8(script_text) else { stop("scripts: not ASCII") };
    let scripts = &scripts_of(text, definitions)[..];
    let events = events_of(schedule, definitions.regions.len());
    let (bytes, front) = (fs::read(log)?, front_of(definition_text, script_text));
    if !bytes.starts_with(&front[..front.len() - 1]) {
        stop("foreign log")
    }
    let mut stores: Vec<Store> = definitions.databases.iter().map(Store::new).collect();
    let mut terminals = Terminals::default();
    let (gate, entries) = restart(&bytes, front.len() - 1, &mut stores, &mut terminals);
    let file = OpenOptions::new().write(true).open(log)?;
    drop(bytes);
    let (lines, unsealed) = (Vec::new(), VecDeque::new());
    let log = Log { file, gate, entries, body: vec![0; 8], lines, unsealed };
    let queues = (0..definitions.groups).map(|_| VecDeque::new()).collect();
    let regions = definitions.regions.iter().map(|_| Region::default()).collect();
    let (line_number, held) = (0, None);
    let mut system =
        System { definitions, scripts, messages, line_number, held, log, queues, regions, terminals, stores, out };
    system.run(&events)
}

fn run_folder(folder: &str, log: &str, out: impl Write) -> io::Result<()> {
    let read = |part: &str| fs::read(format!("{folder}/{part}"));
    let parts = [read("defs.toml")?, read("scripts.txt")?, read("schedule.txt")?, read("messages.txt")?];
    run(log, parts.each_ref().map(|part| &part[..]), out)
}

/// A start over a log with no schedule and no messages, by the parts that stand in its front.
fn open(log: &str) -> io::Result<()> {
    let bytes = fs::read(log)?;
    let mut cut = Cut { bytes: bytes.get(9..).unwrap_or(&[]) };
    let (Some(definitions), Some(scripts)) = (cut.part(4), cut.part(4)) else { stop("foreign log") };
    run(log, [definitions, scripts, b"", b""], io::sink())
}

fn main() -> io::Result<()> {
    let words: Vec<String> = std::env::args().skip(1).collect();
    match &words.iter().map(String::as_str).collect::<Vec<_>>()[..] {
        ["define", folder] => {
            let read = |part: &str| fs::read(format!("{folder}/{part}"));
            let front = front_of(&read("defs.toml")?, &read("scripts.txt")?);
            let file = File::create(format!("{folder}/log"))?;
            file.write_all_at(&front, 0)?;
            file.sync_all()
        }
        ["run", folder] => {
            let out = File::from(io::stdout().as_fd().try_clone_to_owned()?);
            run_folder(folder, &format!("{folder}/log"), out)
        }
        ["--open", log] => open(log),
        [folder, _, log, replies] => {
            fs::copy(format!("{folder}/front"), log)?;
            run_folder(folder, log, File::create(replies)?)
        }
        _ => stop("usage: interpreter define DIR | run DIR | DIR GROUP LOG REPLIES | --open LOG"),
    }
}
