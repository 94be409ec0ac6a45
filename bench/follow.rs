//! Hears lines of TLCP 2.0.0 on standard input, prints what came of each, and at the end the open rows.
//!
//! This is the plain Rust counterpart of the verified program `follow`: the same output, byte for byte,
//! from safe code that uses nothing but the standard library.
#![forbid(unsafe_code)]

use std::io::{self, BufWriter, ErrorKind, Read, Write};
use std::ops::RangeInclusive;
use std::process::ExitCode;

const BLOCK_SIZE: usize = 64 * 1024;
const LINE_LIMIT: usize = 1172;
const ENTRY_COUNT: usize = 8;
const FIELD_LIMIT: usize = 12;
const TEXT_LIMIT: usize = 32;

const ID: RangeInclusive<u32> = 1..=9999;
const ITEM: RangeInclusive<u32> = 1..=1;
const FIELDS: RangeInclusive<u32> = 1..=FIELD_LIMIT as u32;
const COUNT: RangeInclusive<u32> = 0..=999_999_999;
const CODE_LIMIT: u32 = 999_999;

/// Why a line is refused; the numbers are what is printed.
#[derive(Clone, Copy)]
enum Fault {
    Escape = 3,
    Number = 4,
    Tag = 5,
    Arguments = 6,
    Cover = 7,
    Value = 8,
    Length = 16,
}

/// A fault and the offset in the line where it was found.
#[derive(Clone, Copy)]
struct Refusal {
    fault: Fault,
    place: usize,
}

impl Refusal {
    fn new(fault: Fault, place: usize) -> Self {
        Refusal { fault, place }
    }
}

/// A part of a line, which knows where it begins, so that faults can be placed.
#[derive(Clone, Copy, Default)]
struct Part<'a> {
    bytes: &'a [u8],
    at: usize,
}

impl<'a> Part<'a> {
    /// What stands before the first separator, and what stands behind it if there is one.
    fn split_once(self, separator: u8) -> (Part<'a>, Option<Part<'a>>) {
        let Some(end) = self.bytes.iter().position(|&b| b == separator) else {
            return (self, None);
        };
        let front = Part {
            bytes: &self.bytes[..end],
            at: self.at,
        };
        let rest = Part {
            bytes: &self.bytes[end + 1..],
            at: self.at + end + 1,
        };
        (front, Some(rest))
    }

    fn number(self, range: RangeInclusive<u32>) -> Result<u32, Refusal> {
        parse_number(self.bytes, range).ok_or(Refusal::new(Fault::Number, self.at))
    }

    fn code(self) -> Result<i32, Refusal> {
        parse_code(self.bytes).ok_or(Refusal::new(Fault::Number, self.at))
    }

    /// The text as it stands, once its escapes are known to be sound.
    fn text(self) -> Result<&'a [u8], Refusal> {
        for byte in self.decoded() {
            byte?;
        }
        Ok(self.bytes)
    }

    fn decoded(self) -> Decoded<'a> {
        Decoded { left: self }
    }
}

/// A number in decimal digits, without a sign or needless zeros.
fn parse_number(digits: &[u8], range: RangeInclusive<u32>) -> Option<u32> {
    // No range goes beyond nine digits, and nine digits cannot overflow.
    let well_formed = match digits {
        [] | [b'0', _, ..] => false,
        _ => digits.len() <= 9 && digits.iter().all(u8::is_ascii_digit),
    };
    if !well_formed {
        return None;
    }
    let value = digits.iter().fold(0, |n, d| 10 * n + u32::from(d - b'0'));
    range.contains(&value).then_some(value)
}

/// A number that may be negative; zero has no minus.
fn parse_code(text: &[u8]) -> Option<i32> {
    match text.strip_prefix(b"-") {
        Some(digits) => parse_number(digits, 1..=CODE_LIMIT).map(|n| -(n as i32)),
        None => parse_number(text, 0..=CODE_LIMIT).map(|n| n as i32),
    }
}

/// The bytes that a text stands for, one after another, up to the first faulty escape.
struct Decoded<'a> {
    left: Part<'a>,
}

impl Iterator for Decoded<'_> {
    type Item = Result<u8, Refusal>;

    fn next(&mut self) -> Option<Self::Item> {
        let Part { bytes, at } = self.left;
        let (byte, length) = match *bytes {
            [] => return None,
            [b'%', ..] => match decode_escape(bytes) {
                Some(byte) => (byte, 3),
                None => return Some(Err(Refusal::new(Fault::Escape, at))),
            },
            [byte, ..] => (byte, 1),
        };
        self.left = Part {
            bytes: &bytes[length..],
            at: at + length,
        };
        Some(Ok(byte))
    }
}

/// The byte that `%` and two hexadecimal digits stand for.
fn decode_escape(bytes: &[u8]) -> Option<u8> {
    let digit = |i: usize| char::from(*bytes.get(i)?).to_digit(16);
    Some((16 * digit(1)? + digit(2)?) as u8)
}

/// Why the server refuses or ends something.
#[allow(dead_code)] // as with notifications
struct Reason<'a> {
    code: i32,
    message: &'a [u8],
}

impl<'a> Reason<'a> {
    fn parse(code: Part<'a>, message: Part<'a>) -> Result<Self, Refusal> {
        Ok(Reason {
            code: code.code()?,
            message: message.text()?,
        })
    }
}

/// What a line says. Texts are kept as they stand in the line, checked but not decoded.
#[allow(dead_code)] // the viewer follows rows only, and has no use for most of what is read here
enum Notification<'a> {
    Update {
        id: u32,
        item: u32,
        values: Part<'a>,
    },
    Probe,
    Sync(u32),
    Loop(u32),
    Constrained(&'a [u8]),
    ServerName(&'a [u8]),
    ClientIp(&'a [u8]),
    RequestOk(&'a [u8]),
    Unsubscribed {
        id: u32,
    },
    ConnectionError(Reason<'a>),
    End(Reason<'a>),
    Error(Reason<'a>),
    EndOfSnapshot {
        id: u32,
        item: u32,
    },
    Subscribed {
        id: u32,
        items: u32,
        fields: u32,
    },
    Overflow {
        id: u32,
        item: u32,
        lost: u32,
    },
    Configured {
        id: u32,
        frequency: &'a [u8],
        filter: &'a [u8],
    },
    RequestError {
        request: &'a [u8],
        reason: Reason<'a>,
    },
    Connected {
        session: &'a [u8],
        request_limit: u32,
        keep_alive: u32,
        control_link: &'a [u8],
    },
}

impl<'a> Notification<'a> {
    fn parse(line: &'a [u8]) -> Result<Self, Refusal> {
        if line.len() > LINE_LIMIT {
            return Err(Refusal::new(Fault::Length, 0));
        }
        let (tag, rest) = Part { bytes: line, at: 0 }.split_once(b',');
        let line_end = line.len();
        Self::parse_tagged(tag.bytes, Arguments { rest, line_end })
    }

    /// Arguments are read in the order in which they stand, since the first faulty one is told.
    fn parse_tagged(tag: &[u8], arguments: Arguments<'a>) -> Result<Self, Refusal> {
        use Notification::*;

        Ok(match tag {
            b"U" => {
                let [id, item, values] = arguments.divide()?;
                Update {
                    id: id.number(ID)?,
                    item: item.number(ITEM)?,
                    values,
                }
            }
            b"PROBE" => {
                let [] = arguments.divide()?;
                Probe
            }
            b"SYNC" => {
                let [seconds] = arguments.divide()?;
                Sync(seconds.number(COUNT)?)
            }
            b"LOOP" => {
                let [delay] = arguments.divide()?;
                Loop(delay.number(COUNT)?)
            }
            b"CONS" => {
                let [bandwidth] = arguments.divide()?;
                Constrained(bandwidth.text()?)
            }
            b"SERVNAME" => {
                let [name] = arguments.divide()?;
                ServerName(name.text()?)
            }
            b"CLIENTIP" => {
                let [address] = arguments.divide()?;
                ClientIp(address.text()?)
            }
            b"REQOK" => {
                let [request] = arguments.divide()?;
                RequestOk(request.text()?)
            }
            b"UNSUB" => {
                let [id] = arguments.divide()?;
                Unsubscribed { id: id.number(ID)? }
            }
            b"CONERR" => {
                let [code, message] = arguments.divide()?;
                ConnectionError(Reason::parse(code, message)?)
            }
            b"END" => {
                let [code, message] = arguments.divide()?;
                End(Reason::parse(code, message)?)
            }
            b"ERROR" => {
                let [code, message] = arguments.divide()?;
                Error(Reason::parse(code, message)?)
            }
            b"EOS" => {
                let [id, item] = arguments.divide()?;
                EndOfSnapshot {
                    id: id.number(ID)?,
                    item: item.number(ITEM)?,
                }
            }
            b"SUBOK" => {
                let [id, items, fields] = arguments.divide()?;
                Subscribed {
                    id: id.number(ID)?,
                    items: items.number(ITEM)?,
                    fields: fields.number(FIELDS)?,
                }
            }
            b"OV" => {
                let [id, item, lost] = arguments.divide()?;
                Overflow {
                    id: id.number(ID)?,
                    item: item.number(ITEM)?,
                    lost: lost.number(COUNT)?,
                }
            }
            b"CONF" => {
                let [id, frequency, filter] = arguments.divide()?;
                Configured {
                    id: id.number(ID)?,
                    frequency: frequency.text()?,
                    filter: filter.text()?,
                }
            }
            b"REQERR" => {
                let [request, code, message] = arguments.divide()?;
                RequestError {
                    request: request.text()?,
                    reason: Reason::parse(code, message)?,
                }
            }
            b"CONOK" => {
                let [session, request_limit, keep_alive, control_link] = arguments.divide()?;
                Connected {
                    session: session.text()?,
                    request_limit: request_limit.number(COUNT)?,
                    keep_alive: keep_alive.number(COUNT)?,
                    control_link: control_link.text()?,
                }
            }
            _ => return Err(Refusal::new(Fault::Tag, 0)),
        })
    }
}

/// What follows the tag's comma, if there is one, not divided yet.
struct Arguments<'a> {
    rest: Option<Part<'a>>,
    line_end: usize,
}

impl<'a> Arguments<'a> {
    /// Divides into N arguments; the last of them keeps its commas.
    fn divide<const N: usize>(self) -> Result<[Part<'a>; N], Refusal> {
        let mut parts = [Part::default(); N];
        let mut rest = self.rest;
        for (i, part) in parts.iter_mut().enumerate() {
            let left = rest.ok_or(Refusal::new(Fault::Arguments, self.line_end))?;
            (*part, rest) = if i + 1 < N {
                left.split_once(b',')
            } else {
                (left, None)
            };
        }
        // Something is left only where no argument is asked for at all.
        match rest {
            None => Ok(parts),
            Some(extra) => Err(Refusal::new(Fault::Arguments, extra.at)),
        }
    }
}

/// A field's text, held in place so that an update allocates nothing.
#[derive(Clone, Copy)]
struct Text {
    bytes: [u8; TEXT_LIMIT],
    len: usize,
}

impl Text {
    const EMPTY: Text = Text {
        bytes: [0; TEXT_LIMIT],
        len: 0,
    };

    fn decode(value: Part<'_>) -> Result<Text, Refusal> {
        let mut text = Text::EMPTY;
        for byte in value.decoded() {
            let byte = byte?;
            // What goes beyond the limit is only counted, since a faulty escape behind it comes first.
            if let Some(slot) = text.bytes.get_mut(text.len) {
                *slot = byte;
            }
            text.len += 1;
        }
        if text.len > TEXT_LIMIT {
            return Err(Refusal::new(Fault::Value, value.at));
        }
        Ok(text)
    }

    fn as_bytes(&self) -> &[u8] {
        &self.bytes[..self.len]
    }
}

/// A field: a text, or null.
type Cell = Option<Text>;

/// What one value of a list says.
enum Value {
    Same(usize),
    Becomes(Cell),
}

impl Value {
    fn parse(value: Part<'_>) -> Result<Value, Refusal> {
        match value.bytes {
            b"" => Ok(Value::Same(1)),
            b"#" => Ok(Value::Becomes(None)),
            b"$" => Ok(Value::Becomes(Some(Text::EMPTY))),
            [b'^', digits @ ..] => match parse_number(digits, FIELDS) {
                Some(n) => Ok(Value::Same(n as usize)),
                None => Err(Refusal::new(Fault::Number, value.at)),
            },
            _ => Ok(Value::Becomes(Some(Text::decode(value)?))),
        }
    }
}

/// A field's index and what the field becomes.
type Change = (usize, Cell);

/// Reads a list for a row of so many fields into `changes`, which is cleared first.
fn parse_values(list: Part<'_>, fields: usize, changes: &mut Vec<Change>) -> Result<(), Refusal> {
    let uncovered = Refusal::new(Fault::Cover, list.at);
    changes.clear();
    let mut covered = 0;
    let mut rest = Some(list);
    while let Some(left) = rest {
        if covered == fields {
            return Err(uncovered);
        }
        let (value, more) = left.split_once(b'|');
        match Value::parse(value)? {
            Value::Same(n) => covered += n,
            Value::Becomes(cell) => {
                changes.push((covered, cell));
                covered += 1;
            }
        }
        if covered > fields {
            return Err(uncovered);
        }
        rest = more;
    }
    if covered == fields {
        Ok(())
    } else {
        Err(uncovered)
    }
}

/// A subscription that the viewer may follow; it is open while it has a row.
struct Entry {
    id: u32,
    row: Option<Vec<Cell>>,
}

/// What came of a line that was accepted.
enum Heard {
    Taken,
    /// No entry fits the line.
    Passed,
}

struct Viewer {
    entries: [Entry; ENTRY_COUNT],
    /// The changes of the update that is being heard, kept so that each update can use the same memory.
    changes: Vec<Change>,
}

impl Viewer {
    /// A viewer whose entries hold the IDs from 1 on, closed.
    fn new() -> Self {
        let entries = std::array::from_fn(|i| Entry {
            id: i as u32 + 1,
            row: None,
        });
        Viewer {
            entries,
            changes: Vec::with_capacity(FIELD_LIMIT),
        }
    }

    fn hear(&mut self, line: &[u8]) -> Result<Heard, Refusal> {
        match Notification::parse(line)? {
            Notification::Update { id, values, .. } => self.update(id, values),
            Notification::Subscribed { id, fields, .. } => {
                let row = vec![None; fields as usize];
                Ok(self.replace(id, Entry { id, row: Some(row) }))
            }
            // An entry without a subscription has an ID that no line can name.
            Notification::Unsubscribed { id } => Ok(self.replace(id, Entry { id: 0, row: None })),
            _ => Ok(Heard::Taken),
        }
    }

    fn replace(&mut self, id: u32, new: Entry) -> Heard {
        match self.entries.iter_mut().find(|entry| entry.id == id) {
            Some(entry) => {
                *entry = new;
                Heard::Taken
            }
            None => Heard::Passed,
        }
    }

    fn update(&mut self, id: u32, values: Part<'_>) -> Result<Heard, Refusal> {
        let mut fitting = self.entries.iter_mut().filter(|entry| entry.id == id);
        let Some(row) = fitting.find_map(|entry| entry.row.as_mut()) else {
            return Ok(Heard::Passed);
        };
        // The whole list is read before a cell is touched: a refused list changes nothing.
        parse_values(values, row.len(), &mut self.changes)?;
        for &(field, cell) in &self.changes {
            row[field] = cell;
        }
        Ok(Heard::Taken)
    }

    /// Prints each open row as a line that tells all of its fields.
    fn print_rows(&self, output: &mut impl Write) -> io::Result<()> {
        for entry in &self.entries {
            let Some(row) = &entry.row else { continue };
            write!(output, "U,{},1,", entry.id)?;
            for (i, cell) in row.iter().enumerate() {
                if i > 0 {
                    output.write_all(b"|")?;
                }
                print_cell(cell, output)?;
            }
            output.write_all(b"\n")?;
        }
        Ok(())
    }
}

fn print_cell(cell: &Cell, output: &mut impl Write) -> io::Result<()> {
    match cell.as_ref().map(Text::as_bytes) {
        None => output.write_all(b"#"),
        Some([]) => output.write_all(b"$"),
        Some(text) => print_text(text, output),
    }
}

/// Escapes what would end the value or the line, and what at its front would make it another value.
fn print_text(text: &[u8], output: &mut impl Write) -> io::Result<()> {
    for (i, &byte) in text.iter().enumerate() {
        match byte {
            0x00..=0x1f | b'%' | b',' | b'|' | 0x7f.. => write!(output, "%{byte:02X}")?,
            b'#' | b'$' | b'^' if i == 0 => write!(output, "%{byte:02X}")?,
            _ => output.write_all(&[byte])?,
        }
    }
    Ok(())
}

/// The front of a line whose end has not been read yet.
#[derive(Default)]
struct Pending {
    bytes: Vec<u8>,
}

impl Pending {
    // Two bytes over the limit are enough to refuse a line, even if one of them is the CR of its end;
    // more is never kept, however long the line is.
    const ROOM: usize = LINE_LIMIT + 2;

    fn extend(&mut self, bytes: &[u8]) {
        let room = Self::ROOM - self.bytes.len();
        self.bytes
            .extend_from_slice(&bytes[..bytes.len().min(room)]);
    }
}

/// Hears lines and prints what came of them, numbered from 1.
struct Follower<W> {
    viewer: Viewer,
    lines: u64,
    output: W,
}

impl<W: Write> Follower<W> {
    fn new(output: W) -> Self {
        Follower {
            viewer: Viewer::new(),
            lines: 0,
            output,
        }
    }

    fn run(&mut self, mut input: impl Read) -> io::Result<()> {
        let mut block = vec![0; BLOCK_SIZE];
        let mut pending = Pending::default();
        loop {
            // The next read may wait for input, and whoever sends it may wait for these answers.
            self.output.flush()?;
            match input.read(&mut block) {
                Ok(0) => break,
                Ok(n) => self.hear_block(&block[..n], &mut pending)?,
                Err(error) if error.kind() == ErrorKind::Interrupted => {}
                Err(error) => return Err(error),
            }
        }
        if !pending.bytes.is_empty() {
            self.hear_line(&pending.bytes)?;
        }
        self.viewer.print_rows(&mut self.output)?;
        self.output.flush()
    }

    /// Hears the lines that end in this block; most of them lie in it whole and need no copy.
    fn hear_block(&mut self, block: &[u8], pending: &mut Pending) -> io::Result<()> {
        let mut left = block;
        while let Some(end) = left.iter().position(|&b| b == b'\n') {
            if pending.bytes.is_empty() {
                self.hear_ended_line(&left[..end])?;
            } else {
                pending.extend(&left[..end]);
                self.hear_ended_line(&pending.bytes)?;
                pending.bytes.clear();
            }
            left = &left[end + 1..];
        }
        pending.extend(left);
        Ok(())
    }

    /// Hears a line that ended with LF: a CR before that belongs to the end.
    fn hear_ended_line(&mut self, line: &[u8]) -> io::Result<()> {
        self.hear_line(line.strip_suffix(b"\r").unwrap_or(line))
    }

    fn hear_line(&mut self, line: &[u8]) -> io::Result<()> {
        self.lines += 1;
        let n = self.lines;
        match self.viewer.hear(line) {
            Ok(Heard::Taken) => writeln!(self.output, "{n} ok"),
            Ok(Heard::Passed) => writeln!(self.output, "{n} passed"),
            Err(Refusal { fault, place }) => {
                writeln!(self.output, "{n} no {} {place}", fault as u8)
            }
        }
    }
}

fn main() -> ExitCode {
    let output = BufWriter::with_capacity(BLOCK_SIZE, io::stdout().lock());
    match Follower::new(output).run(io::stdin().lock()) {
        Ok(()) => ExitCode::SUCCESS,
        Err(error) => {
            eprintln!("follow: {error}");
            ExitCode::FAILURE
        }
    }
}
