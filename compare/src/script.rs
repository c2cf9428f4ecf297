//! What both sides of the comparison and the second reading of the send buffer share: the call script's words. And the loop of both sides
//! that reads calls and writes lines.
//!
//! The script is taken as docs/CALL-SCRIPT.md has it and no other way: a line that is none of its own is answered `bad LINE` and ends the
//! program with status 2.

use std::io::BufRead;
use std::io::Write;
use std::process::ExitCode;

/// A number that may be missing.
pub fn option(n: Option<u64>) -> String {
    n.map_or("-".to_string(), |n| n.to_string())
}

/// The CRC-32 of each single byte.
const CRCS: [u32; 256] = {
    let mut all = [0; 256];
    let mut i = 0;
    while i < 8 * 256 {
        let crc = if i % 8 == 0 { i as u32 / 8 } else { all[i / 8] };
        all[i / 8] = if crc & 1 == 1 { crc >> 1 ^ 0xedb8_8320 } else { crc >> 1 };
        i += 1;
    }
    all
};

fn crc32(data: &[u8]) -> u32 {
    !data.iter().fold(!0, |crc, b| crc >> 8 ^ CRCS[(crc as u8 ^ b) as usize])
}

/// Bytes of an answer or a state: in full up to 32, else their count and CRC-32.
pub fn bytes_text(data: &[u8]) -> String {
    if data.len() <= 32 {
        let hex: String = data.iter().map(|b| format!("{b:02x}")).collect();
        format!("x{hex}")
    } else {
        format!("h{}:{:08x}", data.len(), crc32(data))
    }
}

/// Ranges as a state shows them.
pub fn ranges_text(ranges: impl Iterator<Item = (u64, u64)>) -> String {
    let all: Vec<String> = ranges.map(|(start, end)| format!("{start}-{end}")).collect();
    format!("[{}]", all.join(","))
}

/// A chunk as a state shows it.
pub fn chunk_text(off: u64, len: u64, consumed: u64) -> String {
    format!("{off}+{len}~{consumed}")
}

/// A window as a state shows it.
pub fn window_text(consumed: u64, limit: u64, window: u64, maximum: u64, last: Option<u64>) -> String {
    let last = option(last);
    format!("consumed={consumed} limit={limit} window={window} maximum={maximum} last={last}")
}

/// What a word of a call must be.
#[derive(Clone, Copy)]
enum Kind {
    /// A 64-bit number.
    Number,
    /// A 64-bit number, or `-` for none.
    Maybe,
    /// `x` and pairs of hexadecimal digits, or `pN:T`.
    Bytes,
    /// `0` or `1`.
    Mark,
    /// `l` or `r`.
    Part,
    /// `@N`, or nothing.
    Arena,
}

use Kind::*;

/// Every call of the script with its words.
const CALLS: [(&str, &[Kind]); 49] = [
    ("rb.new", &[Number, Bytes]),
    ("rb.consume", &[Number]),
    ("rb.split", &[Number, Part]),
    ("rb.off", &[]),
    ("rb.max_off", &[]),
    ("rb.len", &[]),
    ("rb.is_empty", &[]),
    ("fc.new", &[Number, Number, Number]),
    ("fc.add_consumed", &[Number]),
    ("fc.commit", &[Number]),
    ("fc.autotune", &[Number, Number]),
    ("fc.lower_bound", &[Number]),
    ("fc.window", &[]),
    ("fc.max_data", &[]),
    ("fc.should_update", &[]),
    ("fc.next", &[]),
    ("rs.new", &[Number]),
    ("rs.insert", &[Number, Number]),
    ("rs.push_item", &[Number]),
    ("rs.remove_until", &[Number]),
    ("rs.contains", &[Number]),
    ("rs.len", &[]),
    ("rs.last", &[]),
    ("rs.iter", &[]),
    ("rs.eq", &[Number, Number]),
    ("s.new", &[Number, Number]),
    ("s.write", &[Bytes, Mark, Arena]),
    ("s.emit", &[Number, Arena]),
    ("s.update_max_data", &[Number]),
    ("s.update_blocked_at", &[Maybe]),
    ("s.ack", &[Number, Number]),
    ("s.ack_and_drop", &[Number, Number]),
    ("s.retransmit", &[Number, Number]),
    ("s.reset", &[]),
    ("s.stop", &[Number]),
    ("s.shutdown", &[]),
    ("s.get", &[]),
    ("r.new", &[Number, Number, Number]),
    ("r.write", &[Number, Bytes, Mark, Arena]),
    ("r.emit", &[Number, Arena]),
    ("r.discard", &[Number]),
    ("r.reset", &[Number, Number]),
    ("r.shutdown", &[]),
    ("r.commit", &[Number]),
    ("r.autotune", &[Number, Number]),
    ("r.fc.add_consumed", &[Number]),
    ("r.fc.lower_bound", &[Number]),
    ("r.readable_len", &[Number]),
    ("r.get", &[]),
];

/// A call of the script: the object, the call, and what its words say.
#[derive(Default)]
pub struct Call {
    pub object: &'static str,
    pub call: &'static str,
    /// The numbers in their order; `-` is none.
    pub n: Vec<u64>,
    pub bytes: Vec<u8>,
    /// The mark is 1, or the right part is to stay.
    pub yes: bool,
    /// The length of an arena that is lent instead of the right one. quiche has no arenas, so only the port reads it.
    #[allow(dead_code)]
    pub arena: Option<u64>,
}

impl Call {
    /// The first number, or none.
    pub fn first(&self) -> Option<u64> {
        self.n.first().copied()
    }

    /// Takes a word in; `None` if it is not of its kind.
    fn take(&mut self, kind: Kind, word: &str) -> Option<()> {
        match kind {
            Maybe if word == "-" => {}
            Number | Maybe => self.n.push(number(word)?),
            Bytes => self.bytes = bytes(word)?,
            Mark => self.yes = one_of(word, ["0", "1"])?,
            Part => self.yes = one_of(word, ["l", "r"])?,
            Arena => self.arena = Some(number(word.strip_prefix('@')?)?),
        }
        Some(())
    }
}

/// A 64-bit number: decimal digits and nothing else.
fn number(word: &str) -> Option<u64> {
    let digits = word.bytes().all(|b| b.is_ascii_digit());
    word.parse().ok().filter(|_| digits)
}

fn one_of(word: &str, [no, yes]: [&str; 2]) -> Option<bool> {
    (word == no || word == yes).then_some(word == yes)
}

/// The longest pattern that is taken: quiche's side holds its bytes several times over while it answers.
const LONGEST_PATTERN: u64 = 1 << 30;

/// The bytes that a word stands for.
fn bytes(word: &str) -> Option<Vec<u8>> {
    match word.strip_prefix('x') {
        Some(hex) => hex.as_bytes().chunks(2).map(pair).collect(),
        None => {
            let (n, t) = word.strip_prefix('p')?.split_once(':')?;
            pattern(number(n)?, number(t)?)
        }
    }
}

fn pair(digits: &[u8]) -> Option<u8> {
    let [high, low] = digits else { return None };
    let digit = |b: u8| (b as char).to_digit(16);
    Some((16 * digit(*high)? + digit(*low)?) as u8)
}

/// The bytes of `pN:T`, or none if memory does not hold them.
fn pattern(n: u64, t: u64) -> Option<Vec<u8>> {
    let mut all = Vec::new();
    if n > LONGEST_PATTERN || all.try_reserve_exact(n as usize).is_err() {
        return None;
    }
    all.extend((0..n).map(|i| ((7 * i + 3 * (i / 256) + 41 * (t % 256) + 1) % 256) as u8));
    Some(all)
}

/// The room of an output that is lent to an emit. Past all that a buffer `holds` and one byte more, no room means anything else: an emit
/// copies what is there, sees that room is left, and leaves the rest of the output as it was. So a room that memory would not hold is cut.
pub fn room(asked: u64, holds: u64) -> usize {
    const AMPLE: u64 = 1 << 17;
    asked.min(AMPLE.max(holds + 1)) as usize
}

/// The five objects of a sequence, on one side.
pub trait Side {
    /// All objects are gone.
    fn afresh(&mut self);
    /// Makes a call; `None` where the object was never created.
    fn call(&mut self, call: &Call) -> Option<String>;
    /// The object's state, `-` where it was never created.
    fn state(&self, object: &str) -> String;
}

/// Reads a script on standard input and writes a line for each call. At a line that is none of the script's it says so and ends with
/// status 2.
pub fn serve(side: &mut impl Side) -> ExitCode {
    match answer_all(side) {
        Ok(true) => ExitCode::SUCCESS,
        Ok(false) => ExitCode::from(2),
        Err(e) => {
            eprintln!("{e}");
            ExitCode::FAILURE
        }
    }
}

/// Was every line one of the script's?
fn answer_all(side: &mut impl Side) -> std::io::Result<bool> {
    let mut out = std::io::BufWriter::new(std::io::stdout().lock());
    let mut input = std::io::BufReader::new(std::io::stdin());
    let mut line = Vec::new();
    while input.read_until(b'\n', &mut line)? > 0 {
        if line.ends_with(b"\n") {
            line.pop();
        }
        let Some(said) = std::str::from_utf8(&line).ok().and_then(|line| answered(side, line)) else {
            writeln!(out, "bad {}", String::from_utf8_lossy(&line))?;
            out.flush()?;
            return Ok(false);
        };
        out.write_all(said.as_bytes())?;
        // Who waits for an answer has sent nothing more.
        if input.buffer().is_empty() {
            out.flush()?;
        }
        line.clear();
    }
    out.flush()?;
    Ok(true)
}

/// What a line is answered, `None` if it is none of the script's. Words stand apart by blanks; a carriage return is one.
fn answered(side: &mut impl Side, line: &str) -> Option<String> {
    let words: Vec<&str> = line.split([' ', '\t', '\r']).filter(|word| !word.is_empty()).collect();
    match words[..] {
        [] => Some(String::new()),
        [first, ..] if first.starts_with('#') => Some(String::new()),
        ["seq", _, ..] => {
            side.afresh();
            Some(format!("{line}\n"))
        }
        [name, ref words @ ..] => {
            let call = parsed(name, words)?;
            let said = side.call(&call).unwrap_or("-".into());
            Some(format!("{said} | {}\n", side.state(call.object)))
        }
    }
}

/// A call by its name and its words, `None` if it is none of the script's.
pub fn parsed(name: &str, words: &[&str]) -> Option<Call> {
    let (name, kinds) = CALLS.iter().find(|(known, _)| *known == name)?;
    let (object, call) = name.split_once('.')?;
    let mut parsed = Call {
        object,
        call,
        ..Call::default()
    };
    let without_arena = matches!(kinds.last(), Some(Arena)) && words.len() + 1 == kinds.len();
    if words.len() != kinds.len() && !without_arena {
        return None;
    }
    for (kind, word) in kinds.iter().zip(words) {
        parsed.take(*kind, word)?;
    }
    Some(parsed)
}
