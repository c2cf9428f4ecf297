//! Writes the stored list of the program `vectors`: `vectors ORACLE SEQUENCES SEED DATE`.
//!
//! Every call goes to quiche, and the list has quiche's line for it. Whether docs/RULES.md asks for another is decided by the rules of
//! owed.rs, over quiche's own state before the call, and for a send buffer by sender.rs, which is told every call. Our code has no part
//! in it.
//!
//! After a call that docs/RULES.md answers otherwise quiche is started afresh and given the sequence again without that call, so
//! that the two go on from the same state. Where docs/RULES.md asks for another state than quiche can have, the sequence ends. Once a
//! send buffer's chunks were joined, quiche goes on with its own state, and every call has a line of the rules.

mod calls;
mod owed;
mod rows;
#[allow(dead_code)]
mod script;
mod sender;
mod side;

use std::collections::BTreeMap;

use calls::alphabets;
use calls::call;
use calls::crowding;
use calls::first;
use calls::flowing;
use calls::Dice;
use owed::by_row;
use owed::owed;
use rows::added;
use rows::field;
use rows::is_set;
use rows::refusal;
use rows::row;
use rows::Form;
use sender::Sender;
use side::Side;

const OBJECTS: [&str; 5] = ["rb", "fc", "rs", "s", "r"];

/// Rows that a call sequence can show: all but D-33.
const ROWS: [u32; 33] = [
    1, 2, 3, 4, 5, 6, 7, 8, 9, 10, 11, 12, 13, 14, 20, 21, 22, 23, 24, 25, 26, 27, 28, 29, 30, 31, 32, 34, 35, 36, 40, 41, 42,
];

/// How quiche goes on after a line that docs/RULES.md asks for instead of its own.
enum Then {
    /// From the state before the call: it is as if it had not been made.
    LeftOut,
    /// From its own state.
    Made,
    /// Not at all: it cannot have the state of that line.
    Apart,
}

/// A line that docs/RULES.md asks for instead of quiche's.
struct Ruled {
    row: u32,
    line: String,
    then: Then,
}

/// The row of an added refusal, by the call and the refusal's number.
fn row_of_refusal(call: &str, number: u64) -> u32 {
    match (call, number) {
        ("rb.new", _) => 1,
        ("rb.split", _) => 2,
        ("rb.consume", _) => 3,
        ("rs.insert", _) => 4,
        ("fc.add_consumed" | "r.fc.add_consumed", _) => 5,
        ("fc.lower_bound" | "r.fc.lower_bound", _) => 6,
        ("fc.new" | "rs.new", _) => 7,
        ("s.new" | "r.new", _) => 8,
        (_, 10) => 9,
        ("rs.push_item", _) => 14,
        ("s.update_max_data", _) => 21,
        ("s.write", 5) => 22,
        ("s.retransmit", 6) => 23,
        ("s.ack" | "s.ack_and_drop", 6) => 24,
        (_, 7) => 25,
        ("r.write" | "r.reset", 1) => 26,
        ("r.emit" | "r.discard", 1) => 27,
        ("r.write", 5) => 28,
        ("r.write", 6) => 29,
        _ => panic!("{call} is refused {number} in no row"),
    }
}

/// The other rows, by what quiche answered.
fn row_of(line: &str, before: &str, said: &str, after: &str) -> Option<u32> {
    let words: Vec<&str> = line.split(' ').collect();
    let n = |i: usize| words.get(i).and_then(|w| w.parse::<u64>().ok()).unwrap_or(0);
    match (words[0], said) {
        ("rs.remove_until", "panic") => Some(10),
        ("rs.insert" | "rs.push_item", "panic") => Some(11),
        ("rs.remove_until", _) if by_row("D-12", line, before) != format!("{said} | {after}") => Some(12),
        ("rs.last", "panic") => Some(13),
        ("fc.should_update" | "r.get", "panic") => Some(20),
        ("r.reset", "no 4") => Some(30),
        ("r.write", "ok") if words[2] == "x" && words[3] == "0" && Some(n(1)) > field(before, "len") => Some(31),
        ("r.reset", _) if said.starts_with("ok") && first_reset_with_size(before) => Some(32),
        _ => None,
    }
}

fn first_reset_with_size(state: &str) -> bool {
    is_set(state, "fin") && !is_set(state, "err") && field(state, "drain") == Some(0)
}

struct List {
    oracle: Side,
    lines: Vec<String>,
    /// The calls of the sequence that quiche has made.
    made: Vec<String>,
    /// The state of each object, as the list has it.
    states: BTreeMap<String, String>,
    form: Form,
    /// The length of the receive buffer's arena.
    arena: u64,
    sender: Sender,
    /// The code of a reset that quiche does not tell its reader (D-32).
    untold: Option<u64>,
    /// The last line's state is one that quiche cannot have.
    apart: bool,
    calls: BTreeMap<String, u64>,
    names: BTreeMap<String, u64>,
    rows: BTreeMap<u32, u64>,
}

impl List {
    fn seq(&mut self, label: &str) {
        let line = format!("seq {label}");
        self.lines.push(line);
        self.made.clear();
        self.restore();
        self.states.clear();
        self.form = Form::default();
        self.sender = Sender::default();
        self.untold = None;
        self.apart = false;
    }

    fn state(&self, object: &str) -> String {
        self.states.get(object).cloned().unwrap_or("-".into())
    }

    /// Gives quiche the sequence again.
    fn restore(&mut self) {
        self.oracle.ask_all(&self.made);
    }

    /// A call and its lines in the list. `both` names a row of "The rules against RFC 9000", in which quiche's line is the rules' too.
    fn call(&mut self, line: &str, both: Option<u32>) {
        assert!(!self.apart, "{line}: quiche's state is another since the call before");
        let (object, name) = line.split(' ').next().unwrap().split_once('.').unwrap();
        let before = self.state(object);
        let quiche = self.oracle.ask(line);
        let ruled = self.ruled(line, &before, &quiche);
        self.lines.push(line.into());
        self.lines.push(format!("< {quiche}"));
        let expected = ruled.as_ref().map_or(&quiche, |r| &r.line).clone();
        let (said, after) = expected.split_once(" | ").unwrap();
        self.check_row(line, &before, said, after, ruled.as_ref());
        match ruled {
            Some(r) => {
                self.lines.push(format!("! D-{} {}", r.row, r.line));
                *self.rows.entry(r.row).or_default() += 1;
                match r.then {
                    Then::LeftOut => self.restore(),
                    Then::Made => self.made.push(line.into()),
                    Then::Apart => self.apart = true,
                }
            }
            None => {
                assert!(!quiche.starts_with("panic"), "{line}: quiche panics, and no rule says so");
                self.made.push(line.into());
                self.form.step(line, after);
                if let Some(row) = both {
                    self.lines.push(format!("! D-{row} {quiche}"));
                    *self.rows.entry(row).or_default() += 1;
                }
            }
        }
        if line.starts_with("r.new ") && said == "ok" {
            self.arena = line.rsplit(' ').next().and_then(|w| w.parse().ok()).unwrap_or(0);
        }
        self.states.insert(object.into(), after.into());
        *self.calls.entry(object.into()).or_default() += 1;
        *self.names.entry(format!("{object}.{name}")).or_default() += 1;
    }

    /// Where the comparison (`drive`) sees a row, the list has it in the same row, and the other way round.
    fn check_row(&self, line: &str, before: &str, said: &str, after: &str, ruled: Option<&Ruled>) {
        match (row(line, before, said, after, &self.form), ruled) {
            (Some((name, _)), Some(r)) => assert!(name.starts_with(&format!("D-{} ", r.row)), "{line}: {name} is D-{}", r.row),
            // quiche may give the same answer all the same: consumed above the limit with F known, an empty frame, a range that stays
            (Some(_), None) => {}
            (None, Some(r)) => assert!(
                added(said) || [32, 34, 35, 36].contains(&r.row),
                "{line}: D-{} is unknown to the comparison",
                r.row
            ),
            (None, None) => assert!(!added(said), "{line}: {said}"),
        }
    }

    /// What docs/RULES.md asks of a send buffer: where it adds a refusal, and in every call once chunks were joined.
    fn sent(&mut self, name: &str, line: &str, quiche: &str) -> Option<Ruled> {
        let ours = self.sender.line(line);
        let (said, quiche_said) = (ours.split(" | ").next().unwrap(), quiche.split(" | ").next().unwrap());
        let (row, then) = match self.sender.joined {
            _ if added(said) => (row_of_refusal(name, refusal(said)), Then::LeftOut),
            Some(_) if name == "s.ack_and_drop" && said != quiche_said => (36, Then::Made),
            Some("write") => (34, Then::Made),
            Some(_) => (35, Then::Made),
            None => {
                assert!(ours == quiche, "{line}: quiche {quiche}, docs/RULES.md {ours}");
                return None;
            }
        };
        Some(Ruled { row, line: ours, then })
    }

    /// What docs/RULES.md asks where quiche answers otherwise.
    fn ruled(&mut self, line: &str, before: &str, quiche: &str) -> Option<Ruled> {
        let name = line.split(' ').next().unwrap();
        if name.starts_with("s.") {
            return self.sent(name, line, quiche);
        }
        let (said, after) = quiche.split_once(" | ").unwrap();
        let number = owed(line, before, self.arena);
        if added(&format!("no {number}")) {
            return Some(Ruled {
                row: row_of_refusal(name, number),
                line: format!("no {number} | {before}"),
                then: Then::LeftOut,
            });
        }
        // the reader is told of a reset that quiche keeps to itself (D-32): the notice goes with that, and the states are the same again
        if let Some(code) = self.untold.take() {
            assert!(
                name == "r.emit" || name == "r.discard",
                "{line}: the reader is to be told first"
            );
            return Some(Ruled {
                row: 32,
                line: format!("no 9 {code} | {after}"),
                then: Then::Made,
            });
        }
        let row = row_of(line, before, said, after).filter(|_| before != "-")?;
        if row == 32 {
            self.untold = line.split(' ').nth(1).and_then(|w| w.parse().ok());
        }
        Some(Ruled {
            row,
            line: by_row(&format!("D-{row} "), line, before),
            then: match row {
                10..=12 => Then::Apart,
                32 => Then::Made,
                _ => Then::LeftOut,
            },
        })
    }

    /// The sequences of a file. A call may be repeated: `65 * CALL` makes it for i from 0 to 64, with `{a*i+b}` in it reckoned. The last
    /// call of a sequence whose label begins `D-4` is one where quiche and docs/RULES.md agree.
    fn file(&mut self, text: &str) {
        let lines: Vec<&str> = text.lines().collect();
        let mut label = String::new();
        for (i, line) in lines.iter().enumerate() {
            if let Some(l) = line.strip_prefix("seq ") {
                self.seq(l);
                label = l.to_string();
            } else if line.starts_with('#') || line.is_empty() {
                continue;
            } else if let Some((times, form)) = line.split_once(" * ") {
                for i in 0..times.parse().expect("a number before *") {
                    self.call(&reckoned(form, i), None);
                }
            } else {
                let last = lines.get(i + 1).map_or(true, |l| l.is_empty() || l.starts_with("seq"));
                let row = label
                    .split(' ')
                    .next()
                    .and_then(|w| w.strip_prefix("D-"))
                    .and_then(|w| w.parse().ok());
                self.call(line, row.filter(|r| *r >= 40 && last));
            }
        }
    }

    /// A random sequence, which ends before the state is too long to be read; two in eight fill the tables, one sends in small steps.
    fn random(&mut self, label: &str, dice: &mut Dice, object: &str, length: u64) {
        self.seq(label);
        let (line, kind) = (first(dice, object), dice.below(8));
        self.call(&line, None);
        for _ in 1..length {
            let state = self.state(object);
            if self.apart || state == "-" || state.len() > 260 {
                return;
            }
            let line = match self.untold {
                Some(_) => "r.emit 1".to_string(),
                None if kind < 2 => crowding(dice, object, &state),
                None if kind == 2 => flowing(dice, object, &state),
                None => call(dice, object, &state),
            };
            self.call(&line, None);
        }
    }

    /// A sequence over a small alphabet.
    fn letters(&mut self, label: &str, dice: &mut Dice, start: &str, depth: usize, letters: &[&str]) {
        self.seq(label);
        self.call(start, None);
        for _ in 0..depth {
            if self.apart {
                return;
            }
            let line = match self.untold {
                Some(_) => "r.emit 1",
                None => dice.pick(letters),
            };
            self.call(line, None);
        }
    }
}

/// A call with each `{a*i+b}` reckoned.
fn reckoned(form: &str, i: u64) -> String {
    let mut parts = form.split('{');
    let mut call = parts.next().unwrap().to_string();
    for part in parts {
        let (sum, rest) = part.split_once('}').expect("a closing brace");
        let (a, b) = sum.split_once("*i+").expect("{a*i+b}");
        let (a, b): (u64, u64) = (a.parse().unwrap(), b.parse().unwrap());
        call += &format!("{}{rest}", a * i + b);
    }
    call
}

fn head(list: &List, seed: &str, date: &str) -> String {
    let total: u64 = list.calls.values().sum();
    let per: Vec<String> = OBJECTS.iter().map(|o| format!("{o}. {}", list.calls[*o])).collect();
    let rows: Vec<String> = list.rows.iter().map(|(r, n)| format!("D-{r} {n}")).collect();
    let names: Vec<String> = list.names.iter().map(|(c, n)| format!("{c} {n}")).collect();
    let wrapped = |items: &[String]| {
        items
            .chunks(10)
            .map(|c| format!("#   {}", c.join(", ")))
            .collect::<Vec<_>>()
            .join("\n")
    };
    format!(
        "\
# Calls with quiche's answers, in the text of the call script: what the program `vectors` reads.
#
#   CALL
#   < ANSWER | STATE          what quiche answers, and its state after it (`panic | -`: it panics, or overflows)
#   ! D-nn ANSWER | STATE     what docs/RULES.md asks instead, with the row of docs/DIFFERENCES.md; in the rows D-40 to D-43 the same text,
#                             since there we answer as the Rust does, and RFC 9000 says otherwise
#
# Made on {date} by `compare/vectors {seed}`, after `compare/build`, from quiche 0.30.0's own files, compiled unchanged with overflow checks
# on. The first sequences are those of compare/sequences.txt; the others are random, from the seed {seed}. The lines that begin with `<` are
# quiche's own. Those that begin with `!` were reckoned from quiche's state before the call, by the rules that compare/src/owed.rs has from
# docs/RULES.md; a send buffer's from all its calls, by compare/src/sender.rs. No line was taken from the code that the program tries.
# After a call with such a line quiche was given the sequence again without it, so both go on from the same state; where docs/RULES.md
# asks for a state that quiche cannot have, the sequence ends. But where a send buffer's chunks are joined (D-34, D-35), quiche goes on
# with its own state: every call from there on has both lines, also where they are the same.
#
# D-33 is not shown: that quiche's constructor takes three numbers is no call of the script, whose `r.new` gives it limit and window alike.
# An arena is lent to our calls only: quiche has none, so it does not see the last number of `s.new` and `r.new`, nor `@N`.
#
# {total} calls: {}
# By row:
{}
# By call:
{}
",
        per.join(", "),
        wrapped(&rows),
        wrapped(&names)
    )
}

fn main() {
    let args: Vec<String> = std::env::args().collect();
    let [_, oracle, file, seed, date] = &args[..] else {
        eprintln!("usage: vectors ORACLE SEQUENCES SEED DATE");
        std::process::exit(2)
    };
    let number: u64 = seed.parse().expect("SEED");
    let mut dice = Dice(number.wrapping_mul(0x9e37_79b9_7f4a_7c15) | 1);
    let mut list = List {
        oracle: Side::start(oracle),
        lines: Vec::new(),
        made: Vec::new(),
        states: BTreeMap::new(),
        form: Form::default(),
        arena: 0,
        sender: Sender::default(),
        untold: None,
        apart: false,
        calls: BTreeMap::new(),
        names: BTreeMap::new(),
        rows: BTreeMap::new(),
    };
    list.file(&std::fs::read_to_string(file).expect("SEQUENCES"));
    for (k, (start, depth, letters)) in alphabets().into_iter().enumerate() {
        for i in 0..24 {
            list.letters(&format!("alphabet {k} {i}"), &mut dice, start, depth, &letters);
        }
    }
    for (object, sequences, length) in [("rb", 10, 12), ("fc", 24, 12), ("rs", 24, 14), ("s", 66, 16), ("r", 66, 16)] {
        for i in 0..sequences {
            list.random(&format!("random {object} {i}"), &mut dice, object, length);
        }
    }
    for row in &ROWS {
        assert!(list.rows.contains_key(row), "no call stands in row D-{row}");
    }
    print!("{}\n{}\n", head(&list, seed, date), list.lines.join("\n"));
}
