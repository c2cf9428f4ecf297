//! Holds the port beside quiche: `drive PORT ORACLE SECONDS SEED`.
//!
//! Both programs speak the call script. Each call goes to the port first. What the port refuses by a refusal that quiche does
//! not have, and what stands in a row of docs/DIFFERENCES.md, does not reach quiche: it is held to the rules and to the
//! row (owed.rs). Every other answer, and the whole state after it, must be the same text. A send buffer's calls are all held to the
//! second reading of docs/RULES.md (sender.rs) as well, and from the first joining of its chunks on, which quiche does not have, to it
//! alone. First every short sequence over small alphabets, then random sequences around every boundary for the time given. A difference
//! in no row is shrunk, printed, and the exit status is 1.

mod calls;
mod losing;
mod owed;
mod rows;
#[allow(dead_code)]
mod script;
mod sender;
mod side;

use std::collections::BTreeMap;
use std::time::Duration;
use std::time::Instant;

use calls::alphabets;
use calls::call;
use calls::crowding;
use calls::first;
use calls::flowing;
use calls::Dice;
use losing::crowded;
use losing::losing;
use rows::added;
use rows::chunks;
use rows::field;
use rows::refusal;
use rows::row;
use rows::Form;
use sender::Sender;
use side::Side;

/// What the port said, and who says otherwise what.
struct Difference {
    port: String,
    other: (&'static str, String),
}

/// A sequence under way, of which quiche was told.
struct Running {
    done: Vec<String>,
    /// The port's state, and what its answers do not show.
    before: String,
    form: Form,
    arena: u64,
    sender: Sender,
    /// Chunks were joined.
    joined: bool,
    /// The calls that quiche was told, by index, with the port's lines for them.
    asked: Vec<(usize, String)>,
    /// A difference that was seen without quiche.
    end: Option<Difference>,
}

impl Running {
    fn begin(oracle: &mut Side) -> Running {
        oracle.begin();
        Running {
            done: Vec::new(),
            before: "-".into(),
            form: Form::default(),
            arena: 0,
            sender: Sender::default(),
            joined: false,
            asked: Vec::new(),
            end: None,
        }
    }

    /// A difference was seen, without quiche: the sequence cannot go on.
    fn ends(&mut self, port: String, who: &'static str, what: String) -> bool {
        self.end = Some(Difference {
            port,
            other: (who, what),
        });
        false
    }
}

/// What was seen of joinings (docs/RULES.md, 4.10).
#[derive(Default)]
struct Joinings {
    by_write: u64,
    by_retransmit: u64,
    sequences: u64,
    /// Calls from the first joining of a sequence on; among them an `ack_and_drop` that leaves the first chunk acked in part, an `emit` of
    /// bytes that an ack has covered, and a `retransmit` that is refused TableFull.
    alone: u64,
    in_part: u64,
    again: u64,
    full: u64,
}

impl Joinings {
    /// A call of a send buffer that has joined, now or before.
    fn count(&mut self, name: &str, said: &str, before: &str, after: &str) {
        let acked = |state: &str| state.split_once(" acked=[0-").map_or(0, |(_, rest)| leading(rest));
        let in_part = |c: &(u64, u64, u64)| c.0 < acked(after) && acked(after) < c.0 + c.1;
        self.alone += 1;
        self.in_part += (name == "s.ack_and_drop" && chunks(after).first().is_some_and(in_part)) as u64;
        let front = chunks(before).iter().find(|c| c.2 < c.1).map_or(u64::MAX, |c| c.0 + c.2);
        self.again += (name == "s.emit" && front < acked(before) && field(after, "tosend") < field(before, "tosend")) as u64;
        self.full += (name == "s.retransmit" && said == "no 6") as u64;
    }
}

/// The number that a text begins with.
fn leading(text: &str) -> u64 {
    let digits = text.split(|c: char| !c.is_ascii_digit()).next();
    digits.and_then(|n| n.parse().ok()).unwrap_or(0)
}

struct Compare {
    port: Side,
    oracle: Side,
    calls: BTreeMap<String, u64>,
    refused: BTreeMap<String, u64>,
    rows: BTreeMap<&'static str, u64>,
    joinings: Joinings,
    compared: u64,
}

impl Compare {
    /// One call, and the port's line for it; quiche is told the call if it is to answer it. Can the sequence go on?
    fn call(&mut self, run: &mut Running, line: String, port: String) -> bool {
        let name = line.split(' ').next().unwrap().to_string();
        let (said, after) = port.split_once(" | ").unwrap_or_default();
        let (said, after) = (said.to_string(), after.to_string());
        run.done.push(line.clone());
        *self.calls.entry(name.clone()).or_default() += 1;
        if said.is_empty() {
            return run.ends("the program has ended".into(), "docs/RULES.md", "an answer".into());
        }
        if name.starts_with("s.") {
            let kept = run.sender.line(&line);
            self.count_joinings(run, &name, &said, &after);
            if port != kept {
                return run.ends(port, "docs/RULES.md", kept);
            }
        } else if let Some(goes_on) = self.ruled(run, &name, &line, &port) {
            return goes_on;
        }
        if added(&said) {
            *self.refused.entry(format!("{name} {said}")).or_default() += 1;
            let kept = format!("{said} | {}", run.before);
            return port == kept || run.ends(port, "docs/RULES.md", kept);
        }
        run.form.step(&line, &after);
        run.before = after;
        if run.sender.joined.is_none() || !name.starts_with("s.") {
            self.oracle.tell(&line);
            run.asked.push((run.done.len(), port));
        }
        true
    }

    /// What owed.rs says of a call and of the port's line for it. Can the sequence go on? Nothing if quiche is to be heard.
    fn ruled(&mut self, run: &mut Running, name: &str, line: &str, port: &str) -> Option<bool> {
        let (said, after) = port.split_once(" | ")?;
        if name == "r.new" {
            run.arena = line.rsplit(' ').next().unwrap().parse().unwrap_or(0);
        }
        let owed = owed::owed(line, &run.before, run.arena);
        if owed != refusal(said) {
            let owed = if owed == 0 {
                "no refusal".into()
            } else {
                format!("no {owed}")
            };
            return Some(run.ends(port.into(), "docs/RULES.md", owed));
        }
        let (row, goes_on) = row(line, &run.before, said, after, &run.form)?;
        *self.rows.entry(row).or_default() += 1;
        let kept = owed::by_row(row, line, &run.before);
        run.before = after.into();
        Some(if port == kept {
            goes_on
        } else {
            run.ends(port.into(), "docs/DIFFERENCES.md", kept)
        })
    }

    fn count_joinings(&mut self, run: &mut Running, name: &str, said: &str, after: &str) {
        if run.sender.joined.is_none() {
            return;
        }
        self.joinings.by_write += (run.sender.joined_now && name == "s.write") as u64;
        self.joinings.by_retransmit += (run.sender.joined_now && name == "s.retransmit") as u64;
        self.joinings.sequences += !std::mem::replace(&mut run.joined, true) as u64;
        self.joinings.count(name, said, &run.before, after);
    }

    /// Hears quiche's answers to a sequence that has ended; the calls up to the first difference, and the difference.
    fn settle(&mut self, mut run: Running) -> Option<(Vec<String>, Difference)> {
        let mut found = run.end.map(|difference| (run.done.len(), difference));
        self.oracle.hear();
        let answers: Vec<String> = run.asked.iter().map(|_| self.oracle.hear()).collect();
        self.compared += answers.len() as u64;
        if let Some(((at, port), oracle)) = run.asked.into_iter().zip(answers).find(|((_, port), oracle)| port != oracle) {
            let other = ("quiche", oracle);
            found = Some((at, Difference { port, other }));
        }
        let (at, difference) = found?;
        run.done.truncate(at);
        Some((run.done, difference))
    }

    /// A whole sequence: the calls that it starts with, of which the port is told at once, and then each by the state that the one
    /// before left.
    fn sequence(&mut self, start: &[String], mut next: impl FnMut(&str) -> Option<String>) -> Option<(Vec<String>, Difference)> {
        let mut run = Running::begin(&mut self.oracle);
        let answers = self.port.ask_all(start);
        if self.port.ended {
            self.settle(run);
            return self.one_by_one(start);
        }
        let mut said = start.iter().cloned().zip(answers);
        let mut goes_on = said.all(|(line, port)| self.call(&mut run, line, port));
        while goes_on {
            let Some(line) = next(&run.before) else { break };
            let port = self.port.ask(&line);
            goes_on = self.call(&mut run, line, port);
        }
        self.settle(run)
    }

    /// A sequence in which the port ends: its last words are lost with it, so it is asked once more, call by call.
    fn one_by_one(&mut self, lines: &[String]) -> Option<(Vec<String>, Difference)> {
        let mut lines = lines.iter().cloned();
        self.sequence(&[], |_| lines.next())
    }

    /// Sequences that are known beforehand: both sides are told all of them at once. The first that has a difference.
    fn replay(&mut self, all: &[Vec<String>]) -> Option<(Vec<String>, Difference)> {
        for lines in all {
            self.port.begin();
            lines.iter().for_each(|line| self.port.tell(line));
        }
        let hear = |side: &mut Side, lines: &Vec<String>| -> Vec<String> {
            side.hear();
            lines.iter().map(|_| side.hear()).collect()
        };
        let answers: Vec<_> = all.iter().map(|lines| hear(&mut self.port, lines)).collect();
        if self.port.ended {
            return all.iter().find_map(|lines| self.one_by_one(lines));
        }
        let mut runs = Vec::new();
        for (lines, answers) in all.iter().zip(answers) {
            let mut run = Running::begin(&mut self.oracle);
            let mut said = lines.iter().cloned().zip(answers);
            while said.next().is_some_and(|(line, port)| self.call(&mut run, line, port)) {}
            runs.push(run);
        }
        let settled: Vec<_> = runs.into_iter().map(|run| self.settle(run)).collect();
        settled.into_iter().flatten().next()
    }

    /// The smallest sequence with a difference that leaving out calls and lessening numbers finds. The creation stays.
    fn shrink(&mut self, lines: Vec<String>) -> (Vec<String>, Difference) {
        let mut best = self.replay(&[lines]).expect("the difference is still there");
        loop {
            let was = best.0.clone();
            let mut size = best.0.len() / 2;
            while size > 0 {
                let mut at = 1;
                while at < best.0.len() {
                    let behind = best.0.len().min(at + size);
                    match self.replay(&[[&best.0[..at], &best.0[behind..]].concat()]) {
                        Some(less) => best = less,
                        None => at += size,
                    }
                }
                size /= 2;
            }
            let mut i = 0;
            while i < best.0.len() {
                match lesser(&best.0, i).into_iter().find_map(|less| self.replay(&[less])) {
                    Some(less) => best = less,
                    None => i += 1,
                }
            }
            if let Some(less) = lowered(&best.0).into_iter().find_map(|less| self.replay(&[less])) {
                best = less;
            }
            if best.0 == was {
                return best;
            }
        }
    }
}

/// A word with its number, or its count of bytes, made another.
fn resized(word: &str, to: impl Fn(u64) -> u64) -> String {
    if let Some((n, t)) = word.strip_prefix('p').and_then(|w| w.split_once(':')) {
        let n = to(n.parse().unwrap_or(0));
        return if n == 0 { "x".into() } else { format!("p{n}:{t}") };
    }
    if let Some(hex) = word.strip_prefix('x') {
        return format!("x{}", &hex[..2 * to(hex.len() as u64 / 2) as usize]);
    }
    word.parse().map_or(word.into(), |n| to(n).to_string())
}

/// The sequences in which the call at index i is less: one of its words, the least first, or all of them by half.
fn lesser(lines: &[String], i: usize) -> Vec<Vec<String>> {
    let words: Vec<&str> = lines[i].split(' ').collect();
    let mut all = Vec::new();
    let mut with = |line: String| {
        let mut copy = lines.to_vec();
        copy[i] = line;
        all.push(copy);
    };
    for (j, word) in words.iter().enumerate().skip(1) {
        let plain = word.split_once(':').map(|(count, _)| format!("{count}:0"));
        for less in (0..64).map(|k| resized(word, |n| n - (n >> k))).chain(plain) {
            let mut words = words.clone();
            words[j] = &less;
            with(words.join(" "));
        }
    }
    with(each_word(&lines[i], |w| resized(w, |n| n / 2)));
    all.retain(|less| less != lines);
    all
}

/// The sequences in which every number from some size on is less by that size, so that numbers that hang together stay so.
fn lowered(lines: &[String]) -> Vec<Vec<String>> {
    let top = lines
        .iter()
        .flat_map(|l| l.split(' '))
        .filter_map(|w| w.parse::<u64>().ok())
        .max();
    let steps = (1..64).map(|k| top.unwrap_or(0) >> k).filter(|d| *d > 0);
    let less = |w: &str, d| w.parse().map_or(w.into(), |n: u64| n.checked_sub(d).unwrap_or(n).to_string());
    steps
        .map(|d| lines.iter().map(|l| each_word(l, |w| less(w, d))).collect())
        .collect()
}

fn each_word(line: &str, to: impl Fn(&str) -> String) -> String {
    line.split(' ').map(to).collect::<Vec<_>>().join(" ")
}

fn report(compare: &Compare) {
    println!("calls to the port:");
    for (name, n) in &compare.calls {
        println!("  {n:>12}  {name}");
    }
    println!("refusals that quiche does not have:");
    for (name, n) in &compare.refused {
        println!("  {n:>12}  {name}");
    }
    println!("rows of docs/DIFFERENCES.md:");
    for (name, n) in &compare.rows {
        println!("  {n:>12}  {name}");
    }
    let j = &compare.joinings;
    println!("joinings of a send buffer's chunks, which quiche does not have:");
    for (what, n) in [
        ("joined by a write", j.by_write),
        ("joined by a retransmit", j.by_retransmit),
        ("sequences with a joining", j.sequences),
        ("calls from a joining on, held to docs/RULES.md alone", j.alone),
        ("of these: ack_and_drop that left the first chunk acked in part", j.in_part),
        ("of these: emit of bytes that an ack had covered", j.again),
        ("of these: retransmit no 6", j.full),
    ] {
        println!("  {n:>12}  {what}");
    }
    println!("answers and states compared: {}", compare.compared);
}

/// Shrinks the sequence, prints it with both sides' words that differ, and ends.
fn fail(compare: &mut Compare, lines: Vec<String>) -> ! {
    let (found, compared) = (lines.len(), compare.compared);
    let (
        lines,
        Difference {
            port,
            other: (who, what),
        },
    ) = compare.shrink(lines);
    println!(
        "A DIFFERENCE in no row of docs/DIFFERENCES.md, after {compared} compared, at call {found} of a sequence. The smallest:"
    );
    for line in &lines {
        println!("    {line}");
    }
    println!("  here: {port}\n  {who}: {what}");
    let words: Vec<_> = port.split(' ').zip(what.split(' ')).filter(|(a, b)| a != b).collect();
    if port.split(' ').count() == what.split(' ').count() {
        words.iter().for_each(|(a, b)| println!("  differs: {a} here, {b} there"));
    }
    report(compare);
    std::process::exit(1)
}

fn exhaustive(compare: &mut Compare) {
    for (first, depth, letters) in alphabets() {
        let mut at = vec![0usize; depth - 1];
        loop {
            let front: Vec<&str> = [first].into_iter().chain(at.iter().map(|&j| letters[j])).collect();
            let with = |last: &&str| front.iter().chain([last]).map(|line| line.to_string()).collect();
            let all: Vec<Vec<String>> = letters.iter().map(with).collect();
            if let Some((lines, _)) = compare.replay(&all) {
                fail(compare, lines);
            }
            let Some(j) = (0..depth - 1).rev().find(|&j| at[j] + 1 < letters.len()) else {
                break;
            };
            at[j] += 1;
            at[j + 1..].fill(0);
        }
        eprintln!(
            "every sequence of {depth} calls of {} after {first}: the same; {} compared so far",
            letters.len(),
            compare.compared
        );
    }
}

/// A random sequence of one object's calls; one in three is of a send buffer with many chunks and many losses.
fn random(compare: &mut Compare, dice: &mut Dice) {
    let mut object = dice.pick(&["rb", "fc", "rs", "rs", "s", "s", "s", "r", "r", "r"]);
    let mut left = dice.pick(&[5, 20, 60, 200, 400]);
    let mut way: fn(&mut Dice, &str, &str) -> String = dice.pick(&[call, call, crowding, flowing]);
    let mut start = vec![first(dice, object)];
    if dice.one_in(3) {
        (object, way, start) = ("s", losing, crowded(dice));
        left = dice.pick(&[5, 10, 20, 40, 200]);
    }
    let found = compare.sequence(&start, |state| {
        left -= 1;
        (left > 0 && state != "-").then(|| way(dice, object, state))
    });
    if let Some((lines, _)) = found {
        fail(compare, lines);
    }
}

fn main() {
    let args: Vec<String> = std::env::args().collect();
    let [_, port, oracle, seconds, seed] = &args[..] else {
        eprintln!("usage: drive PORT ORACLE SECONDS SEED");
        std::process::exit(2)
    };
    let (seconds, seed): (u64, u64) = (seconds.parse().expect("SECONDS"), seed.parse().expect("SEED"));
    let mut compare = Compare {
        port: Side::start(port),
        oracle: Side::start(oracle),
        calls: BTreeMap::new(),
        refused: BTreeMap::new(),
        rows: BTreeMap::new(),
        joinings: Joinings::default(),
        compared: 0,
    };
    exhaustive(&mut compare);
    let (began, mut told) = (Instant::now(), Instant::now());
    let mut dice = Dice(seed.wrapping_mul(0x9e37_79b9_7f4a_7c15) | 1);
    while began.elapsed() < Duration::from_secs(seconds) {
        random(&mut compare, &mut dice);
        if told.elapsed() > Duration::from_secs(5) {
            told = Instant::now();
            eprintln!(
                "{:>5} s of {seconds}, {} compared",
                began.elapsed().as_secs(),
                compare.compared
            );
        }
    }
    report(&compare);
    println!("no difference outside the rows");
}
