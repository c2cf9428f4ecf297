//! What the port owes where quiche cannot say it, read off the text of the state before the call: which refusal docs/RULES.md lays
//! down, and what a row of docs/DIFFERENCES.md has in its column "here".
//!
//! This is a second reading of the rules, in whole numbers and over lists, without the code's tables and steps: a refusal that comes
//! too early, too late or in the wrong order is seen here, and a row that the port does not keep to. The send buffer's calls are not here:
//! sender.rs has all of them, with their answers and states.

use crate::rows;
use crate::rows::field;
use crate::rows::is_set;
use crate::rows::ranges;

const M: u128 = (1 << 62) - 1;

/// The chunks of a state: offset, length, consumed part.
fn chunks(state: &str) -> Vec<(u128, u128, u128)> {
    let wide = |c: (u64, u64, u64)| (c.0.into(), c.1.into(), c.2.into());
    rows::chunks(state).into_iter().map(wide).collect()
}

/// The first test that holds gives its number; 0 is a success.
fn first(tests: &[(bool, u64)]) -> u64 {
    tests.iter().find(|t| t.0).map_or(0, |t| t.1)
}

/// The call, its numbers (a word of bytes counts as their length), and the state before it.
struct Asked<'a> {
    n: Vec<u128>,
    state: &'a str,
    /// The arena of the creation, and the one that is lent.
    arena: u128,
    lent: u128,
}

impl Asked<'_> {
    fn at(&self, name: &str) -> u128 {
        field(self.state, name).unwrap_or(0).into()
    }

    fn fin(&self) -> Option<u128> {
        field(self.state, "fin").map(u128::from)
    }

    /// How many chunks a frame would leave.
    fn chunks_left(&self, start: u128, end: u128, marked: bool) -> usize {
        let held = chunks(self.state);
        if start == end {
            let ends = held.iter().any(|c| c.0 + c.1 == end);
            return held.len() + (marked && self.fin().is_none() && !ends) as usize;
        }
        let (mut from, mut runs, mut replaced) = (start.max(self.at("off")), 0, 0);
        for c in &held {
            let (a, b) = (c.0 + c.2, c.0 + c.1);
            runs += (from < a.min(end)) as usize;
            replaced += (from < end && a == end && b == end) as usize;
            from = from.max(b);
        }
        held.len() + runs + (from < end) as usize - replaced
    }

    fn recv_write(&self) -> u64 {
        let (start, end, marked) = (self.n[0], self.n[0] + self.n[1], self.n[2] == 1);
        let keeps = self.at("drain") == 0;
        let differs = self.fin().is_some_and(|f| end > f || marked && end != f);
        first(&[
            (self.lent != self.arena, 10),
            (end > M, 1),
            (end > self.at("limit"), 4),
            (differs || marked && end < self.at("len"), 3),
            (keeps && start < end && end > self.at("off") + self.arena, 5),
            (
                keeps && end <= self.at("limit") && self.chunks_left(start, end, marked) > 64,
                6,
            ),
        ])
    }

    /// Does the first chunk start at `off`, and how many bytes adjoin from there on?
    fn ready(&self) -> (bool, u128) {
        let (held, off) = (chunks(self.state), self.at("off"));
        let end = held.iter().fold(off, |end, c| if c.0 + c.2 == end { c.0 + c.1 } else { end });
        (held.first().is_some_and(|c| c.0 + c.2 == off), end.saturating_sub(off))
    }

    fn hand_out(&self) -> u64 {
        let (ready, bytes) = self.ready();
        first(&[
            (self.lent != self.arena, 10),
            (!ready, 8),
            (is_set(self.state, "err"), 9),
            (self.at("consumed") + self.n[0].min(bytes) > M, 1),
        ])
    }

    fn recv_reset(&self) -> u64 {
        let size = self.n[1];
        first(&[
            (size > M, 1),
            (self.fin().is_some_and(|f| f != size) || size < self.at("len"), 3),
            (is_set(self.state, "err"), 0),
            (size > self.at("limit"), 4),
        ])
    }
}

/// The number of a word: bytes count as their length.
fn number(word: &str) -> u128 {
    let pattern = word.strip_prefix('p').and_then(|w| w.split_once(':')).map(|w| w.0);
    match word.strip_prefix('x') {
        Some(hex) => hex.len() as u128 / 2,
        None => pattern.unwrap_or(word).parse().unwrap_or(0),
    }
}

/// A call with its name.
fn asked<'a>(line: &'a str, state: &'a str, arena: u64) -> (&'a str, Asked<'a>) {
    let mut words: Vec<&str> = line.split(' ').collect();
    let call = words.remove(0);
    let lent = words.last().and_then(|w| w.strip_prefix('@')?.parse().ok());
    let asked = Asked {
        n: words.iter().map(|w| number(w)).collect(),
        state,
        arena: arena.into(),
        lent: lent.unwrap_or(arena).into(),
    };
    (call, asked)
}

/// The number of the refusal that a call is owed, 0 for a success; `arena` is the length at creation. No call of a send buffer.
pub fn owed(line: &str, state: &str, arena: u64) -> u64 {
    let (call, asked) = asked(line, state, arena);
    if state == "-" && !call.ends_with(".new") {
        return 0;
    }
    let n = &asked.n;
    let chunk = chunks(state).first().copied().unwrap_or((0, 0, 0));
    match call {
        "rb.new" => first(&[(n[0] + n[1] > M, 1)]),
        "rb.consume" => first(&[(chunk.2 + n[0] > chunk.1, 1)]),
        "rb.split" => first(&[(n[0] > chunk.1, 1)]),
        "fc.new" => first(&[(n.iter().any(|n| *n > M), 10)]),
        "fc.add_consumed" | "r.fc.add_consumed" => first(&[(asked.at("consumed") + n[0] > M, 1)]),
        "fc.lower_bound" | "r.fc.lower_bound" => first(&[(n[0] > M, 1)]),
        "rs.new" => first(&[(n[0] == 0 || n[0] > 64, 10)]),
        "rs.insert" => first(&[(n[0] > n[1], 1)]),
        "rs.push_item" => first(&[(n[0] == u64::MAX.into(), 1)]),
        "r.new" => first(&[(n[0] > M || n[1] > M || n[2] == 0 || n[2] > 65536, 10)]),
        "r.write" => asked.recv_write(),
        "r.emit" | "r.discard" => asked.hand_out(),
        "r.reset" => asked.recv_reset(),
        "r.shutdown" => first(&[(asked.at("drain") == 1, 8)]),
        _ => 0,
    }
}

fn set_text(set: impl Iterator<Item = (u128, u128)>) -> String {
    let all: Vec<String> = set.map(|(s, e)| format!("{s}-{e}")).collect();
    format!("[{}]", all.join(","))
}

/// All getters of a receive buffer of which more is consumed than the limit: an update is due exactly if half a window is not 0.
fn getters(asked: &Asked) -> String {
    let at = |name| asked.at(name);
    let (ready, bytes) = asked.ready();
    format!(
        "ok off_front={} max_off={} is_fin={} is_draining={} ready={} max_data={} window={} max_data_next={} readable_len={bytes} almost_full={}",
        at("off"),
        at("len"),
        (asked.fin() == Some(at("off"))) as u8,
        at("drain"),
        ready as u8,
        at("limit"),
        at("window"),
        at("consumed") + at("window"),
        (asked.fin().is_none() && at("window") > 1) as u8
    )
}

/// The port's line for a call that stands in a row of docs/DIFFERENCES.md, as the row has it.
pub fn by_row(row: &str, line: &str, state: &str) -> String {
    let (call, asked) = asked(line, state, 0);
    let n = &asked.n;
    let held = || ranges(state).into_iter().map(|r| (u128::from(r.0), u128::from(r.1)));
    match &row[..4] {
        "D-10" => "ok | []".into(),
        "D-11" => {
            let new = (n[0], n.get(1).copied().unwrap_or(n[0] + 1));
            format!("ok | {}", set_text([new].into_iter().chain(held().skip(1))))
        }
        "D-12" => {
            let stays = |r: &(u128, u128)| r.0 > n[0] || r.1 > n[0] + 1;
            let left = held().filter(stays).map(|r| (r.0.max(n[0] + 1), r.1));
            format!("ok | {}", set_text(left))
        }
        "D-13" => format!("ok - | {state}"),
        "D-20" if call == "r.get" => format!("{} | {state}", getters(&asked)),
        "D-20" => format!("ok {} | {state}", (asked.at("window") > 1) as u8),
        "D-30" => format!("no 4 | {state}"),
        "D-31" => format!("ok | {state}"),
        _ => {
            let (code, size, window) = (n[0], n[1], &state[state.find("consumed=").unwrap()..]);
            let (first, second) = (size - asked.at("len"), size - asked.at("off"));
            format!(
                "ok {first} {second} | chunks=[{size}+0~0] kept=x off={size} len={size} fin={size} err={code} drain=0 {window}"
            )
        }
    }
}
