//! The words of a state line, and the rows of docs/DIFFERENCES.md: in which one a call stands.

use crate::calls::TOP;

/// A number of a state line: `off=12` of `.. off=12 ..`.
pub fn field(state: &str, name: &str) -> Option<u64> {
    state
        .split(' ')
        .find_map(|w| w.strip_prefix(name)?.strip_prefix('='))
        .and_then(|v| v.parse().ok())
}

pub fn is_set(state: &str, name: &str) -> bool {
    state.contains(&format!(" {name}=")) && !state.contains(&format!(" {name}=-"))
}

/// The ranges of a range set's state line; none of another object's.
pub fn ranges(state: &str) -> Vec<(u64, u64)> {
    let Some(inner) = state.strip_prefix('[').and_then(|s| s.strip_suffix(']')) else {
        return Vec::new();
    };
    let pair = |w: &str| w.split_once('-').and_then(|(a, b)| Some((a.parse().ok()?, b.parse().ok()?)));
    inner.split(',').filter_map(pair).collect()
}

/// The chunks of a buffer's state line, or the one chunk of a chunk's: offset, length, consumed part.
pub fn chunks(state: &str) -> Vec<(u64, u64, u64)> {
    let inner = state.strip_prefix("chunks=[").map_or(state, |s| s.split(']').next().unwrap());
    let chunk = |w: &str| {
        let (off, rest) = w.split_once('+')?;
        let (len, consumed) = rest.split_once('~')?;
        Some((off.parse().ok()?, len.parse().ok()?, consumed.parse().ok()?))
    };
    inner.split(',').filter_map(chunk).collect()
}

/// What the comparison knows of quiche's range set that no answer shows: which of its two forms it has, and its capacity.
#[derive(Default)]
pub struct Form {
    pub tree: bool,
    pub capacity: u64,
}

impl Form {
    /// What it is after a call that quiche made too, by the state that the call left.
    pub fn step(&mut self, line: &str, after: &str) {
        if let Some(capacity) = line.strip_prefix("rs.new ") {
            *self = Form {
                tree: false,
                capacity: capacity.parse().unwrap_or(0),
            };
        } else if line.starts_with("rs.") {
            let held = ranges(after).len();
            self.tree = if self.tree { held > 2 } else { held == 4 };
        }
    }
}

/// The row of docs/DIFFERENCES.md that a call stands in, by the port's state before it and its answer; and whether the two
/// objects are the same after it, so that the sequence can go on.
pub fn row(line: &str, before: &str, said: &str, after: &str, form: &Form) -> Option<(&'static str, bool)> {
    let words: Vec<&str> = line.split(' ').collect();
    let n = |i: usize| words.get(i).and_then(|w| w.parse::<u64>().ok()).unwrap_or(0);
    let (call, held) = (words[0], ranges(before));
    let inserts = match call {
        "rs.insert" => Some((n(1), n(2))),
        "rs.push_item" => Some((n(1), n(1).saturating_add(1))),
        _ => None,
    };
    if let Some((s, e)) = inserts {
        let joins = held.iter().any(|r| r.0 <= e && s <= r.1);
        let lowest = held.first().is_some_and(|r| e < r.0);
        if said == "ok" && !form.tree && !joins && lowest && held.len() as u64 == form.capacity {
            return Some(("D-11 a full inline set given a lowest range", false));
        }
    }
    match call {
        "rs.remove_until" if form.tree && n(1) == TOP => Some(("D-10 remove_until(2^64 - 1)", false)),
        "rs.remove_until" if !form.tree && ranges(after).first().is_some_and(|r| r.0 == r.1) => {
            Some(("D-12 the inline form drops an empty first range", false))
        }
        "rs.last" if held.last().is_some_and(|r| r.1 == 0) => Some(("D-13 last of 0..0", true)),
        "fc.should_update" | "r.get" if field(before, "consumed") > field(before, "limit") => {
            Some(("D-20 consumed above the limit", true))
        }
        "r.reset" if said == "no 4" => Some(("D-30 a reset over the limit", true)),
        "r.write" if said == "ok" && words[2] == "x" && words[3] == "0" && Some(n(1)) > field(before, "len") => {
            Some(("D-31 a frame without bytes or mark ahead of len", true))
        }
        "r.reset"
            if said.starts_with("ok") && is_set(before, "fin") && !is_set(before, "err") && field(before, "drain") == Some(0) =>
        {
            Some(("D-32 a first reset with F known", false))
        }
        _ => None,
    }
}

/// The number of the refusal that an answer is, 0 for a success.
pub fn refusal(said: &str) -> u64 {
    let number = said.strip_prefix("no ").and_then(|code| code.split(' ').next());
    number.map_or(0, |n| n.parse().unwrap_or(0))
}

/// A refusal that quiche does not have.
pub fn added(said: &str) -> bool {
    ["no 1", "no 5", "no 6", "no 7", "no 10"].contains(&said)
}
