//! The calls that are tried: every short sequence over small alphabets, and random ones around every boundary.

use crate::rows::field;
use crate::rows::ranges;

pub const M: u64 = (1 << 62) - 1;
pub const TOP: u64 = u64::MAX;

/// A small generator of numbers (xorshift), so that a seed gives the same run everywhere.
pub struct Dice(pub u64);

impl Dice {
    pub fn next(&mut self) -> u64 {
        self.0 ^= self.0 << 13;
        self.0 ^= self.0 >> 7;
        self.0 ^= self.0 << 17;
        self.0
    }

    pub fn below(&mut self, n: u64) -> u64 {
        self.next() % n.max(1)
    }

    pub fn one_in(&mut self, n: u64) -> bool {
        self.below(n) == 0
    }

    pub fn pick<T: Clone>(&mut self, from: &[T]) -> T {
        from[self.below(from.len() as u64) as usize].clone()
    }

    /// A number near one of some places: at it, one below, one above, a little off.
    pub fn near(&mut self, places: &[u64]) -> u64 {
        let at = self.pick(places);
        match self.below(6) {
            0 => at.saturating_sub(1),
            1 => at.saturating_add(1),
            2 => at.saturating_sub(self.below(9)),
            3 => at.saturating_add(self.below(9)),
            _ => at,
        }
    }
}

/// Small alphabets, and a first call for each: every sequence of up to `depth` calls is tried.
pub fn alphabets() -> Vec<(&'static str, usize, Vec<&'static str>)> {
    vec![
        (
            "rb.new 3 x0102030405",
            4,
            vec![
                "rb.consume 0",
                "rb.consume 2",
                "rb.consume 6",
                "rb.split 0 l",
                "rb.split 2 l",
                "rb.split 2 r",
                "rb.split 5 r",
                "rb.split 6 l",
                "rb.off",
                "rb.max_off",
                "rb.len",
                "rb.is_empty",
            ],
        ),
        (
            "fc.new 16 17 24",
            4,
            vec![
                "fc.add_consumed 0",
                "fc.add_consumed 8",
                "fc.add_consumed 1",
                "fc.commit 100",
                "fc.autotune 119 10",
                "fc.autotune 120 10",
                "fc.autotune 99 1",
                "fc.lower_bound 20",
                "fc.lower_bound 30",
                "fc.should_update",
                "fc.next",
                "fc.window",
                "fc.max_data",
            ],
        ),
        (
            "rs.new 2",
            4,
            vec![
                "rs.insert 0 0",
                "rs.insert 1 2",
                "rs.insert 2 4",
                "rs.insert 5 5",
                "rs.insert 6 8",
                "rs.push_item 4",
                "rs.remove_until 0",
                "rs.remove_until 1",
                "rs.remove_until 5",
                "rs.contains 2",
                "rs.last",
                "rs.eq 1 2",
                "rs.iter",
            ],
        ),
        (
            "rs.new 4",
            5,
            vec![
                "rs.insert 0 0",
                "rs.insert 2 3",
                "rs.insert 5 5",
                "rs.insert 7 9",
                "rs.insert 11 12",
                "rs.insert 1 8",
                "rs.remove_until 2",
                "rs.remove_until 8",
            ],
        ),
        (
            "s.new 6 8",
            4,
            vec![
                "s.write x 0",
                "s.write x 1",
                "s.write x010203 0",
                "s.write x0405 1",
                "s.emit 0",
                "s.emit 2",
                "s.emit 9",
                "s.ack 0 0",
                "s.ack_and_drop 0 2",
                "s.ack 2 1",
                "s.ack_and_drop 0 0",
                "s.retransmit 0 2",
                "s.retransmit 1 0",
                "s.retransmit 1 3",
                "s.reset",
                "s.stop 7",
                "s.shutdown",
                "s.update_max_data 9",
                "s.get",
            ],
        ),
        (
            "r.new 6 8 8",
            4,
            vec![
                "r.write 0 x 0",
                "r.write 0 x 1",
                "r.write 0 x0102 0",
                "r.write 1 x030405 0",
                "r.write 3 x0607 1",
                "r.write 5 x 1",
                "r.write 2 x08 0",
                "r.emit 0",
                "r.emit 1",
                "r.emit 9",
                "r.discard 2",
                "r.reset 7 5",
                "r.reset 7 2",
                "r.shutdown",
                "r.commit 100",
                "r.autotune 101 10",
                "r.readable_len 2",
                "r.get",
            ],
        ),
    ]
}

pub fn bytes(dice: &mut Dice, n: u64) -> String {
    if n == 0 {
        "x".into()
    } else {
        format!("p{n}:{}", dice.below(250))
    }
}

/// Mostly 0, now and then a number that no stream reaches.
fn odd(dice: &mut Dice) -> u64 {
    if dice.one_in(8) {
        dice.pick(&[M, TOP])
    } else {
        0
    }
}

fn chunk_call(dice: &mut Dice) -> String {
    match dice.below(6) {
        0 | 1 => format!("rb.consume {}", dice.near(&[0, 0, 1, 20, 40, TOP])),
        2 | 3 => format!("rb.split {} {}", dice.near(&[0, 20, 40, TOP]), dice.pick(&["l", "r"])),
        _ => dice.pick(&["rb.off", "rb.max_off", "rb.len", "rb.is_empty"]).into(),
    }
}

fn window_call(dice: &mut Dice, state: &str) -> String {
    let at = |name: &str| field(state, name).unwrap_or(0);
    match dice.below(9) {
        0 | 1 => format!("fc.add_consumed {}", dice.near(&[0, at("window") / 2, at("limit"), M, TOP])),
        2 => format!("fc.commit {}", dice.near(&[0, 1000, TOP])),
        3 | 4 => {
            let rtt = dice.near(&[0, 10, 1 << 63, TOP]);
            format!(
                "fc.autotune {} {rtt}",
                dice.near(&[0, at("last").saturating_add(rtt.saturating_mul(2)), at("last")])
            )
        }
        5 => format!("fc.lower_bound {}", dice.near(&[0, at("window"), at("maximum"), M, TOP])),
        _ => dice.pick(&["fc.should_update", "fc.next", "fc.window", "fc.max_data"]).into(),
    }
}

fn set_call(dice: &mut Dice, state: &str) -> String {
    let far = if dice.one_in(20) { TOP } else { 0 };
    let start = dice.near(&[far, 0, 20, 60, 150]);
    match dice.below(9) {
        0 if dice.one_in(9) => format!("rs.insert {start} {}", start.saturating_sub(1)),
        0..=3 => format!("rs.insert {start} {}", start.saturating_add(dice.pick(&[0, 0, 1, 2, 9, 40]))),
        4 => format!("rs.push_item {start}"),
        5 => format!("rs.remove_until {}", dice.near(&[far, 0, 5, 30, 150])),
        6 => format!("rs.contains {start}"),
        _ => {
            let (s, e) = ranges(state).pop().unwrap_or((start, TOP));
            dice.pick(&["rs.len".into(), "rs.last".into(), "rs.iter".into(), format!("rs.eq {s} {e}")])
        }
    }
}

fn send_call(dice: &mut Dice, state: &str) -> String {
    let at = |name: &str| field(state, name).unwrap_or(0);
    let mark = |dice: &mut Dice| if dice.one_in(7) { "1" } else { "0" };
    match dice.below(20) {
        0..=4 => {
            let n = if dice.one_in(12) {
                dice.near(&[4096, 8192, 65536])
            } else {
                dice.pick(&[0, 0, 1, 2, 3, 5, 9, 40])
            };
            format!("s.write {} {}", bytes(dice, n), mark(dice))
        }
        5..=9 => format!("s.emit {}", dice.pick(&[0, 1, 2, 3, 7, 20, 1200, 5000, 70000])),
        10..=15 => {
            let (far, long) = (odd(dice), odd(dice));
            let off = dice.near(&[far, 0, at("emitted") / 2, at("emitted")]);
            let len = dice.near(&[long, 1, at("emitted").saturating_sub(off), at("emitted") / 3]);
            format!(
                "s.{} {off} {len}",
                dice.pick(&["ack", "ack_and_drop", "ack_and_drop", "retransmit", "retransmit"])
            )
        }
        16 => format!(
            "s.update_max_data {}",
            dice.near(&[at("limit"), at("limit").saturating_add(5000), M, TOP])
        ),
        17 if dice.one_in(6) => dice
            .pick(&["s.reset", "s.stop 0", "s.stop 18446744073709551615", "s.shutdown"])
            .into(),
        18 => dice
            .pick(&[
                "s.update_blocked_at -",
                "s.update_blocked_at 18446744073709551615",
                "s.write x 1",
                "s.write x 1 @7",
                "s.write x01 0 @0",
                "s.emit 3 @7",
            ])
            .into(),
        _ => "s.get".into(),
    }
}

fn recv_call(dice: &mut Dice, state: &str) -> String {
    let at = |name: &str| field(state, name).unwrap_or(0);
    let mark = |dice: &mut Dice| if dice.one_in(7) { "1" } else { "0" };
    match dice.below(20) {
        0..=8 => {
            let n = if dice.one_in(15) {
                dice.near(&[1200, 4096, 65536])
            } else {
                dice.pick(&[0, 1, 2, 3, 5, 9, 40])
            };
            let ahead = at("off") + dice.below(30);
            let off = dice.near(&[at("off"), at("len"), ahead, at("limit"), at("len") + 50]);
            let off = if dice.one_in(60) { dice.near(&[M, TOP]) } else { off };
            format!("r.write {off} {} {}", bytes(dice, n), mark(dice))
        }
        9..=12 => format!("r.emit {}", dice.pick(&[0, 1, 2, 3, 9, 50, 70000])),
        13 => format!("r.discard {}", dice.pick(&[0, 1, 2, 30, M, TOP])),
        14 => format!("r.commit {}", dice.near(&[0, 1000, TOP])),
        15 => {
            let rtt = dice.pick(&[0, 1, 100, TOP]);
            let due = at("last").saturating_add(rtt.saturating_mul(2));
            format!("r.autotune {} {rtt}", dice.near(&[0, 1000, at("last"), due]))
        }
        16 => format!("r.readable_len {}", dice.pick(&[0, 1, 5, TOP])),
        17 if dice.one_in(5) => {
            let far = odd(dice);
            format!(
                "r.reset {} {}",
                dice.pick(&[0, 7, TOP]),
                dice.near(&[at("len"), at("len"), at("limit"), far])
            )
        }
        18 if dice.one_in(8) => "r.shutdown".into(),
        18 if dice.one_in(3) => format!("r.fc.lower_bound {}", dice.near(&[90, at("maximum"), M, TOP])),
        18 if dice.one_in(9) => format!("r.fc.add_consumed {}", dice.near(&[3, M - at("consumed").min(M)])),
        18 => dice.pick(&["r.emit 3 @9", "r.write 0 x01 0 @9", "r.write 0 x 1 @0"]).into(),
        _ => "r.get".into(),
    }
}

/// The next random call of an object, by the state that it is in.
pub fn call(dice: &mut Dice, object: &str, state: &str) -> String {
    match object {
        "rb" => chunk_call(dice),
        "fc" => window_call(dice, state),
        "rs" => set_call(dice, state),
        "s" => send_call(dice, state),
        _ => recv_call(dice, state),
    }
}

/// The next call of a sequence that fills the tables of 64: many short chunks, many separate ranges.
pub fn crowding(dice: &mut Dice, object: &str, state: &str) -> String {
    let at = |name: &str| field(state, name).unwrap_or(0);
    let full = state.matches('~').count() == 64 && !dice.one_in(4);
    match (object, dice.below(10)) {
        ("s", 0) => {
            let n = if dice.one_in(4) { dice.near(&[4096, 8192]) } else { 200 };
            format!("s.write {} 0", bytes(dice, n))
        }
        ("s", 1..=4) if !full => format!("s.write {} 0", bytes(dice, 1)),
        ("s", 5) => format!("s.emit {}", dice.pick(&[1, 2, 200])),
        ("s", 1..=8) => format!(
            "s.{} {} 1",
            dice.pick(&["ack", "ack", "ack_and_drop", "retransmit"]),
            2 * dice.below(at("emitted") / 2 + 1)
        ),
        ("r", 0..=7) => format!("r.write {} {} 0", at("off") + 1 + 2 * dice.below(70), bytes(dice, 1)),
        ("r", 8) if dice.one_in(3) => format!("r.write {} x 1", at("len") + dice.below(3)),
        ("r", 8) => {
            let (n, ahead) = (dice.pick(&[1, 2, 30]), dice.below(140));
            let off = dice.pick(&[at("off") + ahead, at("fin").saturating_sub(n)]);
            format!("r.write {off} {} {}", bytes(dice, n), dice.pick(&["0", "0", "1"]))
        }
        ("rs", 0..=7) => {
            let start = 3 * dice.below(200);
            format!("rs.insert {start} {}", start + dice.below(2))
        }
        _ => call(dice, object, state),
    }
}

/// The next call of a sequence in which the stream moves on, so that the arena goes round: bytes are written, sent and acked, or
/// come and are handed out.
pub fn flowing(dice: &mut Dice, object: &str, state: &str) -> String {
    let at = |name: &str| field(state, name).unwrap_or(0);
    let n = dice.pick(&[1, 2, 3, 7, 30, 100, 1200, 5000, 30000]);
    match (object, dice.below(9)) {
        ("s", 0..=2) => format!("s.write {} 0", bytes(dice, n)),
        ("s", 3 | 4) => format!("s.emit {n}"),
        ("s", 5 | 6) => format!("s.ack_and_drop 0 {}", at("emitted").saturating_sub(dice.pick(&[0, 0, 1, 9]))),
        ("s", 7) => format!("s.update_max_data {}", at("limit").saturating_add(n)),
        ("r", 0..=3) => format!("r.write {} {} 0", dice.near(&[at("off"), at("len")]), bytes(dice, n)),
        ("r", 4..=6) => format!("r.emit {n}"),
        ("r", 7) => format!("r.commit {n}"),
        _ => call(dice, object, state),
    }
}

/// The creation that a random sequence begins with.
pub fn first(dice: &mut Dice, object: &str) -> String {
    let arena = dice.pick(&[1, 2, 8, 40, 140, 300, 4096, 65536]);
    let arena = if dice.one_in(50) { dice.pick(&[0, 65537]) } else { arena };
    match object {
        "rb" => {
            let n = dice.pick(&[0, 1, 40]);
            format!("rb.new {} {}", dice.near(&[0, 7, M - 40, M]), bytes(dice, n))
        }
        "fc" => format!(
            "fc.new {} {} {}",
            dice.near(&[0, 16, 1000, M, M, TOP]),
            dice.near(&[0, 16, 16, M, M, TOP]),
            dice.near(&[0, 24, 24, M, M, TOP])
        ),
        "rs" => format!("rs.new {}", dice.pick(&[0, 1, 2, 3, 4, 5, 8, 63, 64, 64, 65])),
        "s" => format!("s.new {} {arena}", dice.near(&[0, 1, 20, 5000, 2 * arena, M, TOP])),
        _ => format!(
            "r.new {} {} {arena}",
            dice.near(&[0, 1, 20, 300, 2 * arena, M, TOP]),
            dice.near(&[0, 20, 5000, 2 * arena, M, TOP])
        ),
    }
}
