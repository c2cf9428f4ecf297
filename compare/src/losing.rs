//! The calls by which a send buffer joins its chunks (docs/RULES.md, 4.10): a start with about 64 of them, and random calls that make them
//! many time and again, and lose, send and ack them in part.

use crate::calls::bytes;
use crate::calls::call;
use crate::calls::Dice;
use crate::calls::M;
use crate::rows::chunks;
use crate::rows::field;
use crate::rows::is_set;

/// A loss whose end lies in one of the chunks, or at its end; mostly of one byte, the first or second of a chunk that was sent whole.
fn loss(dice: &mut Dice, held: &[(u64, u64, u64)], emitted: u64) -> String {
    let sent: Vec<_> = held.iter().filter(|c| c.2 == c.1 && c.1 > 1).collect();
    if !sent.is_empty() && !dice.one_in(3) {
        let (off, len, _) = dice.pick(&sent);
        return format!("s.retransmit {} 1", off + (*len > 2) as u64);
    }
    let (off, len, _) = if held.is_empty() { (0, 1, 0) } else { dice.pick(held) };
    let end = (off + 1 + dice.below(len)).min(emitted);
    let n = dice.pick(&[0, 1, 1, 1, 2, 9, 200]).min(end);
    format!("s.retransmit {} {n}", end - n)
}

/// An ack: of all up to somewhere near the front, now and then up to a chunk's end or to the last byte sent; or of one stretch.
fn ack(dice: &mut Dice, held: &[(u64, u64, u64)], emitted: u64) -> String {
    let (off, len, _) = if held.is_empty() { (0, 1, 0) } else { dice.pick(held) };
    let front = held.first().map_or(0, |c| c.0);
    let ahead = front + dice.pick(&[1, 1, 2, 5, 20]);
    let far = dice.pick(&[off + len, off + len - 1, emitted]);
    let end = if dice.one_in(8) { far } else { ahead }.min(emitted);
    let (even, call) = (2 * dice.below(emitted / 2 + 1), dice.pick(&["ack", "ack_and_drop"]));
    match dice.below(4) {
        0 if dice.one_in(2) => format!("s.{call} {even} 1"),
        0 => format!("s.{call} {off} {}", dice.pick(&[0, 1, len])),
        1 => format!("s.ack 0 {end}"),
        _ => format!("s.ack_and_drop 0 {end}"),
    }
}

/// A call that makes the chunks more: of what was sent single bytes are lost; what was not is sent, or more is written.
fn more_chunks(dice: &mut Dice, held: &[(u64, u64, u64)], emitted: u64) -> String {
    let sent = held.iter().any(|c| c.2 == c.1 && c.1 > 2);
    match dice.below(8) {
        0..=4 if sent => loss(dice, held, emitted),
        0..=2 => format!("s.emit {}", dice.pick(&[1, 9, 70000, 70000])),
        _ => {
            let n = dice.pick(&[1, 1, 1, 1, 2, 3]);
            format!("s.write {} 0", bytes(dice, n))
        }
    }
}

/// The next call of a sequence in which a send buffer has many chunks, and many of them are lost, so that it joins them time and again.
/// Once the stream has ended there may be a new one.
pub fn losing(dice: &mut Dice, object: &str, state: &str) -> String {
    let (held, at) = (chunks(state), |name: &str| field(state, name).unwrap_or(0));
    if held.is_empty() && is_set(state, "fin") && dice.one_in(4) {
        return format!("s.new {M} {}", dice.pick(&[70, 140, 300]));
    }
    if held.len() < 62 && !dice.one_in(5) {
        return more_chunks(dice, &held, at("emitted"));
    }
    match dice.below(20) {
        0..=5 => {
            let n = dice.pick(&[1, 1, 1, 2, 3, 9]);
            format!("s.write {} 0", bytes(dice, n))
        }
        6..=11 => loss(dice, &held, at("emitted")),
        12..=14 => format!("s.emit {}", dice.pick(&[0, 1, 2, 3, 7, 20, 64, 1200, 70000])),
        15..=17 => ack(dice, &held, at("emitted")),
        18 => match dice.below(12) {
            0..=3 => {
                let n = dice.near(&[0, 200, 4096, 8192, 20000]);
                format!("s.write {} {}", bytes(dice, n), dice.pick(&["0", "0", "0", "0", "0", "1"]))
            }
            4 => "s.write x 1".into(),
            5..=8 => format!("s.update_max_data {}", at("limit").saturating_add(300)),
            _ => "s.get".into(),
        },
        _ => call(dice, object, state),
    }
}

/// The calls that a losing sequence begins with: a creation, and then about 64 chunks. They come of as many writes, of which none, some or
/// all are sent; or of one, of which every other byte is lost. Or every other byte is acked, and there are about 64 acked ranges.
pub fn crowded(dice: &mut Dice) -> Vec<String> {
    let arena = dice.pick(&[65, 70, 128, 140, 200, 300, 300, 1000, 4096, 65536]);
    let limit = dice.pick(&[arena, 3 * arena, M, M, M]);
    let mut all = vec![format!("s.new {limit} {arena}")];
    let short = dice.pick(&[0, 0, 0, 0, 1, 9]);
    if arena >= 128 && dice.one_in(2) {
        let n = dice.pick(&[128, 129, 130, 140, 300]).min(arena);
        all.extend([format!("s.write {} 0", bytes(dice, n)), "s.emit 70000".into()]);
        let what = if n > 128 && dice.one_in(5) { "ack" } else { "retransmit" };
        let times = if what == "ack" { 64 } else { 63 };
        all.extend((0..times - short).map(|i| format!("s.{what} {} 1", 2 * i)));
        return all;
    }
    for i in 0..64 - short {
        let n = if i == 40 || arena > 190 { dice.pick(&[1, 2, 3, 3]) } else { 1 };
        all.push(format!("s.write {} 0", bytes(dice, if arena == 65 { n.min(2) } else { n })));
    }
    all.push(format!("s.emit {}", dice.pick(&[0, 1, 30, 63, 70000, 70000])));
    all
}
