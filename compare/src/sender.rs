//! The send buffer as docs/RULES.md has it (sections 1, 2, 4 and 5), byte by byte: what each `s.` call of a sequence answers, and the
//! whole state after it, as the call script writes them.
//!
//! This is a second reading of the rules, written from their text alone. It has no table of chunks: every byte that is held says
//! whether it is still to be sent, and whether a chunk begins with it. From the first joining on (4.10) it is the only judge, since
//! quiche never joins. Of an arena that is lent by `@N` only the length counts.

use crate::script::bytes_text;
use crate::script::chunk_text;
use crate::script::option;
use crate::script::parsed;
use crate::script::ranges_text;
use crate::script::Call;

const M: u64 = (1 << 62) - 1;

/// The most chunks, and the most acked ranges (1.2).
const TABLE: usize = 64;

/// How long a chunk is cut at most (4.2).
const PIECE: usize = 4096;

/// What a success says, or the refusal.
type Said = Result<String, String>;

/// Refused by this number if the test holds.
fn refused(test: bool, number: u64) -> Result<(), String> {
    if test {
        return Err(format!("no {number}"));
    }
    Ok(())
}

/// A byte that was written and is still held.
#[derive(Clone, Copy)]
struct Byte {
    value: u8,
    /// It is still to be sent: it lies behind the consumed part of its chunk.
    to_send: bool,
    /// A chunk begins with it.
    begins: bool,
}

#[derive(Clone, Default)]
struct Buffer {
    arena: u64,
    /// The bytes of the stream from b up to `off`.
    bytes: Vec<Byte>,
    off: u64,
    /// The send position.
    pos: usize,
    /// The largest emitted offset.
    emitted: u64,
    limit: u64,
    blocked: Option<u64>,
    /// F, once it is known.
    fin: Option<u64>,
    acked: Vec<(u64, u64)>,
    shut: bool,
    /// The code of a stop.
    err: Option<u64>,
    /// The call under way has joined chunks.
    joins: bool,
}

impl Buffer {
    /// 4.1
    fn new(limit: u64, arena: u64) -> Result<Buffer, String> {
        refused(limit > M || arena == 0 || arena > 65_536, 10)?;
        Ok(Buffer {
            limit,
            arena,
            ..Buffer::default()
        })
    }

    /// b
    fn begin(&self) -> u64 {
        self.off - self.bytes.len() as u64
    }

    /// The held bytes of a range of the stream.
    fn range(&mut self, from: u64, to: u64) -> &mut [Byte] {
        let b = self.begin();
        let index = |o: u64| (o.clamp(b, self.off) - b) as usize;
        let (from, to) = (index(from), index(to));
        &mut self.bytes[from..to.max(from)]
    }

    /// Where each chunk begins and ends.
    fn chunks(&self) -> Vec<(u64, u64)> {
        let held = (self.begin()..).zip(&self.bytes);
        let begins: Vec<u64> = held.filter(|(_, byte)| byte.begins).map(|(o, _)| o).collect();
        let ends = begins.iter().skip(1).chain([&self.off]);
        begins.iter().zip(ends).map(|(b, e)| (*b, *e)).collect()
    }

    fn front(&self) -> u64 {
        let from = self.chunks().get(self.pos).map_or(self.off, |c| c.0);
        let mut held = (self.begin()..).zip(&self.bytes);
        held.find(|(o, byte)| *o >= from && byte.to_send).map_or(self.off, |(o, _)| o)
    }

    /// The contiguous ack.
    fn contiguous(&self) -> u64 {
        self.acked.first().map_or(0, |r| if r.0 == 0 { r.1 } else { 0 })
    }

    fn buffered(&self) -> usize {
        self.bytes.iter().filter(|byte| byte.to_send).count()
    }

    /// 4.2
    fn write(&mut self, input: &[u8], mark: bool) -> Said {
        let (n, left) = (input.len() as u64, self.limit - self.off);
        let (m, mark) = (self.off + n, mark && n <= left);
        let accepted = if m <= self.contiguous() { 0 } else { n.min(left) };
        self.err.map_or(Ok(()), |code| Err(format!("no 2 {code}")))?;
        refused(self.fin.is_some_and(|f| m > f || m == f && !mark), 3)?;
        refused(accepted + self.bytes.len() as u64 > self.arena, 5)?;
        self.bytes
            .extend(input[..accepted as usize].iter().enumerate().map(|(i, value)| Byte {
                value: *value,
                to_send: true,
                begins: i % PIECE == 0,
            }));
        self.off += accepted;
        self.fin = if mark { Some(m) } else { self.fin };
        self.join()?;
        Ok(format!("ok {accepted}"))
    }

    /// 4.10
    fn join(&mut self) -> Result<(), String> {
        if self.chunks().len() <= TABLE {
            return Ok(());
        }
        for i in 1..self.bytes.len() {
            let stays = self.bytes[i - 1].to_send && !self.bytes[i].to_send;
            self.bytes[i].begins &= stays;
        }
        self.pos = 0;
        self.joins = true;
        refused(self.chunks().len() > TABLE, 6)
    }

    /// 4.3
    fn emit(&mut self, room: u64) -> Said {
        let front = self.front();
        let mut out = Vec::new();
        for byte in self
            .range(front, front.saturating_add(room))
            .iter_mut()
            .take_while(|byte| byte.to_send)
        {
            byte.to_send = false;
            out.push(byte.value);
        }
        let reached = front + out.len() as u64;
        self.emitted = self.emitted.max(reached);
        if !out.is_empty() {
            // The chunks that end at or below the offset reached were used up.
            self.pos = self.chunks().iter().filter(|c| c.1 <= reached).count();
        }
        let mark = self.fin == Some(reached);
        Ok(format!("ok {} {} {}", out.len(), mark as u8, bytes_text(&out)))
    }

    /// The end of an acked or lost range: refused 7 if it was never sent.
    fn sent(&self, from: u64, n: u64) -> Result<u64, String> {
        refused(u128::from(from) + u128::from(n) > self.emitted.into(), 7)?;
        Ok(from + n)
    }

    /// A range joins the acked set (5.2, 5.3).
    fn insert(&mut self, from: u64, to: u64) -> Result<(), String> {
        let (one, others): (Vec<(u64, u64)>, _) = self.acked.iter().partition(|r| r.0 <= to && r.1 >= from);
        refused(one.is_empty() && others.len() == TABLE, 6)?;
        let from = one.iter().map(|r| r.0).fold(from, u64::min);
        let to = one.iter().map(|r| r.1).fold(to, u64::max);
        self.acked = others;
        self.acked.push((from, to));
        self.acked.sort();
        Ok(())
    }

    /// 4.4
    fn ack(&mut self, from: u64, n: u64) -> Said {
        let to = self.sent(from, n)?;
        self.insert(from, to)?;
        Ok("ok".into())
    }

    /// 4.4
    fn ack_and_drop(&mut self, from: u64, n: u64) -> Said {
        self.ack(from, n)?;
        let acked = self.contiguous();
        let (all, b) = (self.chunks(), self.begin());
        let gone: Vec<_> = all.iter().take_while(|c| from <= acked && c.1 <= acked).collect();
        let until = gone.last().map_or(b, |c| c.1);
        let dropped = self.bytes.drain(..(until - b) as usize);
        let unsent = dropped.filter(|byte| byte.to_send).count();
        self.pos = self.pos.saturating_sub(gone.len());
        Ok(format!("ok {unsent}"))
    }

    /// 4.5. A byte that was sent and lies in the range is to be sent again; chunks end where the range does.
    fn retransmit(&mut self, from: u64, n: u64) -> Said {
        let to = self.sent(from, n)?;
        if self.bytes.is_empty() || to <= self.contiguous() {
            return Ok("ok 0".into());
        }
        if let Some(byte) = self.range(to, to + 1).first_mut() {
            byte.begins = true;
        }
        let first = self.chunks().iter().position(|c| c.0 < to && c.1 >= from);
        self.pos = self.pos.min(first.unwrap_or(self.pos));
        let before = self.buffered();
        self.range(from, to).iter_mut().for_each(|byte| byte.to_send = true);
        let moved = self.buffered() - before;
        self.join()?;
        Ok(format!("ok {moved}"))
    }

    /// 4.6
    fn reset(&mut self) -> Said {
        let (old, end) = (self.off, self.front().max(self.emitted));
        self.fin = Some(end);
        self.off = end;
        self.bytes.clear();
        self.pos = 0;
        self.insert(0, end)?;
        Ok(format!("ok {} {}", self.emitted, old - end))
    }

    fn stop(&mut self, code: u64) -> Said {
        refused(self.err.is_some(), 8)?;
        self.err = Some(code);
        self.reset()
    }

    fn shutdown(&mut self) -> Said {
        refused(self.shut, 8)?;
        self.shut = true;
        self.reset()
    }

    /// 4.7
    fn update_max_data(&mut self, n: u64) -> Said {
        refused(n > M, 1)?;
        self.limit = self.limit.max(n);
        Ok("ok".into())
    }

    fn update_blocked_at(&mut self, n: Option<u64>) -> Said {
        self.blocked = n;
        Ok("ok".into())
    }

    /// 4.8, 4.9
    fn get(&self) -> Said {
        let cap = self
            .err
            .map_or((self.limit - self.off).to_string(), |code| format!("(no 2 {code})"));
        let complete = self.fin.is_some_and(|f| self.acked == [(0, f)]);
        Ok(format!(
            "ok off_back={} off_front={} max_off={} is_fin={} is_complete={} is_stopped={} is_shutdown={} is_empty={} ack_off={} cap={cap} bufs_count={} buffered_bytes={} blocked_at={}",
            self.off,
            self.front(),
            self.limit,
            (self.fin == Some(self.off)) as u8,
            complete as u8,
            self.err.is_some() as u8,
            self.shut as u8,
            self.bytes.is_empty() as u8,
            self.contiguous(),
            self.chunks().len(),
            self.buffered(),
            option(self.blocked)
        ))
    }

    fn call(&mut self, call: &Call) -> Said {
        refused(call.arena.is_some_and(|lent| lent != self.arena), 10)?;
        let n = &call.n;
        match call.call {
            "write" => self.write(&call.bytes, call.yes),
            "emit" => self.emit(n[0]),
            "update_max_data" => self.update_max_data(n[0]),
            "update_blocked_at" => self.update_blocked_at(call.first()),
            "ack" => self.ack(n[0], n[1]),
            "ack_and_drop" => self.ack_and_drop(n[0], n[1]),
            "retransmit" => self.retransmit(n[0], n[1]),
            "reset" => self.reset(),
            "stop" => self.stop(n[0]),
            "shutdown" => self.shutdown(),
            _ => self.get(),
        }
    }

    fn text(&self) -> String {
        let chunk = |(from, to): (u64, u64)| {
            let (b, unsent) = (self.begin(), |byte: &&Byte| byte.to_send);
            let unsent = self.bytes[(from - b) as usize..(to - b) as usize]
                .iter()
                .filter(unsent)
                .count();
            chunk_text(from, to - from, to - from - unsent as u64)
        };
        let chunks: Vec<String> = self.chunks().into_iter().map(chunk).collect();
        let held: Vec<u8> = self.bytes.iter().map(|byte| byte.value).collect();
        format!(
            "chunks=[{}] held={} pos={} off={} emitted={} tosend={} limit={} blocked={} fin={} acked={} shut={} err={}",
            chunks.join(","),
            bytes_text(&held),
            self.pos,
            self.off,
            self.emitted,
            self.buffered(),
            self.limit,
            option(self.blocked),
            option(self.fin),
            ranges_text(self.acked.iter().copied()),
            self.shut as u8,
            option(self.err)
        )
    }
}

/// The send buffer of a sequence, none before its creation.
#[derive(Default)]
pub struct Sender {
    buffer: Option<Buffer>,
    /// The call that was the first to join since the creation.
    pub joined: Option<&'static str>,
    /// The last call joined.
    pub joined_now: bool,
}

impl Sender {
    /// Makes an `s.` call of the script; the line that it must be answered. A call that is refused changes nothing.
    pub fn line(&mut self, line: &str) -> String {
        let words: Vec<&str> = line.split(' ').collect();
        let call = parsed(words[0], &words[1..]).expect("a call of the script");
        let made = match (call.call, &self.buffer) {
            ("new", _) => Buffer::new(call.n[0], call.n[1]).map(|buffer| ("ok".to_string(), buffer)),
            (_, None) => return "- | -".into(),
            (_, Some(before)) => {
                let mut next = before.clone();
                next.joins = false;
                next.call(&call).map(|said| (said, next))
            }
        };
        self.joined_now = made.as_ref().is_ok_and(|(_, next)| next.joins);
        let said = match made {
            Ok((said, next)) => {
                let before = self.joined.filter(|_| call.call != "new");
                self.joined = before.or(self.joined_now.then_some(call.call));
                self.buffer = Some(next);
                said
            }
            Err(no) => no,
        };
        let state = self.buffer.as_ref().map_or("-".into(), Buffer::text);
        format!("{said} | {state}")
    }
}
