//! The port: the proved buffers under the call script, by way of the static library.
//!
//! It stands on the lowest layer of the Rust binding, where state and arena are apart, so that a wrong arena can be lent.

#[allow(dead_code)]
#[path = "../../bindings/rust/src/raw.rs"]
mod raw;
mod script;

use raw::Answer;
use raw::FlowControlState;
use raw::Number;
use raw::Out;
use raw::RangeBufState;
use raw::RangeSetState;
use raw::RecvBufState;
use raw::SendBufState;
use script::bytes_text;
use script::chunk_text;
use script::option;
use script::ranges_text;
use script::room;
use script::window_text;
use script::Call;
use script::Side;

/// `no` with the refusal's number and its code, or what a success says.
fn told(answer: Answer, success: impl FnOnce(Answer) -> String) -> String {
    match answer.number {
        0 => success(answer),
        2 | 9 => format!("no {} {}", answer.number, answer.first),
        number => format!("no {number}"),
    }
}

fn plain(answer: Answer) -> String {
    told(answer, |_| "ok".into())
}

fn count(answer: Answer) -> String {
    told(answer, |a| format!("ok {}", a.first))
}

fn sizes(answer: Answer) -> String {
    told(answer, |a| format!("ok {} {}", a.first, a.second))
}

/// An arena of so many zero bytes. One longer than the longest there is, 65,536, is made a byte too long and no longer: creation and every
/// call that is lent it refuse it by its length alone, whichever it is (RULES 4.1, 7.1), and no buffer has one of that length.
fn arena(len: u64) -> Vec<u8> {
    vec![0; len.min(65_537) as usize]
}

/// What stands in an output before a call.
const REST: u8 = 0xa5;

/// An output of so many bytes, for a buffer with this arena, which holds no more than the arena's length.
fn output(asked: u64, arena: &[u8]) -> Vec<u8> {
    vec![REST; room(asked, arena.len() as u64)]
}

/// An answer with bytes handed out: behind them the output is to be as it was.
fn handed(answer: Answer, out: &[u8]) -> String {
    let count = if answer.number == 0 { answer.first as usize } else { 0 };
    let said = told(answer, |a| {
        format!("ok {} {} {}", a.first, a.second, bytes_text(&out[..count]))
    });
    if out[count..].iter().any(|b| *b != REST) {
        return format!("{said} and more of the output");
    }
    said
}

/// A write's answer: the arena may have changed only where a chunk has its bytes after it, and not at all by a refusal.
fn kept(said: String, before: &[u8], arena: &[u8], chunks: &[RangeBufState]) -> String {
    let mut changed: Vec<bool> = before.iter().zip(arena).map(|(a, b)| a != b).collect();
    if said.starts_with("ok") {
        for o in chunks.iter().flat_map(|c| c.off + c.pos..c.off + c.len) {
            changed[(o % arena.len() as u64) as usize] = false;
        }
    }
    if changed.contains(&true) {
        return format!("{said} and more of the arena");
    }
    said
}

/// Takes the state over and hands the answer on.
fn step<S>(state: &mut S, out: Out<S>) -> Answer {
    *state = out.state;
    out.answer
}

fn number(n: Number) -> String {
    option(n.get())
}

fn chunks(data: &[RangeBufState; 64], count: usize) -> (Vec<RangeBufState>, String) {
    let held = data[..count].to_vec();
    let texts: Vec<String> = held.iter().map(|c| chunk_text(c.off, c.len, c.pos)).collect();
    (held, format!("[{}]", texts.join(",")))
}

fn set_text(set: &RangeSetState) -> String {
    ranges_text(set.inner[..set.count].iter().map(|r| (r.start, r.end)))
}

fn flow_text(f: &FlowControlState) -> String {
    window_text(f.consumed, f.max_data, f.window, f.max_window, f.last_update.get())
}

fn stored(arena: &[u8], from: u64, to: u64) -> impl Iterator<Item = u8> + '_ {
    (from..to).map(|o| arena[(o % arena.len() as u64) as usize])
}

/// A buffer's state and the arena that is lent to it.
struct Lent<S> {
    state: S,
    arena: Vec<u8>,
}

#[derive(Default)]
struct Objects {
    rb: Option<RangeBufState>,
    fc: Option<FlowControlState>,
    rs: Option<RangeSetState>,
    s: Option<Lent<SendBufState>>,
    r: Option<Lent<RecvBufState>>,
}

/// An object after its creation: a refused creation leaves it as it was.
fn created<S, T>(object: &mut Option<T>, out: Out<S>, make: impl FnOnce(S) -> T) -> String {
    let said = plain(out.answer);
    if out.answer.number == 0 {
        *object = Some(make(out.state));
    }
    said
}

impl Objects {
    fn create(&mut self, call: &Call) -> String {
        let n = &call.n;
        match call.object {
            "rb" => created(&mut self.rb, raw::range_buf_from(n[0], call.bytes.len() as u64), |s| s),
            "fc" => created(&mut self.fc, raw::flow_control_new(n[0], n[1], n[2]), |s| s),
            "rs" => created(&mut self.rs, raw::range_set_new(n[0] as usize), |s| s),
            "s" => {
                let arena = arena(n[1]);
                created(&mut self.s, raw::send_buf_new(n[0], &arena), |state| Lent { state, arena })
            }
            _ => {
                let arena = arena(n[2]);
                created(&mut self.r, raw::recv_buf_new(n[0], n[1], &arena), |state| Lent {
                    state,
                    arena,
                })
            }
        }
    }

    fn chunk(&mut self, call: &Call) -> Option<String> {
        let b = self.rb.as_mut()?;
        Some(match call.call {
            "consume" => plain(step(b, raw::range_buf_consume(*b, call.n[0]))),
            "split" => {
                let out = raw::range_buf_split_off(*b, call.n[0]);
                let right = out.right;
                *b = if out.answer.number == 0 && call.yes {
                    right
                } else {
                    out.state
                };
                told(out.answer, |_| format!("ok {}", chunk_text(right.off, right.len, right.pos)))
            }
            "off" => format!("ok {}", raw::range_buf_off(*b)),
            "max_off" => format!("ok {}", raw::range_buf_max_off(*b)),
            "len" => format!("ok {}", raw::range_buf_len(*b)),
            _ => format!("ok {}", raw::range_buf_is_empty(*b) as u8),
        })
    }

    fn window(&mut self, call: &Call) -> Option<String> {
        Some(window_call(self.fc.as_mut()?, call.call, &call.n))
    }

    fn set(&mut self, call: &Call) -> Option<String> {
        let (s, n) = (self.rs.as_mut()?, &call.n);
        Some(match call.call {
            "insert" => plain(step(s, raw::range_set_insert(*s, n[0], n[1]))),
            "push_item" => plain(step(s, raw::range_set_push_item(*s, n[0]))),
            "remove_until" => {
                *s = raw::range_set_remove_until(*s, n[0]);
                "ok".into()
            }
            "contains" => format!("ok {}", raw::range_set_contains(*s, n[0]) as u8),
            "len" => format!("ok {}", raw::range_set_len(*s)),
            "last" => format!("ok {}", number(raw::range_set_last(*s))),
            "iter" => {
                let all = (0..raw::range_set_len(*s)).map(|i| raw::range_set_get(*s, i).range);
                format!("ok {}", ranges_text(all.map(|r| (r.start, r.end))))
            }
            _ => format!("ok {}", raw::range_set_eq(*s, n[0], n[1]) as u8),
        })
    }

    fn send(&mut self, call: &Call) -> Option<String> {
        let (Lent { state: s, arena }, n) = (self.s.as_mut()?, &call.n);
        let mut other = call.arena.map(self::arena);
        let arena = other.as_mut().unwrap_or(arena);
        Some(match call.call {
            "write" => {
                let before = arena.clone();
                let said = count(step(s, raw::send_buf_write(*s, arena, &call.bytes, call.yes)));
                kept(said, &before, arena, &s.data[..s.count])
            }
            "emit" => {
                let mut out = output(n[0], arena);
                handed(step(s, raw::send_buf_emit(*s, arena, &mut out)), &out)
            }
            "update_max_data" => plain(step(s, raw::send_buf_update_max_data(*s, n[0]))),
            "update_blocked_at" => {
                *s = raw::send_buf_update_blocked_at(*s, call.first().is_some(), call.first().unwrap_or(0));
                "ok".into()
            }
            "ack" => plain(step(s, raw::send_buf_ack(*s, n[0], n[1]))),
            "ack_and_drop" => count(step(s, raw::send_buf_ack_and_drop(*s, n[0], n[1]))),
            "retransmit" => count(step(s, raw::send_buf_retransmit(*s, n[0], n[1]))),
            "reset" => sizes(step(s, raw::send_buf_reset(*s))),
            "stop" => sizes(step(s, raw::send_buf_stop(*s, n[0]))),
            "shutdown" => sizes(step(s, raw::send_buf_shutdown(*s))),
            _ => send_getters(*s),
        })
    }

    fn recv(&mut self, call: &Call) -> Option<String> {
        let (Lent { state: r, arena }, n) = (self.r.as_mut()?, &call.n);
        let mut other = call.arena.map(self::arena);
        let arena = other.as_mut().unwrap_or(arena);
        if let Some(call) = call.call.strip_prefix("fc.") {
            let mut flow = raw::recv_buf_flow_control(*r);
            let said = window_call(&mut flow, call, n);
            *r = raw::recv_buf_set_flow_control(*r, flow);
            return Some(said);
        }
        Some(match call.call {
            "write" => {
                let before = arena.clone();
                let said = plain(step(r, raw::recv_buf_write(*r, arena, n[0], &call.bytes, call.yes)));
                kept(said, &before, arena, &r.data[..r.count])
            }
            "emit" => {
                let mut out = output(n[0], arena);
                handed(step(r, raw::recv_buf_emit(*r, arena, &mut out)), &out)
            }
            "discard" => sizes(step(r, raw::recv_buf_discard(*r, n[0]))),
            "reset" => sizes(step(r, raw::recv_buf_reset(*r, n[0], n[1]))),
            "shutdown" => count(step(r, raw::recv_buf_shutdown(*r))),
            "commit" => {
                *r = raw::recv_buf_update_max_data(*r, n[0]);
                "ok".into()
            }
            "autotune" => {
                *r = raw::recv_buf_autotune_window(*r, n[0], n[1]);
                "ok".into()
            }
            "readable_len" => format!("ok {}", raw::recv_buf_readable_len(*r, n[0])),
            _ => recv_getters(*r),
        })
    }
}

fn window_call(f: &mut FlowControlState, call: &str, n: &[u64]) -> String {
    match call {
        "add_consumed" => plain(step(f, raw::flow_control_add_consumed(*f, n[0]))),
        "commit" => {
            *f = raw::flow_control_update_max_data(*f, n[0]);
            "ok".into()
        }
        "autotune" => {
            *f = raw::flow_control_autotune_window(*f, n[0], n[1]);
            "ok".into()
        }
        "lower_bound" => plain(step(f, raw::flow_control_ensure_window_lower_bound(*f, n[0]))),
        "window" => format!("ok {}", raw::flow_control_window(*f)),
        "max_data" => format!("ok {}", raw::flow_control_max_data(*f)),
        "should_update" => format!("ok {}", raw::flow_control_should_update_max_data(*f) as u8),
        _ => format!("ok {}", raw::flow_control_max_data_next(*f)),
    }
}

fn send_getters(s: SendBufState) -> String {
    let cap = told(raw::send_buf_cap(s), |a| a.first.to_string());
    format!(
        "ok off_back={} off_front={} max_off={} is_fin={} is_complete={} is_stopped={} is_shutdown={} is_empty={} ack_off={} cap={} bufs_count={} buffered_bytes={} blocked_at={}",
        raw::send_buf_off_back(s),
        raw::send_buf_off_front(s),
        raw::send_buf_max_off(s),
        raw::send_buf_is_fin(s) as u8,
        raw::send_buf_is_complete(s) as u8,
        raw::send_buf_is_stopped(s) as u8,
        raw::send_buf_is_shutdown(s) as u8,
        raw::send_buf_is_empty(s) as u8,
        raw::send_buf_ack_off(s),
        if cap.starts_with("no") { format!("({cap})") } else { cap },
        raw::send_buf_bufs_count(s),
        raw::send_buf_buffered_bytes(s),
        number(raw::send_buf_blocked_at(s))
    )
}

fn recv_getters(r: RecvBufState) -> String {
    format!(
        "ok off_front={} max_off={} is_fin={} is_draining={} ready={} max_data={} window={} max_data_next={} readable_len={} almost_full={}",
        raw::recv_buf_off_front(r),
        raw::recv_buf_max_off(r),
        raw::recv_buf_is_fin(r) as u8,
        raw::recv_buf_is_draining(r) as u8,
        raw::recv_buf_ready(r) as u8,
        raw::recv_buf_max_data(r),
        raw::recv_buf_window(r),
        raw::recv_buf_max_data_next(r),
        raw::recv_buf_readable_len(r, u64::MAX),
        raw::recv_buf_almost_full(r) as u8
    )
}

fn send_text(Lent { state: s, arena }: &Lent<SendBufState>) -> String {
    let (held, text) = chunks(&s.data, s.count);
    let bytes: Vec<u8> = held.iter().flat_map(|c| stored(arena, c.off, c.off + c.len)).collect();
    format!(
        "chunks={text} held={} pos={} off={} emitted={} tosend={} limit={} blocked={} fin={} acked={} shut={} err={}",
        bytes_text(&bytes),
        s.pos,
        s.off,
        s.emit_off,
        s.buffered_bytes,
        s.max_data,
        number(s.blocked_at),
        number(s.fin_off),
        set_text(&s.acked),
        s.shutdown as u8,
        number(s.error)
    )
}

fn recv_text(Lent { state: r, arena }: &Lent<RecvBufState>) -> String {
    let (held, text) = chunks(&r.data, r.count);
    let bytes: Vec<u8> = held
        .iter()
        .flat_map(|c| stored(arena, c.off + c.pos, c.off + c.len))
        .collect();
    format!(
        "chunks={text} kept={} off={} len={} fin={} err={} drain={} {}",
        bytes_text(&bytes),
        r.off,
        r.len,
        number(r.fin_off),
        number(r.error),
        r.drain as u8,
        flow_text(&r.flow_control)
    )
}

impl Side for Objects {
    fn afresh(&mut self) {
        *self = Objects::default();
    }

    fn call(&mut self, call: &Call) -> Option<String> {
        if call.call == "new" {
            return Some(self.create(call));
        }
        match call.object {
            "rb" => self.chunk(call),
            "fc" => self.window(call),
            "rs" => self.set(call),
            "s" => self.send(call),
            _ => self.recv(call),
        }
    }

    fn state(&self, object: &str) -> String {
        let text = match object {
            "rb" => self.rb.map(|b| chunk_text(b.off, b.len, b.pos)),
            "fc" => self.fc.as_ref().map(flow_text),
            "rs" => self.rs.as_ref().map(set_text),
            "s" => self.s.as_ref().map(send_text),
            _ => self.r.as_ref().map(recv_text),
        };
        text.unwrap_or("-".into())
    }
}

fn main() -> std::process::ExitCode {
    script::serve(&mut Objects::default())
}
