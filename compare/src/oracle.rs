//! The oracle: quiche's own buffers under the call script.
//!
//! A call that quiche answers with an error prints the refusal's number; one that panics prints `panic` and the object is
//! gone until it is created again.

use std::panic::catch_unwind;
use std::panic::AssertUnwindSafe;
use std::time::Duration;
use std::time::Instant;

mod quiche;
mod script;

use quiche::buffers;
use quiche::flowcontrol;
use quiche::range_buf;
use quiche::range_buf::RangeBuf;
use quiche::ranges;
use quiche::set_text;
use quiche::stream;
use quiche::stream::recv_buf::RecvBuf;
use quiche::stream::send_buf::SendBuf;
use quiche::stream::RecvAction;
use quiche::BufFactory;
use quiche::Error;
use quiche::Result;
use script::bytes_text;
use script::option;
use script::room;
use script::Call;
use script::Side;

fn refusal(e: Error) -> String {
    match e {
        Error::StreamStopped(code) => format!("no 2 {code}"),
        Error::FinalSize => "no 3".into(),
        Error::FlowControl => "no 4".into(),
        Error::Done => "no 8".into(),
        Error::StreamReset(code) => format!("no 9 {code}"),
        Error::BufferTooShort => "no ?".into(),
    }
}

fn or_refusal<T>(r: Result<T>, f: impl FnOnce(T) -> String) -> String {
    match r {
        Ok(x) => f(x),
        Err(e) => refusal(e),
    }
}

struct Objects {
    zero: Instant,
    rb: Option<RangeBuf>,
    fc: Option<flowcontrol::FlowControl>,
    rs: Option<ranges::RangeSet>,
    s: Option<SendBuf>,
    r: Option<RecvBuf>,
}

impl Objects {
    fn new(zero: Instant) -> Self {
        Objects {
            zero,
            rb: None,
            fc: None,
            rs: None,
            s: None,
            r: None,
        }
    }

    fn lose(&mut self, object: &str) {
        match object {
            "rb" => self.rb = None,
            "fc" => self.fc = None,
            "rs" => self.rs = None,
            "s" => self.s = None,
            _ => self.r = None,
        }
    }

    fn window(&mut self, call: &Call) -> Option<String> {
        let (now, zero) = (call.first().unwrap_or(0), self.zero);
        let at = zero + Duration::from_micros(now);
        let f = self.fc.as_mut()?;
        Some(match call.call {
            "add_consumed" => {
                f.add_consumed(now);
                "ok".into()
            }
            "commit" => {
                f.update_max_data(at);
                "ok".into()
            }
            "autotune" => {
                f.autotune_window(at, Duration::from_micros(call.n[1]));
                "ok".into()
            }
            "lower_bound" => {
                f.ensure_window_lower_bound(now);
                "ok".into()
            }
            "window" => format!("ok {}", f.window()),
            "max_data" => format!("ok {}", f.max_data()),
            "should_update" => format!("ok {}", f.should_update_max_data() as u8),
            _ => format!("ok {}", f.max_data_next()),
        })
    }

    fn chunk(&mut self, call: &Call) -> Option<String> {
        let (b, n) = (self.rb.as_mut()?, &call.n);
        Some(match call.call {
            "consume" => {
                b.consume(n[0] as usize);
                "ok".into()
            }
            "split" => {
                let right = b.split_off(n[0] as usize);
                let text = format!("ok {}", range_buf::show(&right));
                if call.yes {
                    *b = right;
                }
                text
            }
            "off" => format!("ok {}", b.off()),
            "max_off" => format!("ok {}", b.max_off()),
            "len" => format!("ok {}", b.len()),
            _ => format!("ok {}", b.is_empty() as u8),
        })
    }

    fn set(&mut self, call: &Call) -> Option<String> {
        let (s, n) = (self.rs.as_mut()?, &call.n);
        Some(match call.call {
            "insert" => {
                s.insert(n[0]..n[1]);
                "ok".into()
            }
            "push_item" => {
                s.push_item(n[0]);
                "ok".into()
            }
            "remove_until" => {
                s.remove_until(n[0]);
                "ok".into()
            }
            "contains" => format!("ok {}", s.contains(n[0]) as u8),
            "len" => format!("ok {}", s.len()),
            "last" => format!("ok {}", option(s.last())),
            "iter" => format!("ok {}", set_text(s)),
            _ => format!("ok {}", (*s == (n[0]..n[1])) as u8),
        })
    }

    fn send(&mut self, call: &Call) -> Option<String> {
        let (s, n) = (self.s.as_mut()?, &call.n);
        let sizes = |(a, b): (u64, u64)| format!("ok {a} {b}");
        Some(match call.call {
            "write" => or_refusal(s.write(&call.bytes, call.yes), |k| format!("ok {k}")),
            "emit" => {
                let mut out = vec![0; room(n[0], stream::send_buf::holds(s))];
                or_refusal(s.emit(&mut out), |(k, fin)| format!("ok {k} {} {}", fin as u8, bytes_text(&out[..k])))
            }
            "update_max_data" => {
                s.update_max_data(n[0]);
                "ok".into()
            }
            "update_blocked_at" => {
                s.update_blocked_at(call.first());
                "ok".into()
            }
            "ack" => {
                s.ack(n[0], n[1] as usize);
                "ok".into()
            }
            "ack_and_drop" => format!("ok {}", s.ack_and_drop(n[0], n[1] as usize)),
            "retransmit" => format!("ok {}", s.retransmit(n[0], n[1] as usize)),
            "reset" => sizes(s.reset()),
            "stop" => or_refusal(s.stop(n[0]), sizes),
            "shutdown" => or_refusal(s.shutdown(), sizes),
            _ => format!(
                "ok off_back={} off_front={} max_off={} is_fin={} is_complete={} is_stopped={} is_shutdown={} is_empty={} ack_off={} cap={} bufs_count={} buffered_bytes={} blocked_at={}",
                s.off_back(),
                s.off_front(),
                s.max_off(),
                s.is_fin() as u8,
                s.is_complete() as u8,
                s.is_stopped() as u8,
                s.is_shutdown() as u8,
                s.is_empty() as u8,
                s.ack_off(),
                match s.cap() {
                    Ok(cap) => cap.to_string(),
                    Err(e) => format!("({})", refusal(e)),
                },
                s.bufs_count(),
                s.buffered_bytes(),
                option(s.blocked_at())
            ),
        })
    }

    fn recv(&mut self, call: &Call) -> Option<String> {
        let (zero, n, first) = (self.zero, &call.n, call.first().unwrap_or(0));
        let at = |micros| zero + Duration::from_micros(micros);
        let r = self.r.as_mut()?;
        Some(match call.call {
            "write" => {
                let buf = RangeBuf::from(&call.bytes, first, call.yes);
                or_refusal(r.write(buf), |_| "ok".into())
            }
            "emit" => {
                let mut out = vec![0; room(first, stream::recv_buf::holds(r))];
                or_refusal(r.emit(&mut out), |(k, fin)| format!("ok {k} {} {}", fin as u8, bytes_text(&out[..k])))
            }
            "discard" => {
                let action: RecvAction<&mut [u8]> = RecvAction::Discard { len: first as usize };
                or_refusal(r.emit_or_discard(action), |(k, fin)| format!("ok {k} {}", fin as u8))
            }
            "reset" => or_refusal(r.reset(first, n[1]), |t| format!("ok {} {}", t.max_data_delta, t.consumed_flowcontrol)),
            "shutdown" => or_refusal(r.shutdown(), |k| format!("ok {k}")),
            "commit" => {
                r.update_max_data(at(first));
                "ok".into()
            }
            "autotune" => {
                r.autotune_window(at(first), Duration::from_micros(n[1]));
                "ok".into()
            }
            "fc.add_consumed" => {
                stream::recv_buf::flow(r).add_consumed(first);
                "ok".into()
            }
            "fc.lower_bound" => {
                stream::recv_buf::flow(r).ensure_window_lower_bound(first);
                "ok".into()
            }
            "readable_len" => format!("ok {}", r.readable_len(first as usize)),
            _ => format!(
                "ok off_front={} max_off={} is_fin={} is_draining={} ready={} max_data={} window={} max_data_next={} readable_len={} almost_full={}",
                r.off_front(),
                r.max_off(),
                r.is_fin() as u8,
                r.is_draining() as u8,
                r.ready() as u8,
                r.max_data(),
                r.window(),
                r.max_data_next(),
                r.readable_len(usize::MAX),
                r.almost_full() as u8
            ),
        })
    }

    fn make(&mut self, call: &Call) -> Option<String> {
        let n = &call.n;
        if call.call == "new" {
            match call.object {
                "rb" => self.rb = Some(RangeBuf::from(&call.bytes, n[0], false)),
                "fc" => self.fc = Some(flowcontrol::FlowControl::new(n[0], n[1], n[2])),
                "rs" => self.rs = Some(ranges::RangeSet::new(n[0] as usize)),
                "s" => self.s = Some(SendBuf::new(n[0])),
                _ => self.r = Some(RecvBuf::new(n[0], n[0], n[1])),
            }
            return Some("ok".into());
        }
        match call.object {
            "rb" => self.chunk(call),
            "fc" => self.window(call),
            "rs" => self.set(call),
            "s" => self.send(call),
            _ => self.recv(call),
        }
    }
}

impl Side for Objects {
    fn afresh(&mut self) {
        *self = Objects::new(self.zero);
    }

    fn call(&mut self, call: &Call) -> Option<String> {
        match catch_unwind(AssertUnwindSafe(|| self.make(call))) {
            Ok(said) => said,
            Err(_) => {
                self.lose(call.object);
                Some("panic".into())
            }
        }
    }

    fn state(&self, object: &str) -> String {
        let text = match object {
            "rb" => self.rb.as_ref().map(range_buf::show),
            "fc" => self.fc.as_ref().map(|f| flowcontrol::show(f, self.zero)),
            "rs" => self.rs.as_ref().map(set_text),
            "s" => self.s.as_ref().map(stream::send_buf::show),
            _ => self.r.as_ref().map(|r| stream::recv_buf::show(r, self.zero)),
        };
        text.unwrap_or("-".into())
    }
}

fn main() -> std::process::ExitCode {
    std::panic::set_hook(Box::new(|_| {}));
    script::serve(&mut Objects::new(Instant::now()))
}
