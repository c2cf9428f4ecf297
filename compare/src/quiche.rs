//! quiche's own files, compiled as they stand from the folder that QUICHE_SRC names when the program is built.
//!
//! Each is included into a module that adds only what looks at private fields. The files take names from their crate's root, and two
//! small types from stream/mod.rs: a program that uses this module supplies the root's by `use quiche::..` in its own root.

pub use buffers::BufFactory;

#[derive(Debug, PartialEq)]
pub enum Error {
    Done,
    BufferTooShort,
    FinalSize,
    FlowControl,
    StreamStopped(u64),
    StreamReset(u64),
}

pub type Result<T> = std::result::Result<T, Error>;

#[allow(dead_code)]
pub mod buffers {
    include!(concat!(env!("QUICHE_SRC"), "/buffers.rs"));
}

#[allow(dead_code)]
pub mod range_buf {
    include!(concat!(env!("QUICHE_SRC"), "/range_buf.rs"));

    pub fn show(b: &RangeBuf) -> String {
        crate::script::chunk_text(b.off, b.len as u64, (b.pos - b.start) as u64)
    }

    /// All bytes of a chunk, consumed ones included.
    pub fn whole(b: &RangeBuf) -> &[u8] {
        &b.data.as_ref()[b.start..b.start + b.len]
    }
}

#[allow(dead_code)]
pub mod ranges {
    include!(concat!(env!("QUICHE_SRC"), "/ranges.rs"));
}

#[allow(dead_code)]
pub mod flowcontrol {
    include!(concat!(env!("QUICHE_SRC"), "/flowcontrol.rs"));

    pub fn show(f: &FlowControl, zero: Instant) -> String {
        let last = f.last_update.map(|t| t.duration_since(zero).as_micros() as u64);
        crate::script::window_text(f.consumed, f.max_data, f.window, f.max_window, last)
    }
}

#[allow(dead_code)]
pub mod stream {
    pub enum RecvAction<T: bytes::BufMut> {
        Emit { out: T },
        Discard { len: usize },
    }

    #[derive(Debug)]
    pub struct RecvBufResetReturn {
        pub max_data_delta: u64,
        pub consumed_flowcontrol: u64,
    }

    impl RecvBufResetReturn {
        pub fn zero() -> Self {
            Self {
                max_data_delta: 0,
                consumed_flowcontrol: 0,
            }
        }
    }

    pub mod send_buf {
        include!(concat!(env!("QUICHE_SRC"), "/stream/send_buf.rs"));

        /// All bytes that it holds, at least those that an emit can hand out.
        pub fn holds(s: &SendBuf) -> u64 {
            s.data.iter().map(|b| crate::range_buf::whole(b).len() as u64).sum()
        }

        pub fn show(s: &SendBuf) -> String {
            let chunks: Vec<String> = s.data.iter().map(crate::range_buf::show).collect();
            let held: Vec<u8> = s.data.iter().flat_map(|b| crate::range_buf::whole(b).to_vec()).collect();
            format!(
                "chunks=[{}] held={} pos={} off={} emitted={} tosend={} limit={} blocked={} fin={} acked={} shut={} err={}",
                chunks.join(","),
                crate::script::bytes_text(&held),
                s.pos,
                s.off,
                s.emit_off,
                s.buffered_bytes,
                s.max_data,
                crate::script::option(s.blocked_at),
                crate::script::option(s.fin_off),
                crate::quiche::set_text(&s.acked),
                s.shutdown as u8,
                crate::script::option(s.error)
            )
        }
    }

    pub mod recv_buf {
        include!(concat!(env!("QUICHE_SRC"), "/stream/recv_buf.rs"));

        /// All bytes that are still to be handed out.
        pub fn holds(r: &RecvBuf) -> u64 {
            r.data.values().map(|b| b.len() as u64).sum()
        }

        pub fn show(r: &RecvBuf, zero: Instant) -> String {
            let chunks: Vec<String> = r.data.values().map(crate::range_buf::show).collect();
            let kept: Vec<u8> = r.data.values().flat_map(|b| b.to_vec()).collect();
            format!(
                "chunks=[{}] kept={} off={} len={} fin={} err={} drain={} {}",
                chunks.join(","),
                crate::script::bytes_text(&kept),
                r.off,
                r.len,
                crate::script::option(r.fin_off),
                crate::script::option(r.error),
                r.drain as u8,
                crate::flowcontrol::show(&r.flow_control, zero)
            )
        }

        pub fn flow(r: &mut RecvBuf) -> &mut flowcontrol::FlowControl {
            &mut r.flow_control
        }
    }
}

pub fn set_text(set: &ranges::RangeSet) -> String {
    crate::script::ranges_text(set.iter().map(|r| (r.start, r.end)))
}
