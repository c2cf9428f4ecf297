//! Bytes: what a state takes, what a call takes of the stack, what a workload takes of the heap; ours beside quiche's.
//!
//! The stack below the caller is painted before a call, and afterwards one looks how far it was overwritten: the call's arguments and the
//! place of its result count, since they lie there. A call is made in many states, and the deepest counts.

#[allow(dead_code)]
mod ours;
#[allow(dead_code)]
#[path = "../../compare/src/quiche.rs"]
mod quiche;
#[allow(dead_code)]
#[path = "../../bindings/rust/src/raw.rs"]
mod raw;
#[allow(dead_code)]
#[path = "../../compare/src/script.rs"]
mod script;
#[allow(dead_code)]
mod theirs;
#[allow(dead_code)]
mod work;

// The names that quiche's files take from their crate's root.
use quiche::buffers;
use quiche::flowcontrol;
use quiche::range_buf;
use quiche::ranges;
use quiche::stream;
use quiche::BufFactory;
use quiche::Error;
use quiche::Result;

use quiche::range_buf::RangeBuf;
use quiche::ranges::RangeSet;
use quiche::stream::recv_buf::RecvBuf;
use quiche::stream::send_buf::SendBuf;
use raw::Out;
use std::alloc::GlobalAlloc;
use std::alloc::Layout;
use std::alloc::System;
use std::mem::size_of;
use std::sync::atomic::AtomicUsize;
use std::sync::atomic::Ordering::Relaxed;
use work::Room;
use work::PIECE;
use work::READ;
use work::TOTAL;
use work::WORKS;

/// The system's heap, with what is in use, the most that was, and how often it was asked.
struct Counted;

static IN_USE: AtomicUsize = AtomicUsize::new(0);
static MOST: AtomicUsize = AtomicUsize::new(0);
static ASKED: AtomicUsize = AtomicUsize::new(0);

// Sound as the system's: every call is handed on as it came.
unsafe impl GlobalAlloc for Counted {
    unsafe fn alloc(&self, layout: Layout) -> *mut u8 {
        ASKED.fetch_add(1, Relaxed);
        MOST.fetch_max(IN_USE.fetch_add(layout.size(), Relaxed) + layout.size(), Relaxed);
        System.alloc(layout)
    }

    unsafe fn dealloc(&self, at: *mut u8, layout: Layout) {
        IN_USE.fetch_sub(layout.size(), Relaxed);
        System.dealloc(at, layout)
    }
}

#[global_allocator]
static HEAP: Counted = Counted;

/// The most bytes in use at once during a run, and how often the heap was asked.
fn heap_of(run: work::Run, room: &mut Room) -> (usize, usize) {
    let (before, asked) = (IN_USE.load(Relaxed), ASKED.load(Relaxed));
    MOST.store(before, Relaxed);
    run(room);
    (MOST.load(Relaxed) - before, ASKED.load(Relaxed) - asked)
}

const DEEP: usize = 256 * 1024;
const PAINT: u64 = 0x5ca1_ab1e_0ddb_a115;

#[inline(never)]
fn apart(call: impl FnOnce()) {
    call()
}

/// How far down a call writes on the stack, to 8 bytes.
#[inline(never)]
fn depth(call: impl FnOnce()) -> usize {
    let here: usize;
    // Reads the stack pointer. What is written and read below it is this thread's own stack, which is several times as deep as DEEP,
    // and holds nothing of use below the pointer.
    unsafe {
        #[cfg(target_arch = "x86_64")]
        std::arch::asm!("mov {}, rsp", out(reg) here);
        #[cfg(target_arch = "aarch64")]
        std::arch::asm!("mov {}, sp", out(reg) here);
        (here - DEEP..here)
            .step_by(8)
            .for_each(|at| (at as *mut u64).write_volatile(PAINT));
    }
    apart(call);
    let painted = |at: &usize| unsafe { (*at as *const u64).read_volatile() == PAINT };
    here - (here - DEEP..here).step_by(8).find(|at| !painted(at)).unwrap_or(here)
}

/// The deepest of each call, in the order of first calls.
#[derive(Default)]
struct Deepest(Vec<(&'static str, usize)>);

impl Deepest {
    fn of(&mut self, name: &'static str, call: impl FnOnce()) {
        let depth = depth(call);
        match self.0.iter_mut().find(|(known, _)| *known == name) {
            Some((_, deepest)) => *deepest = depth.max(*deepest),
            None => self.0.push((name, depth)),
        }
    }

    fn print(&self, side: &str) {
        println!("\nstack of a call, in bytes: {side}");
        for (name, depth) in &self.0 {
            println!("    {name:32} {depth:8}");
        }
    }
}

/// Takes a state over, as the workloads do.
fn step<S>(out: Out<S>, state: &mut S) {
    ours::step(out, state);
}

fn ours_send(deepest: &mut Deepest, room: &mut Room) {
    let (arena, total) = (&mut room.send_arena, TOTAL as u64);
    let mut s = raw::send_buf_new(total, arena).state;
    deepest.of("vk_send_buf_new", || step(raw::send_buf_new(total, arena), &mut s));
    for p in &room.pieces {
        let part = &room.input[p.clone()];
        deepest.of("vk_send_buf_write", || {
            step(raw::send_buf_write(s, arena, part, p.end == TOTAL), &mut s)
        });
    }
    for p in &room.pieces {
        let (off, len, out) = (p.start as u64, p.len() as u64, &mut room.frame);
        deepest.of("vk_send_buf_off_front", || assert_eq!(raw::send_buf_off_front(s), off));
        deepest.of("vk_send_buf_emit", || step(raw::send_buf_emit(s, arena, out), &mut s));
        // In the first chunks only: each such loss cuts one in two, and there are 64.
        if off < 4_000 {
            deepest.of("vk_send_buf_retransmit", || {
                step(raw::send_buf_retransmit(s, off + 7, len / 2), &mut s)
            });
            step(raw::send_buf_emit(s, arena, out), &mut s);
        }
    }
    for p in room.pieces.iter().rev() {
        let (off, len) = (p.start as u64, p.len() as u64);
        deepest.of("vk_send_buf_ack_and_drop", || {
            step(raw::send_buf_ack_and_drop(s, off, len), &mut s)
        });
        deepest.of("vk_send_buf_is_complete", || {
            assert_eq!(raw::send_buf_is_complete(s), off == 0)
        });
    }
    deepest.of("vk_send_buf_reset", || step(raw::send_buf_reset(s), &mut s));
    deepest.of("vk_send_buf_stop", || step(raw::send_buf_stop(s, 1), &mut s));
    deepest.of("vk_send_buf_shutdown", || step(raw::send_buf_shutdown(s), &mut s));
}

fn ours_recv(deepest: &mut Deepest, room: &mut Room) {
    let (arena, total) = (&mut room.recv_arena, TOTAL as u64);
    let mut r = raw::recv_buf_new(total, total, arena).state;
    deepest.of("vk_recv_buf_new", || step(raw::recv_buf_new(total, total, arena), &mut r));
    for p in &room.shuffled {
        let (off, part) = (p.start as u64, &room.input[p.clone()]);
        deepest.of("vk_recv_buf_write", || {
            step(raw::recv_buf_write(r, arena, off, part, false), &mut r)
        });
    }
    for _ in 0..8 {
        let out = &mut room.out[..READ];
        deepest.of("vk_recv_buf_readable_len", || {
            assert!(raw::recv_buf_readable_len(r, u64::MAX) > 0)
        });
        deepest.of("vk_recv_buf_emit", || step(raw::recv_buf_emit(r, arena, out), &mut r));
    }
    deepest.of("vk_recv_buf_discard", || step(raw::recv_buf_discard(r, READ as u64), &mut r));
    deepest.of("vk_recv_buf_update_max_data", || r = raw::recv_buf_update_max_data(r, 1));
    deepest.of("vk_recv_buf_reset", || step(raw::recv_buf_reset(r, 1, total), &mut r));
    deepest.of("vk_recv_buf_shutdown", || step(raw::recv_buf_shutdown(r), &mut r));
}

fn ours_set(deepest: &mut Deepest, room: &Room) {
    let mut set = raw::range_set_new(64).state;
    for r in &room.ranges {
        deepest.of("vk_range_set_insert", || {
            step(raw::range_set_insert(set, r.start, r.end), &mut set)
        });
    }
    deepest.of("vk_range_set_contains", || assert!(!raw::range_set_contains(set, u64::MAX)));
    deepest.of("vk_range_set_remove_until", || set = raw::range_set_remove_until(set, 600));
}

fn theirs_all(deepest: &mut Deepest, room: &mut Room) {
    let mut s: SendBuf = SendBuf::new(TOTAL as u64);
    let mut r = RecvBuf::new(TOTAL as u64, TOTAL as u64, TOTAL as u64);
    for p in &room.pieces {
        let part = &room.input[p.clone()];
        deepest.of("SendBuf::write", || assert_eq!(s.write(part, p.end == TOTAL), Ok(p.len())));
    }
    for p in &room.pieces {
        let (off, out) = (p.start as u64, &mut room.frame[..PIECE]);
        deepest.of("SendBuf::emit", || assert_eq!(s.emit(out), Ok((p.len(), p.end == TOTAL))));
        if off < 4_000 {
            deepest.of("SendBuf::retransmit", || assert!(s.retransmit(off + 7, p.len() / 2) > 0));
            s.emit(out).unwrap();
        }
    }
    for p in room.pieces.iter().rev() {
        deepest.of("SendBuf::ack_and_drop", || {
            assert!(s.ack_and_drop(p.start as u64, p.len()) == 0)
        });
    }
    for p in &room.shuffled {
        let part = &room.input[p.clone()];
        let frame = RangeBuf::from(part, p.start as u64, false);
        deepest.of("RecvBuf::write", || r.write(frame).unwrap());
    }
    for out in room.out.chunks_mut(READ) {
        deepest.of("RecvBuf::emit", || assert_eq!(r.emit(out), Ok((READ, false))));
    }
    let mut set = RangeSet::new(64);
    for range in &room.ranges {
        deepest.of("RangeSet::insert", || set.insert(range.clone()));
    }
    deepest.of("RangeSet::contains", || assert!(!set.contains(u64::MAX)));
    deepest.of("RangeSet::remove_until", || set.remove_until(600));
}

fn measured() {
    println!("size of a state, in bytes            ours   quiche");
    let row = |name: &str, ours: usize, quiche: usize| println!("    {name:32} {ours:5} {quiche:8}");
    row("send buffer", size_of::<raw::SendBufState>(), size_of::<SendBuf>());
    row("receive buffer", size_of::<raw::RecvBufState>(), size_of::<RecvBuf>());
    row("range set", size_of::<raw::RangeSetState>(), size_of::<RangeSet>());
    row(
        "window",
        size_of::<raw::FlowControlState>(),
        size_of::<flowcontrol::FlowControl>(),
    );
    row("chunk", size_of::<raw::RangeBufState>(), size_of::<RangeBuf>());

    let mut room = Room::new();
    let (mut ours, mut theirs) = (Deepest::default(), Deepest::default());
    ours_send(&mut ours, &mut room);
    ours_recv(&mut ours, &mut room);
    ours_set(&mut ours, &room);
    ours.print("ours");
    theirs_all(&mut theirs, &mut room);
    theirs.print("quiche");

    println!("\nheap in a run, most bytes at once (times asked)   ours   quiche");
    for work in WORKS {
        let [ours, theirs] = [ours::run_of(work), theirs::run_of(work)].map(|run| heap_of(run.unwrap(), &mut room));
        println!("    {work:32} {} ({}) {} ({})", ours.0, ours.1, theirs.0, theirs.1);
    }
}

fn main() {
    let apart = std::thread::Builder::new()
        .stack_size(4 * DEEP)
        .spawn(measured)
        .expect("a thread");
    apart.join().expect("the sizes are measured");
}
