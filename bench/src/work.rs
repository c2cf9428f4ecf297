//! What the workloads work on: the bytes, their pieces, the fixed orders, and the room that both sides and the limit are lent.
//!
//!     W1   55 writes, then 55 emits, then 55 ack_and_drops, of 1,200 bytes each (the last is shorter): 64 KiB
//!     W1i  the same, a piece at a time
//!     W2   one write of 64 KiB
//!     W3   55 frames received in order, then read in pieces of 4,096
//!     W4   the same frames shuffled, 11 of them twice, then read
//!     W5   64 inserts into a range set in shuffled order, none touching another, then 1,024 contains
//!     W6   64 KiB from a send buffer to a receive buffer in frames of 1,200; every fifth is lost, reported and sent again; those that
//!          arrive are acked; at the end all is read in pieces of 4,096
//!
//! and of our side alone, how much of that is the passing of states by value:
//!
//!     W0s  165 calls that take a send buffer's state and give it back, and do nothing else
//!     W0r  71 such calls with a receive buffer's state
//!     W0g  165 calls that take a send buffer's state and give back a number
//!
//! A run begins with creation and ends when the object is gone. What it puts out is in `Room::out` afterwards.

use std::ops::Range;

pub const TOTAL: usize = 65_536;
pub const PIECE: usize = 1_200;
pub const READ: usize = 4_096;

pub const WORKS: [&str; 7] = ["W1", "W1i", "W2", "W3", "W4", "W5", "W6"];
pub const PASSING: [&str; 3] = ["W0s", "W0r", "W0g"];

/// One run of a workload.
pub type Run = fn(&mut Room);

pub struct Room {
    pub input: Vec<u8>,
    pub out: Vec<u8>,
    /// One frame on its way.
    pub frame: Vec<u8>,
    /// The two arenas that are lent to our buffers; the limit's stores.
    pub send_arena: Vec<u8>,
    pub recv_arena: Vec<u8>,
    /// The input in pieces of 1,200.
    pub pieces: Vec<Range<usize>>,
    /// The pieces shuffled, 11 of them twice.
    pub shuffled: Vec<Range<usize>>,
    /// The same without those that come a second time.
    pub firsts: Vec<Range<usize>>,
    pub ranges: Vec<Range<u64>>,
    pub asked: Vec<u64>,
}

/// Numbers that look random and are always the same (xorshift64).
struct Fixed(u64);

impl Fixed {
    fn below(&mut self, n: usize) -> usize {
        self.0 ^= self.0 << 13;
        self.0 ^= self.0 >> 7;
        self.0 ^= self.0 << 17;
        (self.0 % n as u64) as usize
    }

    fn shuffle<T>(&mut self, all: &mut [T]) {
        for i in (1..all.len()).rev() {
            all.swap(i, self.below(i + 1));
        }
    }
}

impl Room {
    pub fn new() -> Room {
        let mut fixed = Fixed(0x5eed);
        let pieces: Vec<Range<usize>> = (0..TOTAL).step_by(PIECE).map(|at| at..TOTAL.min(at + PIECE)).collect();
        let mut twice = pieces.clone();
        fixed.shuffle(&mut twice);
        let mut shuffled = [&pieces[..], &twice[..11]].concat();
        fixed.shuffle(&mut shuffled);
        let is_first = |i: &usize| !shuffled[..*i].contains(&shuffled[*i]);
        let firsts = (0..shuffled.len()).filter(is_first).map(|i| shuffled[i].clone()).collect();
        let mut ranges: Vec<Range<u64>> = (0..64).map(|i| 20 * i..20 * i + 10).collect();
        fixed.shuffle(&mut ranges);
        let mut asked: Vec<u64> = (0..1_024).map(|k| k + k / 4).collect();
        fixed.shuffle(&mut asked);
        Room {
            input: (0..TOTAL).map(|_| fixed.below(256) as u8).collect(),
            out: vec![0; TOTAL],
            frame: vec![0; PIECE],
            send_arena: vec![0; TOTAL],
            recv_arena: vec![0; TOTAL],
            pieces,
            shuffled,
            firsts,
            ranges,
            asked,
        }
    }

    /// What `out` must hold after a run of the workload.
    pub fn expected(&self, work: &str) -> Vec<u8> {
        match work {
            "W5" => self.asked.iter().map(|v| (v % 20 < 10) as u8).collect(),
            _ => self.input.clone(),
        }
    }
}

/// Is this the frame that the channel of W6 loses: every fifth?
pub fn lost(i: usize) -> bool {
    i % 5 == 4
}
