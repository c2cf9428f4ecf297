//! The workloads on quiche's own buffers, by their own API.

use crate::quiche::range_buf::RangeBuf;
use crate::quiche::ranges::RangeSet;
use crate::quiche::stream::recv_buf::RecvBuf;
use crate::quiche::stream::send_buf::SendBuf;
use crate::work::lost;
use crate::work::Room;
use crate::work::Run;
use crate::work::PIECE;
use crate::work::READ;
use crate::work::TOTAL;
use std::hint::black_box;
use std::ops::Range;

pub fn run_of(work: &str) -> Option<Run> {
    Some(match work {
        "W1" => in_turn,
        "W1i" => piece_by_piece,
        "W2" => |room| {
            black_box(written_whole(room));
        },
        "W3" => in_order,
        "W4" => shuffled,
        "W5" => range_set,
        "W6" => pair,
        _ => return None,
    })
}

fn recv_buf() -> RecvBuf {
    RecvBuf::new(TOTAL as u64, TOTAL as u64, TOTAL as u64)
}

fn in_turn(room: &mut Room) {
    let mut s: SendBuf = SendBuf::new(TOTAL as u64);
    for p in &room.pieces {
        s.write(&room.input[p.clone()], p.end == TOTAL).unwrap();
    }
    for p in &room.pieces {
        s.emit(&mut room.out[p.clone()]).unwrap();
    }
    for p in &room.pieces {
        s.ack_and_drop(p.start as u64, p.len());
    }
    black_box(s);
}

fn piece_by_piece(room: &mut Room) {
    let mut s: SendBuf = SendBuf::new(TOTAL as u64);
    for p in &room.pieces {
        s.write(&room.input[p.clone()], p.end == TOTAL).unwrap();
        s.emit(&mut room.out[p.clone()]).unwrap();
        s.ack_and_drop(p.start as u64, p.len());
    }
    black_box(s);
}

/// W2, and the buffer that it leaves.
pub fn written_whole(room: &mut Room) -> SendBuf {
    let mut s: SendBuf = SendBuf::new(TOTAL as u64);
    s.write(&room.input, true).unwrap();
    s
}

/// Emits all that W2 has left, so that it can be looked at.
pub fn emitted_whole(mut s: SendBuf, room: &mut Room) {
    assert_eq!(s.emit(&mut room.out), Ok((TOTAL, true)));
}

fn received(frames: &[Range<usize>], input: &[u8]) -> RecvBuf {
    let mut r = recv_buf();
    for p in frames {
        let (off, end) = (p.start as u64, p.end == TOTAL);
        r.write(RangeBuf::from(&input[p.clone()], off, end)).unwrap();
    }
    r
}

fn read(r: &mut RecvBuf, out: &mut [u8]) {
    for part in out.chunks_mut(READ) {
        r.emit(part).unwrap();
    }
}

fn in_order(room: &mut Room) {
    let mut r = received(&room.pieces, &room.input);
    read(&mut r, &mut room.out);
    black_box(r);
}

fn shuffled(room: &mut Room) {
    let mut r = received(&room.shuffled, &room.input);
    read(&mut r, &mut room.out);
    black_box(r);
}

fn range_set(room: &mut Room) {
    let mut set = RangeSet::new(64);
    for r in &room.ranges {
        set.insert(r.clone());
    }
    for (v, told) in room.asked.iter().zip(&mut room.out) {
        *told = set.contains(black_box(*v)) as u8;
    }
}

fn pair(room: &mut Room) {
    let mut s: SendBuf = SendBuf::new(TOTAL as u64);
    let mut r = recv_buf();
    s.write(&room.input, true).unwrap();
    for i in 0..room.pieces.len() {
        carried(&mut s, &mut r, room, lost(i));
    }
    for p in room.pieces.iter().enumerate().filter(|(i, _)| lost(*i)).map(|(_, p)| p) {
        s.retransmit(p.start as u64, p.len());
    }
    while s.buffered_bytes() > 0 {
        carried(&mut s, &mut r, room, false);
    }
    read(&mut r, &mut room.out);
    assert!(s.is_complete() && r.is_fin());
}

/// Emits a frame; where it is not lost, it is received and acked.
fn carried(s: &mut SendBuf, r: &mut RecvBuf, room: &mut Room, lost: bool) {
    let off = s.off_front();
    let (n, fin) = s.emit(&mut room.frame[..PIECE]).unwrap();
    if lost {
        return;
    }
    r.write(RangeBuf::from(&room.frame[..n], off, fin)).unwrap();
    s.ack_and_drop(off, n);
}
