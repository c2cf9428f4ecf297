//! The workloads on the proved library, by the lowest layer of the Rust binding: a state goes in and comes back by value.

use crate::raw;
use crate::work::lost;
use crate::work::Room;
use crate::work::Run;
use crate::work::PIECE;
use crate::work::READ;
use crate::work::TOTAL;
use raw::Out;
use raw::RangeSetState;
use raw::RecvBufState;
use raw::SendBufState;
use std::hint::black_box;
use std::ops::Range;

pub fn run_of(work: &str) -> Option<Run> {
    Some(match work {
        "W1" => in_turn,
        "W1i" => piece_by_piece,
        "W2" => |room| {
            black_box(written_whole(room));
        },
        "W3" => in_order,
        "W4" => shuffled,
        "W5" => range_set,
        "W6" => pair,
        "W0s" => send_states,
        "W0r" => recv_states,
        "W0g" => send_getters,
        _ => return None,
    })
}

/// Takes the state over; what the workloads ask is never refused.
pub fn step<S>(out: Out<S>, state: &mut S) -> u64 {
    assert_eq!(out.answer.number, 0);
    *state = out.state;
    out.answer.first
}

fn created<S>(out: Out<S>) -> S {
    assert_eq!(out.answer.number, 0);
    out.state
}

fn send_buf(arena: &[u8]) -> SendBufState {
    created(raw::send_buf_new(TOTAL as u64, arena))
}

fn recv_buf(arena: &[u8]) -> RecvBufState {
    created(raw::recv_buf_new(TOTAL as u64, TOTAL as u64, arena))
}

fn in_turn(room: &mut Room) {
    let mut s = send_buf(&room.send_arena);
    for p in &room.pieces {
        step(
            raw::send_buf_write(s, &mut room.send_arena, &room.input[p.clone()], p.end == TOTAL),
            &mut s,
        );
    }
    for p in &room.pieces {
        step(raw::send_buf_emit(s, &room.send_arena, &mut room.out[p.clone()]), &mut s);
    }
    for p in &room.pieces {
        step(raw::send_buf_ack_and_drop(s, p.start as u64, p.len() as u64), &mut s);
    }
    black_box(s);
}

fn piece_by_piece(room: &mut Room) {
    let mut s = send_buf(&room.send_arena);
    for p in &room.pieces {
        step(
            raw::send_buf_write(s, &mut room.send_arena, &room.input[p.clone()], p.end == TOTAL),
            &mut s,
        );
        step(raw::send_buf_emit(s, &room.send_arena, &mut room.out[p.clone()]), &mut s);
        step(raw::send_buf_ack_and_drop(s, p.start as u64, p.len() as u64), &mut s);
    }
    black_box(s);
}

/// W2, and the state that it leaves.
pub fn written_whole(room: &mut Room) -> SendBufState {
    let mut s = send_buf(&room.send_arena);
    step(raw::send_buf_write(s, &mut room.send_arena, &room.input, true), &mut s);
    s
}

/// Emits all that W2 has left, so that it can be looked at.
pub fn emitted_whole(mut s: SendBufState, room: &mut Room) {
    assert_eq!(
        step(raw::send_buf_emit(s, &room.send_arena, &mut room.out), &mut s),
        TOTAL as u64
    );
}

fn read(r: &mut RecvBufState, arena: &[u8], out: &mut [u8]) {
    for part in out.chunks_mut(READ) {
        step(raw::recv_buf_emit(*r, arena, part), r);
    }
}

fn received(frames: &[Range<usize>], input: &[u8], arena: &mut [u8]) -> RecvBufState {
    let mut r = recv_buf(arena);
    for p in frames {
        let (off, end) = (p.start as u64, p.end == TOTAL);
        step(raw::recv_buf_write(r, arena, off, &input[p.clone()], end), &mut r);
    }
    r
}

fn in_order(room: &mut Room) {
    let mut r = received(&room.pieces, &room.input, &mut room.recv_arena);
    read(&mut r, &room.recv_arena, &mut room.out);
    black_box(r);
}

fn shuffled(room: &mut Room) {
    let mut r = received(&room.shuffled, &room.input, &mut room.recv_arena);
    read(&mut r, &room.recv_arena, &mut room.out);
    black_box(r);
}

fn range_set(room: &mut Room) {
    let mut set: RangeSetState = created(raw::range_set_new(64));
    for r in &room.ranges {
        step(raw::range_set_insert(set, r.start, r.end), &mut set);
    }
    for (v, told) in room.asked.iter().zip(&mut room.out) {
        *told = raw::range_set_contains(set, *v) as u8;
    }
}

fn pair(room: &mut Room) {
    let mut s = send_buf(&room.send_arena);
    let mut r = recv_buf(&room.recv_arena);
    step(raw::send_buf_write(s, &mut room.send_arena, &room.input, true), &mut s);
    for i in 0..room.pieces.len() {
        carried(&mut s, &mut r, room, lost(i));
    }
    for p in room.pieces.iter().enumerate().filter(|(i, _)| lost(*i)).map(|(_, p)| p) {
        step(raw::send_buf_retransmit(s, p.start as u64, p.len() as u64), &mut s);
    }
    while raw::send_buf_buffered_bytes(s) > 0 {
        carried(&mut s, &mut r, room, false);
    }
    read(&mut r, &room.recv_arena, &mut room.out);
    assert!(raw::send_buf_is_complete(s) && raw::recv_buf_is_fin(r));
}

/// Emits a frame; where it is not lost, it is received and acked.
fn carried(s: &mut SendBufState, r: &mut RecvBufState, room: &mut Room, lost: bool) {
    let off = raw::send_buf_off_front(*s);
    let out = raw::send_buf_emit(*s, &room.send_arena, &mut room.frame[..PIECE]);
    let (n, fin) = (out.answer.first as usize, out.answer.second == 1);
    step(out, s);
    if lost {
        return;
    }
    step(raw::recv_buf_write(*r, &mut room.recv_arena, off, &room.frame[..n], fin), r);
    step(raw::send_buf_ack_and_drop(*s, off, n as u64), s);
}

fn send_states(room: &mut Room) {
    let mut s = send_buf(&room.send_arena);
    for _ in 0..165 {
        s = raw::send_buf_update_blocked_at(s, false, 0);
    }
    black_box(s);
}

fn recv_states(room: &mut Room) {
    let mut r = recv_buf(&room.recv_arena);
    let flow = raw::recv_buf_flow_control(r);
    for _ in 0..71 {
        r = raw::recv_buf_set_flow_control(r, flow);
    }
    black_box(r);
}

fn send_getters(room: &mut Room) {
    let s = send_buf(&room.send_arena);
    for _ in 0..165 {
        black_box(raw::send_buf_off_back(s));
    }
}
