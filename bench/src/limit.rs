//! The limit: the copies of stream bytes that any implementation must make which keeps its own copy of what it is given, in the same
//! pieces and the same order, as plain copies from slice to slice.
//!
//!     W1, W1i  55 pieces of 1,200 into a store, 55 out of it
//!     W2       one piece of 65,536 into a store
//!     W3       55 pieces of 1,200 into a store, 16 of 4,096 out of it
//!     W4       the same with the pieces shuffled; what comes a second time need not be copied
//!     W6       one piece of 65,536 into the sender's store, 55 and 11 frames of 1,200 out of it, 55 into the receiver's store, 16 of
//!              4,096 out of that
//!
//! W5 copies no stream bytes and has no limit here.

use crate::work::lost;
use crate::work::Room;
use crate::work::Run;
use crate::work::READ;
use std::hint::black_box;
use std::ops::Range;

pub fn run_of(work: &str) -> Option<Run> {
    Some(match work {
        "W1" => in_turn,
        "W1i" => piece_by_piece,
        "W2" => whole,
        "W3" => in_order,
        "W4" => shuffled,
        "W6" => pair,
        _ => return None,
    })
}

fn copied(to: &mut [u8], from: &[u8]) {
    black_box(to).copy_from_slice(black_box(from));
}

fn in_turn(room: &mut Room) {
    for p in &room.pieces {
        copied(&mut room.send_arena[p.clone()], &room.input[p.clone()]);
    }
    for p in &room.pieces {
        copied(&mut room.out[p.clone()], &room.send_arena[p.clone()]);
    }
}

fn piece_by_piece(room: &mut Room) {
    for p in &room.pieces {
        copied(&mut room.send_arena[p.clone()], &room.input[p.clone()]);
        copied(&mut room.out[p.clone()], &room.send_arena[p.clone()]);
    }
}

fn whole(room: &mut Room) {
    copied(&mut room.send_arena, &room.input);
}

fn received(store: &mut [u8], input: &[u8], frames: &[Range<usize>], out: &mut [u8]) {
    for p in frames {
        copied(&mut store[p.clone()], &input[p.clone()]);
    }
    read(store, out);
}

fn read(store: &[u8], out: &mut [u8]) {
    for (to, from) in out.chunks_mut(READ).zip(store.chunks(READ)) {
        copied(to, from);
    }
}

fn in_order(room: &mut Room) {
    received(&mut room.recv_arena, &room.input, &room.pieces, &mut room.out);
}

fn shuffled(room: &mut Room) {
    received(&mut room.recv_arena, &room.input, &room.firsts, &mut room.out);
}

fn pair(room: &mut Room) {
    copied(&mut room.send_arena, &room.input);
    for (i, p) in room.pieces.iter().enumerate() {
        copied(&mut room.frame[..p.len()], &room.send_arena[p.clone()]);
        if !lost(i) {
            copied(&mut room.recv_arena[p.clone()], &room.frame[..p.len()]);
        }
    }
    for (_, p) in room.pieces.iter().enumerate().filter(|(i, _)| lost(*i)) {
        copied(&mut room.frame[..p.len()], &room.send_arena[p.clone()]);
        copied(&mut room.recv_arena[p.clone()], &room.frame[..p.len()]);
    }
    read(&room.recv_arena, &mut room.out);
}
