//! States that were saved and restored: they go on as if nothing had happened, and damaged ones are refused or do no harm.

use std::mem::offset_of;
use valemkhor::BadState;
use valemkhor::FlowControl;
use valemkhor::FlowControlState;
use valemkhor::RangeBuf;
use valemkhor::RangeBufState;
use valemkhor::RangeSet;
use valemkhor::RangeSetState;
use valemkhor::RecvBuf;
use valemkhor::RecvBufState;
use valemkhor::Refusal;
use valemkhor::SendBuf;
use valemkhor::SendBufState;

/// The buffer once more, by way of the bytes that go into a file.
fn restarted_send(send: &SendBuf) -> SendBuf<'static> {
    let state = SendBufState::from_bytes(&send.state().to_bytes()).unwrap();
    SendBuf::from_state(&state, send.arena()).unwrap()
}

fn restarted_recv(recv: &RecvBuf) -> RecvBuf<'static> {
    let state = RecvBufState::from_bytes(&recv.state().to_bytes()).unwrap();
    RecvBuf::from_state(&state, recv.arena()).unwrap()
}

/// Random numbers that a seed repeats.
struct Dice(u64);

impl Dice {
    fn below(&mut self, n: u64) -> u64 {
        self.0 ^= self.0 << 13;
        self.0 ^= self.0 >> 7;
        self.0 ^= self.0 << 17;
        self.0 % n
    }
}

/// A call with its numbers: `at` is an offset, `n` a count.
#[derive(Clone, Copy, Debug)]
struct Call {
    which: u64,
    at: u64,
    n: usize,
    fin: bool,
}

impl Call {
    fn any(dice: &mut Dice, which: u64, top: u64) -> Call {
        Call {
            which: dice.below(which),
            at: dice.below(top + 10),
            n: dice.below(40) as usize,
            fin: dice.below(40) == 0,
        }
    }
}

/// What a call answered, and what it put out.
fn on_send(send: &mut SendBuf, call: Call) -> String {
    let (mut out, input) = ([0; 40], [call.at as u8; 40]);
    let said = match call.which {
        0..=2 => format!("{:?}", send.write(&input[..call.n], call.fin)),
        3..=5 => format!("{:?}", send.emit(&mut out[..call.n])),
        6 => format!("{:?}", send.ack(call.at, call.n as u64)),
        7 => format!("{:?}", send.ack_and_drop(call.at, call.n as u64)),
        8 => format!("{:?}", send.retransmit(call.at, call.n as u64)),
        9 => format!("{:?}", send.update_max_data(call.at + 50)),
        10 => format!("{:?}", send.update_blocked_at(call.fin.then_some(call.at))),
        _ if call.fin => format!("{:?}", send.stop(call.at)),
        _ => format!("{:?}", (send.cap(), send.off_front(), send.is_fin(), send.is_complete())),
    };
    format!("{said} {out:?}")
}

fn on_recv(recv: &mut RecvBuf, call: Call) -> String {
    let (mut out, input) = ([0; 40], [call.at as u8; 40]);
    let said = match call.which {
        0..=3 => format!("{:?}", recv.write(call.at, &input[..call.n], call.fin)),
        4..=5 => format!("{:?}", recv.emit(&mut out[..call.n])),
        6 => format!("{:?}", recv.discard(call.n as u64 / 8)),
        7 => format!("{:?}", recv.update_max_data(call.at)),
        8 => format!("{:?}", recv.autotune_window(call.at, 10)),
        _ if call.fin && call.n < 20 => format!("{:?}", recv.shutdown()),
        _ if call.fin => format!("{:?}", recv.reset(call.at, recv.max_off())),
        _ => format!(
            "{:?}",
            (recv.ready(), recv.is_fin(), recv.almost_full(), recv.readable_len(99))
        ),
    };
    format!("{said} {out:?}")
}

#[test]
fn a_restored_send_buffer_answers_as_the_original_does() {
    let mut dice = Dice(1);
    for _ in 0..40 {
        let mut send = SendBuf::new(300, 128).unwrap();
        for _ in 0..200 {
            let call = Call::any(&mut dice, 12, send.off_back());
            let mut other = restarted_send(&send);
            assert_eq!(on_send(&mut other, call), on_send(&mut send, call), "{call:?}");
            assert_eq!((other.state(), other.arena()), (send.state(), send.arena()), "{call:?}");
        }
    }
}

#[test]
fn a_restored_receive_buffer_answers_as_the_original_does() {
    let mut dice = Dice(2);
    for _ in 0..40 {
        let mut recv = RecvBuf::new(300, 400, 128).unwrap();
        for _ in 0..200 {
            let call = Call::any(&mut dice, 10, recv.off_front() + 100);
            let mut other = restarted_recv(&recv);
            assert_eq!(on_recv(&mut other, call), on_recv(&mut recv, call), "{call:?}");
            assert_eq!((other.state(), other.arena()), (recv.state(), recv.arena()), "{call:?}");
        }
    }
}

#[test]
fn the_closing_write_of_no_bytes_is_not_forgotten() {
    let mut send = SendBuf::new(10, 64).unwrap();
    send.write(b"abc", false).unwrap();
    send.write(b"", true).unwrap();
    let mut send = restarted_send(&send);
    assert!(send.is_fin());
    assert_eq!(send.write(b"d", false), Err(Refusal::FinalSize));
    assert_eq!(send.emit(&mut [0; 9]), Ok((3, true)));

    // Lost with its bytes, and sent again by the next program.
    assert_eq!(send.retransmit(0, 3), Ok(3));
    assert_eq!(restarted_send(&send).emit(&mut [0; 9]), Ok((3, true)));
}

#[test]
fn the_end_of_a_stream_of_no_bytes_is_not_forgotten() {
    let mut send = SendBuf::new(0, 1).unwrap();
    send.write(b"", true).unwrap();
    let mut send = restarted_send(&send);
    assert_eq!(send.emit(&mut []), Ok((0, true)));
    send.ack(0, 0).unwrap();
    assert!(restarted_send(&send).is_complete());

    let mut recv = RecvBuf::new(0, 0, 1).unwrap();
    recv.write(0, b"", true).unwrap();
    let mut recv = restarted_recv(&recv);
    assert_eq!(recv.emit(&mut []), Ok((0, true)));
    assert!(restarted_recv(&recv).is_fin());
}

#[test]
fn an_end_mark_that_came_before_its_bytes_is_not_forgotten() {
    let mut recv = RecvBuf::new(100, 100, 64).unwrap();
    recv.write(3, b"", true).unwrap();
    let mut recv = restarted_recv(&recv);
    assert_eq!(recv.write(2, b"cd", false), Err(Refusal::FinalSize));
    recv.write(0, b"abc", false).unwrap();
    let mut out = [0; 8];
    assert_eq!(restarted_recv(&recv).emit(&mut out), Ok((3, true)));
    assert_eq!(&out[..3], b"abc");
}

#[test]
fn a_reset_is_still_told_once() {
    let mut recv = RecvBuf::new(100, 100, 64).unwrap();
    recv.reset(7, 5).unwrap();
    let mut recv = restarted_recv(&recv);
    assert_eq!(recv.emit(&mut []), Err(Refusal::Reset(7)));
    assert_eq!(restarted_recv(&recv).emit(&mut []), Err(Refusal::Done));
}

#[test]
fn a_lent_arena_is_taken_up_again() {
    let (mut here, mut there) = ([0; 16], [0; 16]);
    let mut send = SendBuf::with_arena(100, &mut here).unwrap();
    send.write(b"abc", true).unwrap();
    let state = *send.state();
    there.copy_from_slice(send.arena());
    let mut send = SendBuf::from_state_with_arena(&state, &mut there).unwrap();
    let mut out = [0; 8];
    assert_eq!((send.emit(&mut out), &out[..3]), (Ok((3, true)), &b"abc"[..]));
}

#[test]
fn small_objects_are_restored() {
    let mut chunk = RangeBuf::from(5, 10).unwrap();
    chunk.consume(3).unwrap();
    let state = RangeBufState::from_bytes(&chunk.state().to_bytes()).unwrap();
    assert_eq!(RangeBuf::from_state(&state), Ok(chunk));

    let mut flow = FlowControl::new(16, 16, 24).unwrap();
    flow.update_max_data(100);
    let state = FlowControlState::from_bytes(&flow.state().to_bytes()).unwrap();
    assert_eq!(FlowControl::from_state(&state), Ok(flow));

    let mut set = RangeSet::new(3).unwrap();
    set.insert(2..4).unwrap();
    set.insert(7..7).unwrap();
    let state = RangeSetState::from_bytes(&set.state().to_bytes()).unwrap();
    assert_eq!(RangeSet::from_state(&state), Ok(set));
}

#[test]
fn the_form_is_the_same_on_every_machine() {
    let mut chunk = RangeBuf::from(0x0102, 3).unwrap();
    chunk.consume(1).unwrap();
    let words = [0x0102_u64, 3, 1].map(u64::to_le_bytes).concat();
    assert_eq!(chunk.state().to_bytes()[..], [&b"vk-chnk1"[..], &words].concat());

    let mut flow = FlowControl::new(16, 8, 24).unwrap();
    flow.update_max_data(9);
    let words = [0_u64, 8, 8, 24, 1, 9].map(u64::to_le_bytes).concat();
    assert_eq!(flow.state().to_bytes()[..], [&b"vk-flow1"[..], &words].concat());
}

/// The numbers saved at these places of the struct, behind the eight bytes that name it.
fn words<const N: usize>(bytes: &[u8], places: [usize; N]) -> [u64; N] {
    places.map(|place| u64::from_le_bytes(bytes[place + 8..place + 16].try_into().unwrap()))
}

#[test]
fn a_send_buffer_is_saved_in_the_order_of_its_fields() {
    let mut s = *SendBuf::new(6, 9).unwrap().state();
    (s.data[63].off, s.count, s.pos, s.off, s.emit_off, s.buffered_bytes) = (10, 1, 2, 3, 4, 5);
    (s.blocked_at.value, s.fin_off.value, s.shutdown, s.acked.count, s.error.value) = (7, 8, true, 11, 12);
    let ends = [
        offset_of!(SendBufState, data) + 63 * 24,
        offset_of!(SendBufState, count),
        offset_of!(SendBufState, pos),
        offset_of!(SendBufState, off),
        offset_of!(SendBufState, emit_off),
        offset_of!(SendBufState, buffered_bytes),
        offset_of!(SendBufState, max_data),
        offset_of!(SendBufState, blocked_at.value),
        offset_of!(SendBufState, fin_off.value),
        offset_of!(SendBufState, shutdown),
        offset_of!(SendBufState, acked.count),
        offset_of!(SendBufState, acked.capacity),
        offset_of!(SendBufState, error.value),
        offset_of!(SendBufState, arena_len),
    ];
    assert_eq!(words(&s.to_bytes(), ends), [10, 1, 2, 3, 4, 5, 6, 7, 8, 1, 11, 64, 12, 9]);
}

#[test]
fn a_receive_buffer_is_saved_in_the_order_of_its_fields() {
    let mut r = *RecvBuf::new(6, 5, 9).unwrap().state();
    (r.data[63].off, r.count, r.off, r.len, r.flow_control.consumed) = (10, 1, 2, 3, 4);
    (r.flow_control.last_update.value, r.fin_off.value, r.error.value, r.drain) = (7, 8, 12, true);
    let ends = [
        offset_of!(RecvBufState, data) + 63 * 24,
        offset_of!(RecvBufState, count),
        offset_of!(RecvBufState, off),
        offset_of!(RecvBufState, len),
        offset_of!(RecvBufState, flow_control.consumed),
        offset_of!(RecvBufState, flow_control.max_data),
        offset_of!(RecvBufState, flow_control.window),
        offset_of!(RecvBufState, flow_control.last_update.value),
        offset_of!(RecvBufState, fin_off.value),
        offset_of!(RecvBufState, error.value),
        offset_of!(RecvBufState, drain),
        offset_of!(RecvBufState, arena_len),
    ];
    assert_eq!(words(&r.to_bytes(), ends), [10, 1, 2, 3, 4, 6, 5, 7, 8, 12, 1, 9]);
}

#[test]
fn bytes_of_another_form_are_refused() {
    let bytes = SendBuf::new(10, 64).unwrap().state().to_bytes();
    assert_eq!(SendBufState::from_bytes(&bytes[..bytes.len() - 1]), Err(BadState::Form));
    assert_eq!(SendBufState::from_bytes(&[]), Err(BadState::Form));
    assert_eq!(RecvBufState::from_bytes(&bytes), Err(BadState::Form));
    let mut newer = bytes;
    newer[7] = b'2';
    assert_eq!(SendBufState::from_bytes(&newer), Err(BadState::Form));
    let recv = RecvBuf::new(10, 10, 64).unwrap();
    assert_eq!(SendBufState::from_bytes(&recv.state().to_bytes()), Err(BadState::Form));
}

#[test]
fn a_flag_is_0_or_1() {
    let mut bytes = FlowControl::new(16, 16, 24).unwrap().state().to_bytes();
    for byte in 2..=255 {
        bytes[40] = byte; // last_update.known
        assert_eq!(FlowControlState::from_bytes(&bytes), Err(BadState::Form));
    }
    bytes[40] = 0;
    bytes[47] = 1;
    assert_eq!(FlowControlState::from_bytes(&bytes), Err(BadState::Form));
}

#[test]
fn numbers_that_contradict_each_other_are_refused() {
    let mut send = SendBuf::new(100, 64).unwrap();
    send.write(b"abcdef", false).unwrap();
    let arena = send.arena().to_vec();
    let changes: [fn(&mut SendBufState); 8] = [
        |s| s.count = 200,
        |s| s.count = 0,
        |s| s.pos = 2,
        |s| s.buffered_bytes += 1,
        |s| s.emit_off = 7,
        |s| s.max_data = 1 << 62,
        |s| s.fin_off.value = 6,
        |s| s.acked.capacity = 63,
    ];
    for change in changes {
        let mut state = *send.state();
        change(&mut state);
        assert_eq!(SendBuf::from_state(&state, &arena[..]).err(), Some(BadState::Numbers));
    }
    assert!(SendBuf::from_state(send.state(), arena).is_ok());
    let empty = RangeSetState::from_bytes(&[&b"vk-rset1"[..], &[0; 1040]].concat()).unwrap();
    assert_eq!(RangeSet::from_state(&empty), Err(BadState::Numbers));
}

#[test]
fn an_arena_of_another_length_is_refused() {
    let (send, recv) = (SendBuf::new(10, 64).unwrap(), RecvBuf::new(10, 10, 64).unwrap());
    for len in [0, 63, 65] {
        assert_eq!(SendBuf::from_state(send.state(), vec![0; len]).err(), Some(BadState::Arena));
        assert_eq!(RecvBuf::from_state(recv.state(), vec![0; len]).err(), Some(BadState::Arena));
        let mut lent = vec![0; len];
        assert_eq!(
            RecvBuf::from_state_with_arena(recv.state(), &mut lent).err(),
            Some(BadState::Arena)
        );
    }
    // All zero is what a refused creation leaves: it has no arena.
    let dead = RecvBufState::from_bytes(&[&b"vk-recv1"[..], &[0; 1656]].concat()).unwrap();
    assert_eq!(RecvBuf::from_state(&dead, vec![]).err(), Some(BadState::Arena));
}

/// Overwrites every byte of a saved send buffer: either it is refused, or the buffer answers every call and can be saved again.
#[test]
fn a_damaged_send_buffer_is_refused_or_answers() {
    let (mut dice, mut taken) = (Dice(3), 0);
    let mut send = SendBuf::new(300, 128).unwrap();
    (0..60).for_each(|_| drop(on_send(&mut send, Call::any(&mut dice, 11, 90))));
    let saved = send.state().to_bytes();
    for at in 0..saved.len() {
        let mut bytes = saved;
        bytes[at] ^= 1 << dice.below(8);
        let state = SendBufState::from_bytes(&bytes);
        if let Ok(mut send) = state.and_then(|state| SendBuf::from_state(&state, send.arena())) {
            taken += 1;
            (0..20).for_each(|_| drop(on_send(&mut send, Call::any(&mut dice, 12, 90))));
            restarted_send(&send);
        }
    }
    assert!(taken > 0);
}

#[test]
fn a_damaged_receive_buffer_is_refused_or_answers() {
    let (mut dice, mut taken) = (Dice(4), 0);
    let mut recv = RecvBuf::new(300, 400, 128).unwrap();
    (0..60).for_each(|_| drop(on_recv(&mut recv, Call::any(&mut dice, 9, 200))));
    let saved = recv.state().to_bytes();
    for at in 0..saved.len() {
        let mut bytes = saved;
        bytes[at] ^= 1 << dice.below(8);
        let state = RecvBufState::from_bytes(&bytes);
        if let Ok(mut recv) = state.and_then(|state| RecvBuf::from_state(&state, recv.arena())) {
            taken += 1;
            (0..20).for_each(|_| drop(on_recv(&mut recv, Call::any(&mut dice, 10, 200))));
            restarted_recv(&recv);
        }
    }
    assert!(taken > 0);
}
