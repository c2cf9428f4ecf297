//! The worked examples of docs/RULES.md, 10, and what a stream's user relies on, through the safe types.

use valemkhor::FlowControl;
use valemkhor::RangeBuf;
use valemkhor::RangeSet;
use valemkhor::RecvBuf;
use valemkhor::Refusal;
use valemkhor::SendBuf;

#[test]
fn a_shortened_write_drops_its_mark_and_an_empty_one_sets_it() {
    let mut send = SendBuf::new(10, 64).unwrap();
    assert_eq!(send.write(&[7; 15], true), Ok(10));
    assert!(!send.is_fin());
    assert_eq!(send.write(b"", true), Ok(0));
    assert!(send.is_fin());
    assert_eq!(send.write(b"", false), Err(Refusal::FinalSize));
}

#[test]
fn a_loss_is_answered_with_what_moves_back() {
    let mut send = SendBuf::new(20, 64).unwrap();
    let mut out = [0; 10];
    send.write(b"abcdefghij", false).unwrap();
    assert_eq!(send.emit(&mut out[..4]), Ok((4, false)));
    assert_eq!(send.emit(&mut out[..4]), Ok((4, false)));
    assert_eq!(send.retransmit(2, 3), Ok(3));
    assert_eq!((send.bufs_count(), send.buffered_bytes(), send.off_front()), (2, 5, 2));
    assert_eq!(send.emit(&mut out), Ok((3, false)));
    assert_eq!((&out[..3], send.off_front()), (&b"cde"[..], 8));
    assert_eq!(send.emit(&mut out), Ok((2, false)));
    assert_eq!(&out[..2], b"ij");
}

#[test]
fn a_stream_of_no_bytes_is_complete_only_once_acked() {
    let mut send = SendBuf::new(0, 1).unwrap();
    send.write(b"", true).unwrap();
    assert!(!send.is_complete());
    assert_eq!(send.emit(&mut []), Ok((0, true)));
    send.ack(0, 0).unwrap();
    assert!(send.is_complete());
}

#[test]
fn bytes_behind_acked_ones_are_accepted_and_a_write_of_none_closes_the_stream() {
    let mut send = SendBuf::new(20, 8).unwrap();
    let mut out = [0; 8];
    assert_eq!(send.ack(0, 3), Err(Refusal::NeverSent));
    for (off, data) in [(0, b"abc"), (3, b"def")] {
        assert_eq!(send.write(data, false), Ok(3));
        assert_eq!(send.emit(&mut out), Ok((3, false)));
        assert_eq!(&out[..3], data);
        assert_eq!(send.ack_and_drop(off, 4), Err(Refusal::NeverSent));
        assert_eq!(send.ack_and_drop(off, 3), Ok(0));
        // All is acked: a write of no bytes changes nothing yet.
        assert_eq!((send.ack_off(), send.off_back()), (off + 3, off + 3));
        assert_eq!((send.write(b"", false), send.is_fin()), (Ok(0), false));
    }
    assert_eq!((send.write(b"", true), send.is_fin(), send.off_back()), (Ok(0), true, 6));
    assert_eq!(send.emit(&mut out), Ok((0, true)));
    // Ended by a reset in its place, the stream counts as acked up to there too, and takes no byte more.
    send.reset();
    assert_eq!((send.ack_off(), send.off_back()), (6, 6));
    assert_eq!(send.write(b"g", true), Err(Refusal::FinalSize));
    assert_eq!(send.write(b"", true), Ok(0));
}

#[test]
fn the_first_arrival_stays() {
    let mut recv = RecvBuf::new(100, 100, 64).unwrap();
    recv.write(5, b"56789", false).unwrap();
    recv.write(0, b"abcdefg", false).unwrap();
    let mut out = [0; 16];
    assert_eq!(recv.emit(&mut out), Ok((10, false)));
    assert_eq!(&out[..10], b"abcde56789");
}

#[test]
fn a_final_size_is_final() {
    let mut recv = RecvBuf::new(100, 100, 64).unwrap();
    recv.write(10, b"", true).unwrap();
    assert_eq!(recv.write(9, b"ab", false), Err(Refusal::FinalSize));
}

#[test]
fn a_reset_is_told_once() {
    let mut recv = RecvBuf::new(12, 12, 64).unwrap();
    recv.write(0, &[1; 10], false).unwrap();
    assert_eq!(recv.discard(4), Ok((4, false)));
    assert_eq!(recv.reset(7, 8), Err(Refusal::FinalSize));
    assert_eq!(recv.reset(7, 12), Ok((2, 8)));
    assert_eq!(recv.reset(7, 12), Ok((0, 0)));
    assert_eq!(recv.emit(&mut [0; 4]), Err(Refusal::Reset(7)));
    assert_eq!(recv.emit(&mut [0; 4]), Err(Refusal::Done));
}

#[test]
fn a_lent_arena_has_its_own_length_as_limit() {
    let mut arena = [0; 8];
    let mut recv = RecvBuf::with_arena(100, 100, &mut arena).unwrap();
    assert_eq!(recv.write(0, &[1; 9], false), Err(Refusal::NoRoom));
    assert_eq!(recv.write(0, &[1; 8], false), Ok(()));
}

#[test]
fn creation_refuses_what_no_buffer_can_have() {
    assert_eq!(SendBuf::new(0, 0).err(), Some(Refusal::BadSetup));
    assert_eq!(SendBuf::new(0, 65537).err(), Some(Refusal::BadSetup));
    assert_eq!(SendBuf::new(1 << 62, 1).err(), Some(Refusal::BadSetup));
    assert_eq!(RecvBuf::new(0, 1 << 62, 1).err(), Some(Refusal::BadSetup));
    assert_eq!(RangeSet::new(65).err(), Some(Refusal::BadSetup));
    assert_eq!(RangeBuf::from(1 << 62, 0).err(), Some(Refusal::Offset));
}

#[test]
fn a_full_set_loses_its_lowest_range_or_says_so() {
    let mut set = RangeSet::new(2).unwrap();
    set.insert(10..12).unwrap();
    set.insert(20..22).unwrap();
    assert_eq!(set.try_insert(0..1), Err(Refusal::TableFull));
    let mut joined = set;
    joined.insert(12..20).unwrap();
    assert!(joined == (10..22));
    set.insert(0..1).unwrap();
    assert_eq!(set.iter().collect::<Vec<_>>(), vec![0..1, 20..22]);
}

#[test]
fn the_window_doubles_within_two_round_trips() {
    let mut flow = FlowControl::new(16, 16, 24).unwrap();
    flow.update_max_data(100);
    let mut late = flow;
    flow.autotune_window(119, 10);
    late.autotune_window(120, 10);
    assert_eq!((flow.window(), late.window()), (24, 16));
}

/// A send buffer with n bytes, written one by one: byte i is i mod 251.
fn singles(n: usize) -> SendBuf<'static> {
    let mut send = SendBuf::new(1000, 1000).unwrap();
    for i in 0..n {
        assert_eq!(send.write(&[(i % 251) as u8], false), Ok(1));
    }
    send
}

#[test]
fn a_65th_chunk_joins_all_that_may_be_joined() {
    let mut send = singles(64);
    assert_eq!(send.bufs_count(), 64);
    // The write of no bytes that closes a stream joins nothing, and is never refused.
    assert_eq!((send.write(&[], true), send.bufs_count()), (Ok(0), 64));

    let mut send = singles(65);
    assert_eq!((send.bufs_count(), send.buffered_bytes()), (1, 65));
    assert_eq!(send.write(&[], true), Ok(0));
    let mut out = [0; 100];
    assert_eq!(send.emit(&mut out), Ok((65, true)));
    assert!(out[..65].iter().enumerate().all(|(i, b)| *b == i as u8));
    // It is held until all of it is acked.
    assert_eq!((send.ack_and_drop(0, 64), send.bufs_count()), (Ok(0), 1));
    assert_eq!((send.ack_and_drop(64, 1), send.bufs_count()), (Ok(0), 0));
    assert!(send.is_complete());
}

#[test]
fn a_loss_is_refused_only_as_the_64th_separate_stretch() {
    let mut send = SendBuf::new(128, 128).unwrap();
    send.write(&[7; 128], false).unwrap();
    send.emit(&mut [0; 128]).unwrap();
    for i in 0..63 {
        assert_eq!(send.retransmit(2 * i, 1), Ok(1));
    }
    assert_eq!((send.bufs_count(), send.buffered_bytes()), (64, 63));
    assert_eq!(send.retransmit(126, 1), Err(Refusal::TableFull));
    assert_eq!((send.bufs_count(), send.buffered_bytes()), (64, 63));
    // A report that reaches what is lost already makes no stretch more; and after an emit the refused one is taken.
    assert_eq!(send.retransmit(123, 2), Ok(1));
    assert_eq!(send.emit(&mut [0; 9]), Ok((1, false)));
    assert_eq!(send.retransmit(126, 1), Ok(1));
}

#[test]
fn short_writes_over_a_link_that_loses_every_second_frame_arrive_whole() {
    let data: Vec<u8> = (0..3000u32).map(|i| (i * i % 249) as u8).collect();
    let mut send = SendBuf::new(3000, 1000).unwrap();
    let mut recv = RecvBuf::new(3000, 3000, 3000).unwrap();
    let (mut written, mut got, mut rounds) = (0, Vec::new(), 0);
    let mut out = [0; 3000];
    while !recv.is_fin() {
        // Byte by byte until the arena is full: many more writes than there are chunks.
        while written < data.len() && send.write(&data[written..written + 1], written + 1 == data.len()) == Ok(1) {
            written += 1;
        }
        assert!(send.bufs_count() <= 64);
        // All that is to be sent, in frames that end at multiples of 50, so that the receiver's table never fills (docs/OPERATORS.md).
        // Every second one is lost; what became of them is known once all are out.
        let (mut lost, mut turn) = (Vec::new(), rounds);
        while send.buffered_bytes() > 0 {
            let off = send.off_front();
            let (n, fin) = send.emit(&mut out[..50 - off as usize % 50]).unwrap();
            turn += 1;
            if turn % 2 == 0 {
                lost.push((off, n as u64));
            } else {
                recv.write(off, &out[..n], fin).unwrap();
                send.ack_and_drop(off, n as u64).unwrap();
            }
        }
        for (off, n) in lost {
            assert_eq!(send.retransmit(off, n), Ok(n as usize));
        }
        while let Ok((n, _)) = recv.emit(&mut out) {
            got.extend_from_slice(&out[..n]);
        }
        assert!(data.starts_with(&got));
        rounds += 1;
    }
    assert!(got == data && rounds > 3);
}
