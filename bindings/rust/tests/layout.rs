//! Sizes and offsets of every state, as the library has them: nothing else ties these declarations to its source.

use std::mem::offset_of;
use std::mem::size_of;
use valemkhor::FlowControlState;
use valemkhor::Number;
use valemkhor::RangeBufState;
use valemkhor::RangeSetState;
use valemkhor::RangeState;
use valemkhor::RecvBufState;
use valemkhor::SendBufState;

#[test]
fn small_states() {
    assert_eq!(
        (
            size_of::<RangeBufState>(),
            offset_of!(RangeBufState, off),
            offset_of!(RangeBufState, len),
            offset_of!(RangeBufState, pos)
        ),
        (24, 0, 8, 16)
    );
    assert_eq!(
        (
            size_of::<RangeState>(),
            offset_of!(RangeState, start),
            offset_of!(RangeState, end)
        ),
        (16, 0, 8)
    );
    assert_eq!(
        (size_of::<Number>(), offset_of!(Number, known), offset_of!(Number, value)),
        (16, 0, 8)
    );
    assert_eq!(
        (
            size_of::<FlowControlState>(),
            offset_of!(FlowControlState, consumed),
            offset_of!(FlowControlState, max_data)
        ),
        (48, 0, 8)
    );
    assert_eq!(
        (
            offset_of!(FlowControlState, window),
            offset_of!(FlowControlState, max_window),
            offset_of!(FlowControlState, last_update)
        ),
        (16, 24, 32)
    );
    assert_eq!((size_of::<RangeSetState>(), offset_of!(RangeSetState, inner)), (1040, 0));
    assert_eq!(
        (offset_of!(RangeSetState, count), offset_of!(RangeSetState, capacity)),
        (1024, 1032)
    );
}

#[test]
fn send_buffer() {
    assert_eq!(size_of::<SendBufState>(), 2688);
    let offsets = [
        offset_of!(SendBufState, data),
        offset_of!(SendBufState, count),
        offset_of!(SendBufState, pos),
        offset_of!(SendBufState, off),
        offset_of!(SendBufState, emit_off),
        offset_of!(SendBufState, buffered_bytes),
        offset_of!(SendBufState, max_data),
        offset_of!(SendBufState, blocked_at),
        offset_of!(SendBufState, fin_off),
        offset_of!(SendBufState, shutdown),
        offset_of!(SendBufState, acked),
        offset_of!(SendBufState, error),
        offset_of!(SendBufState, arena_len),
    ];
    assert_eq!(
        offsets,
        [0, 1536, 1544, 1552, 1560, 1568, 1576, 1584, 1600, 1616, 1624, 2664, 2680]
    );
}

#[test]
fn receive_buffer() {
    assert_eq!(size_of::<RecvBufState>(), 1656);
    let offsets = [
        offset_of!(RecvBufState, data),
        offset_of!(RecvBufState, count),
        offset_of!(RecvBufState, off),
        offset_of!(RecvBufState, len),
        offset_of!(RecvBufState, flow_control),
        offset_of!(RecvBufState, fin_off),
        offset_of!(RecvBufState, error),
        offset_of!(RecvBufState, drain),
        offset_of!(RecvBufState, arena_len),
    ];
    assert_eq!(offsets, [0, 1536, 1544, 1552, 1560, 1608, 1624, 1640, 1648]);
}
