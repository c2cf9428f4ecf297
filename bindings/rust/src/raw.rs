//! The static library's functions and states, and the only `unsafe` of this crate.
//!
//! Why each call is sound. The library's functions ask one thing of a caller: that a state came from creation or a call, or that
//! `is_good` accepted it, which is the same to them (docs/RULES.md, 9). Outside this file a state comes out of a call, or goes
//! through a `from_state`, which asks `is_good`, before it reaches another; and this crate never changes a field. The `is_good`
//! functions themselves ask nothing of a state. They look at a flag as a byte, which a `bool` is. A slice goes over as its
//! pointer and length, is valid for the whole call, and the library keeps no pointer to it. Sizes and offsets of every struct are
//! held to the library's by the test `layout`.

/// One chunk: stream offset, length, consumed part.
#[repr(C)]
#[derive(Clone, Copy, Debug, PartialEq, Eq)]
pub struct RangeBufState {
    pub off: u64,
    pub len: u64,
    pub pos: u64,
}

/// The numbers from `start` to before `end`.
#[repr(C)]
#[derive(Clone, Copy, Debug, PartialEq, Eq)]
pub struct RangeState {
    pub start: u64,
    pub end: u64,
}

/// A number that may be missing; the value is 0 where it is.
#[repr(C)]
#[derive(Clone, Copy, Debug, PartialEq, Eq)]
pub struct Number {
    pub known: bool,
    pub value: u64,
}

impl Number {
    pub fn get(self) -> Option<u64> {
        self.known.then_some(self.value)
    }
}

/// The number of a refusal (docs/RULES.md, 2.1), 0 for a success, and the values that go with it.
#[repr(C)]
#[derive(Clone, Copy, Debug, PartialEq, Eq)]
pub struct Answer {
    pub number: u64,
    pub first: u64,
    pub second: u64,
}

/// The state of a window.
#[repr(C)]
#[derive(Clone, Copy, Debug, PartialEq, Eq)]
pub struct FlowControlState {
    pub consumed: u64,
    pub max_data: u64,
    pub window: u64,
    pub max_window: u64,
    pub last_update: Number,
}

/// The state of a range set: the first `count` places are in use.
#[repr(C)]
#[derive(Clone, Copy, Debug, PartialEq, Eq)]
pub struct RangeSetState {
    pub inner: [RangeState; 64],
    pub count: usize,
    pub capacity: usize,
}

/// The state of a send buffer: the first `count` places of `data` are in use.
#[repr(C)]
#[derive(Clone, Copy, Debug, PartialEq, Eq)]
pub struct SendBufState {
    pub data: [RangeBufState; 64],
    pub count: usize,
    pub pos: usize,
    pub off: u64,
    pub emit_off: u64,
    pub buffered_bytes: u64,
    pub max_data: u64,
    pub blocked_at: Number,
    pub fin_off: Number,
    pub shutdown: bool,
    pub acked: RangeSetState,
    pub error: Number,
    pub arena_len: usize,
}

/// The state of a receive buffer: the first `count` places of `data` are in use.
#[repr(C)]
#[derive(Clone, Copy, Debug, PartialEq, Eq)]
pub struct RecvBufState {
    pub data: [RangeBufState; 64],
    pub count: usize,
    pub off: u64,
    pub len: u64,
    pub flow_control: FlowControlState,
    pub fin_off: Number,
    pub error: Number,
    pub drain: bool,
    pub arena_len: usize,
}

/// A state after a call, and what the call answered.
#[repr(C)]
#[derive(Clone, Copy, Debug)]
pub struct Out<S> {
    pub state: S,
    pub answer: Answer,
}

/// A chunk after a split, its right part, and what the split answered.
#[repr(C)]
#[derive(Clone, Copy, Debug)]
pub struct SplitOut {
    pub state: RangeBufState,
    pub right: RangeBufState,
    pub answer: Answer,
}

/// A range, where there is one.
#[repr(C)]
#[derive(Clone, Copy, Debug)]
pub struct RangeOut {
    pub range: RangeState,
    pub known: bool,
}

/// Declares the library's functions and gives each a safe one of the same name.
macro_rules! calls {
    ($($link:ident as $name:ident($($arg:ident: $type:ty),*) -> $result:ty;)*) => {
        mod link {
            use super::*;
            extern "C" {
                $(pub fn $link($($arg: $type),*) -> $result;)*
            }
        }
        $(
            pub fn $name($($arg: $type),*) -> $result {
                // Sound by the head of this file.
                unsafe { link::$link($($arg),*) }
            }
        )*
    };
}

calls! {
    vk_range_buf_from as range_buf_from(off: u64, len: u64) -> Out<RangeBufState>;
    vk_range_buf_off as range_buf_off(buf: RangeBufState) -> u64;
    vk_range_buf_max_off as range_buf_max_off(buf: RangeBufState) -> u64;
    vk_range_buf_len as range_buf_len(buf: RangeBufState) -> u64;
    vk_range_buf_is_empty as range_buf_is_empty(buf: RangeBufState) -> bool;
    vk_range_buf_consume as range_buf_consume(buf: RangeBufState, count: u64) -> Out<RangeBufState>;
    vk_range_buf_split_off as range_buf_split_off(buf: RangeBufState, at: u64) -> SplitOut;
    vk_range_buf_is_good as range_buf_is_good(buf: RangeBufState) -> bool;

    vk_flow_control_new as flow_control_new(max_data: u64, window: u64, max_window: u64) -> Out<FlowControlState>;
    vk_flow_control_window as flow_control_window(flow: FlowControlState) -> u64;
    vk_flow_control_max_data as flow_control_max_data(flow: FlowControlState) -> u64;
    vk_flow_control_add_consumed as flow_control_add_consumed(flow: FlowControlState, consumed: u64) -> Out<FlowControlState>;
    vk_flow_control_should_update_max_data as flow_control_should_update_max_data(flow: FlowControlState) -> bool;
    vk_flow_control_max_data_next as flow_control_max_data_next(flow: FlowControlState) -> u64;
    vk_flow_control_update_max_data as flow_control_update_max_data(flow: FlowControlState, now: u64) -> FlowControlState;
    vk_flow_control_autotune_window as flow_control_autotune_window(flow: FlowControlState, now: u64, rtt: u64) -> FlowControlState;
    vk_flow_control_ensure_window_lower_bound as flow_control_ensure_window_lower_bound(flow: FlowControlState, min_window: u64) -> Out<FlowControlState>;
    vk_flow_control_is_good as flow_control_is_good(flow: FlowControlState) -> bool;

    vk_range_set_new as range_set_new(capacity: usize) -> Out<RangeSetState>;
    vk_range_set_len as range_set_len(set: RangeSetState) -> usize;
    vk_range_set_contains as range_set_contains(set: RangeSetState, item: u64) -> bool;
    vk_range_set_get as range_set_get(set: RangeSetState, i: usize) -> RangeOut;
    vk_range_set_last as range_set_last(set: RangeSetState) -> Number;
    vk_range_set_eq as range_set_eq(set: RangeSetState, start: u64, end: u64) -> bool;
    vk_range_set_insert as range_set_insert(set: RangeSetState, start: u64, end: u64) -> Out<RangeSetState>;
    vk_range_set_try_insert as range_set_try_insert(set: RangeSetState, start: u64, end: u64) -> Out<RangeSetState>;
    vk_range_set_push_item as range_set_push_item(set: RangeSetState, item: u64) -> Out<RangeSetState>;
    vk_range_set_remove_until as range_set_remove_until(set: RangeSetState, largest: u64) -> RangeSetState;
    vk_range_set_is_good as range_set_is_good(set: RangeSetState) -> bool;

    vk_send_buf_update_max_data as send_buf_update_max_data(buf: SendBufState, max_data: u64) -> Out<SendBufState>;
    vk_send_buf_update_blocked_at as send_buf_update_blocked_at(buf: SendBufState, known: bool, value: u64) -> SendBufState;
    vk_send_buf_blocked_at as send_buf_blocked_at(buf: SendBufState) -> Number;
    vk_send_buf_ack as send_buf_ack(buf: SendBufState, off: u64, len: u64) -> Out<SendBufState>;
    vk_send_buf_ack_and_drop as send_buf_ack_and_drop(buf: SendBufState, off: u64, len: u64) -> Out<SendBufState>;
    vk_send_buf_retransmit as send_buf_retransmit(buf: SendBufState, off: u64, len: u64) -> Out<SendBufState>;
    vk_send_buf_reset as send_buf_reset(buf: SendBufState) -> Out<SendBufState>;
    vk_send_buf_stop as send_buf_stop(buf: SendBufState, code: u64) -> Out<SendBufState>;
    vk_send_buf_shutdown as send_buf_shutdown(buf: SendBufState) -> Out<SendBufState>;
    vk_send_buf_off_back as send_buf_off_back(buf: SendBufState) -> u64;
    vk_send_buf_off_front as send_buf_off_front(buf: SendBufState) -> u64;
    vk_send_buf_max_off as send_buf_max_off(buf: SendBufState) -> u64;
    vk_send_buf_is_fin as send_buf_is_fin(buf: SendBufState) -> bool;
    vk_send_buf_is_complete as send_buf_is_complete(buf: SendBufState) -> bool;
    vk_send_buf_is_stopped as send_buf_is_stopped(buf: SendBufState) -> bool;
    vk_send_buf_is_shutdown as send_buf_is_shutdown(buf: SendBufState) -> bool;
    vk_send_buf_is_empty as send_buf_is_empty(buf: SendBufState) -> bool;
    vk_send_buf_ack_off as send_buf_ack_off(buf: SendBufState) -> u64;
    vk_send_buf_cap as send_buf_cap(buf: SendBufState) -> Answer;
    vk_send_buf_bufs_count as send_buf_bufs_count(buf: SendBufState) -> usize;
    vk_send_buf_buffered_bytes as send_buf_buffered_bytes(buf: SendBufState) -> u64;
    vk_send_buf_is_good as send_buf_is_good(buf: SendBufState) -> bool;

    vk_recv_buf_discard as recv_buf_discard(buf: RecvBufState, len: u64) -> Out<RecvBufState>;
    vk_recv_buf_reset as recv_buf_reset(buf: RecvBufState, code: u64, size: u64) -> Out<RecvBufState>;
    vk_recv_buf_shutdown as recv_buf_shutdown(buf: RecvBufState) -> Out<RecvBufState>;
    vk_recv_buf_update_max_data as recv_buf_update_max_data(buf: RecvBufState, now: u64) -> RecvBufState;
    vk_recv_buf_max_data_next as recv_buf_max_data_next(buf: RecvBufState) -> u64;
    vk_recv_buf_max_data as recv_buf_max_data(buf: RecvBufState) -> u64;
    vk_recv_buf_window as recv_buf_window(buf: RecvBufState) -> u64;
    vk_recv_buf_autotune_window as recv_buf_autotune_window(buf: RecvBufState, now: u64, rtt: u64) -> RecvBufState;
    vk_recv_buf_off_front as recv_buf_off_front(buf: RecvBufState) -> u64;
    vk_recv_buf_almost_full as recv_buf_almost_full(buf: RecvBufState) -> bool;
    vk_recv_buf_max_off as recv_buf_max_off(buf: RecvBufState) -> u64;
    vk_recv_buf_is_fin as recv_buf_is_fin(buf: RecvBufState) -> bool;
    vk_recv_buf_is_draining as recv_buf_is_draining(buf: RecvBufState) -> bool;
    vk_recv_buf_ready as recv_buf_ready(buf: RecvBufState) -> bool;
    vk_recv_buf_readable_len as recv_buf_readable_len(buf: RecvBufState, max_len: u64) -> u64;
    vk_recv_buf_flow_control as recv_buf_flow_control(buf: RecvBufState) -> FlowControlState;
    vk_recv_buf_set_flow_control as recv_buf_set_flow_control(buf: RecvBufState, flow: FlowControlState) -> RecvBufState;
    vk_recv_buf_is_good as recv_buf_is_good(buf: RecvBufState) -> bool;
}

/// The calls that are lent bytes: a slice goes over as its pointer and its length.
mod lent {
    use super::*;
    extern "C" {
        pub fn vk_send_buf_new(max_data: u64, arena: *const u8, arena_len: usize) -> Out<SendBufState>;
        pub fn vk_send_buf_write(
            buf: SendBufState,
            arena: *mut u8,
            arena_len: usize,
            input: *const u8,
            input_len: usize,
            fin: bool,
        ) -> Out<SendBufState>;
        pub fn vk_send_buf_emit(
            buf: SendBufState,
            arena: *const u8,
            arena_len: usize,
            out: *mut u8,
            out_len: usize,
        ) -> Out<SendBufState>;
        pub fn vk_recv_buf_new(max_data: u64, max_window: u64, arena: *const u8, arena_len: usize) -> Out<RecvBufState>;
        pub fn vk_recv_buf_write(
            buf: RecvBufState,
            arena: *mut u8,
            arena_len: usize,
            off: u64,
            input: *const u8,
            input_len: usize,
            fin: bool,
        ) -> Out<RecvBufState>;
        pub fn vk_recv_buf_emit(
            buf: RecvBufState,
            arena: *const u8,
            arena_len: usize,
            out: *mut u8,
            out_len: usize,
        ) -> Out<RecvBufState>;
    }
}

pub fn send_buf_new(max_data: u64, arena: &[u8]) -> Out<SendBufState> {
    // Sound by the head of this file: the slice is only looked at for its length.
    unsafe { lent::vk_send_buf_new(max_data, arena.as_ptr(), arena.len()) }
}

pub fn send_buf_write(buf: SendBufState, arena: &mut [u8], input: &[u8], fin: bool) -> Out<SendBufState> {
    // Sound by the head of this file: `arena` is borrowed to be written, so `input` is not a part of it.
    unsafe { lent::vk_send_buf_write(buf, arena.as_mut_ptr(), arena.len(), input.as_ptr(), input.len(), fin) }
}

pub fn send_buf_emit(buf: SendBufState, arena: &[u8], out: &mut [u8]) -> Out<SendBufState> {
    // Sound by the head of this file: `out` is borrowed to be written, so it is not a part of `arena`.
    unsafe { lent::vk_send_buf_emit(buf, arena.as_ptr(), arena.len(), out.as_mut_ptr(), out.len()) }
}

pub fn recv_buf_new(max_data: u64, max_window: u64, arena: &[u8]) -> Out<RecvBufState> {
    // Sound by the head of this file: the slice is only looked at for its length.
    unsafe { lent::vk_recv_buf_new(max_data, max_window, arena.as_ptr(), arena.len()) }
}

pub fn recv_buf_write(buf: RecvBufState, arena: &mut [u8], off: u64, input: &[u8], fin: bool) -> Out<RecvBufState> {
    // Sound by the head of this file: `arena` is borrowed to be written, so `input` is not a part of it.
    unsafe { lent::vk_recv_buf_write(buf, arena.as_mut_ptr(), arena.len(), off, input.as_ptr(), input.len(), fin) }
}

pub fn recv_buf_emit(buf: RecvBufState, arena: &[u8], out: &mut [u8]) -> Out<RecvBufState> {
    // Sound by the head of this file: `out` is borrowed to be written, so it is not a part of `arena`.
    unsafe { lent::vk_recv_buf_emit(buf, arena.as_ptr(), arena.len(), out.as_mut_ptr(), out.len()) }
}
