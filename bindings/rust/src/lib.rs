//! The two buffers of a QUIC stream, proved.
//!
//! What is written into a [`SendBuf`] comes out of a [`RecvBuf`] whole, in order and with the same final size, or a call says by
//! number why not. The work is done by a static library whose every function is proved against its contract; this crate only
//! gives it Rust's types. Methods have quiche's names. Memory is fixed: a buffer has 64 chunks, and its bytes lie in an arena
//! that it owns or that the caller lends.
//!
//! ```
//! use valemkhor::{RecvBuf, SendBuf};
//!
//! let mut send = SendBuf::new(1 << 20, 4096)?;
//! let mut recv = RecvBuf::new(1 << 20, 1 << 20, 4096)?;
//!
//! send.write(b"trip at 253 V", false)?;
//! send.write(b"", true)?; // a write of no bytes closes the stream
//!
//! let mut frame = [0; 1200];
//! let off = send.off_front();
//! let (n, fin) = send.emit(&mut frame)?;
//! recv.write(off, &frame[..n], fin)?;
//!
//! let mut settings = [0; 64];
//! let (n, fin) = recv.emit(&mut settings)?;
//! assert_eq!((&settings[..n], fin), (&b"trip at 253 V"[..], true));
//! # Ok::<(), valemkhor::Refusal>(())
//! ```
//!
//! # Across a restart
//!
//! `state` gives what an object holds, as plain numbers; its `to_bytes` and `from_bytes` turn that into bytes of a fixed form and
//! back, and `from_state` makes the object again. A buffer's arena is saved beside its state, whole and of the same moment.
//! `from_state` takes any numbers safely: it refuses with a [`BadState`] those that contradict each other, and what it takes
//! answers every call (docs/RULES.md, 9). It cannot see that a state is another stream's, that it is old, or that the arena's
//! bytes are wrong: keep a name and a checksum beside them. Save before what a call gave leaves the program (a frame, an ack,
//! bytes for the application): the saved state must know all that the peer and the application have seen.

#![deny(unsafe_code)]
#![warn(missing_docs)]

#[allow(unsafe_code)]
#[allow(missing_docs)]
mod raw;
mod saved;

pub use raw::FlowControlState;
pub use raw::Number;
pub use raw::RangeBufState;
pub use raw::RangeSetState;
pub use raw::RangeState;
pub use raw::RecvBufState;
pub use raw::SendBufState;
pub use saved::BadState;

use raw::Answer;
use raw::Out;
use std::ops::Range;

/// The ten numbered refusals. Nothing changes where one is given, but for [`Refusal::Reset`], which clears the chunks.
#[derive(Clone, Copy, Debug, PartialEq, Eq)]
pub enum Refusal {
    /// 1: a number that no stream can have.
    Offset,
    /// 2: the peer asked to stop, with this code.
    Stopped(u64),
    /// 3: against the final size.
    FinalSize,
    /// 4: above the limit.
    FlowControl,
    /// 5: the bytes would not fit the arena.
    NoRoom,
    /// 6: a 65th chunk or acked range would be needed; a send buffer joins chunks first.
    TableFull,
    /// 7: bytes acked or lost that were never sent.
    NeverSent,
    /// 8: nothing ready, or done already.
    Done,
    /// 9: the peer reset the stream, with this code.
    Reset(u64),
    /// 10: a creation number out of range, or an arena of another length than at creation.
    BadSetup,
}

impl Refusal {
    /// The refusal's number.
    pub fn number(self) -> u64 {
        match self {
            Refusal::Offset => 1,
            Refusal::Stopped(_) => 2,
            Refusal::FinalSize => 3,
            Refusal::FlowControl => 4,
            Refusal::NoRoom => 5,
            Refusal::TableFull => 6,
            Refusal::NeverSent => 7,
            Refusal::Done => 8,
            Refusal::Reset(_) => 9,
            Refusal::BadSetup => 10,
        }
    }

    fn of(answer: Answer) -> Option<Refusal> {
        Some(match answer.number {
            0 => return None,
            1 => Refusal::Offset,
            2 => Refusal::Stopped(answer.first),
            3 => Refusal::FinalSize,
            4 => Refusal::FlowControl,
            5 => Refusal::NoRoom,
            6 => Refusal::TableFull,
            7 => Refusal::NeverSent,
            8 => Refusal::Done,
            9 => Refusal::Reset(answer.first),
            _ => Refusal::BadSetup,
        })
    }
}

impl std::fmt::Display for Refusal {
    fn fmt(&self, f: &mut std::fmt::Formatter) -> std::fmt::Result {
        match self {
            Refusal::Stopped(code) => write!(f, "refused 2: stopped by the peer with code {code}"),
            Refusal::Reset(code) => write!(f, "refused 9: reset by the peer with code {code}"),
            other => write!(f, "refused {}: {other:?}", other.number()),
        }
    }
}

impl std::error::Error for Refusal {}

/// What a call answers.
pub type Result<T> = std::result::Result<T, Refusal>;

fn checked(answer: Answer) -> Result<(u64, u64)> {
    match Refusal::of(answer) {
        None => Ok((answer.first, answer.second)),
        Some(refusal) => Err(refusal),
    }
}

/// Takes the state of a call over, also after a refusal, and hands its answer on.
fn step<S>(out: Out<S>, state: &mut S) -> Result<(u64, u64)> {
    *state = out.state;
    checked(out.answer)
}

/// Takes what `is_good` says.
fn good(says: bool) -> std::result::Result<(), BadState> {
    if says {
        Ok(())
    } else {
        Err(BadState::Numbers)
    }
}

/// One chunk of a stream: offset, length, consumed part. It holds numbers only.
#[derive(Clone, Copy, Debug, PartialEq, Eq)]
pub struct RangeBuf(RangeBufState);

impl RangeBuf {
    /// A chunk of `len` bytes at `off`. Refuses 1 where it would end above 2^62 - 1.
    pub fn from(off: u64, len: u64) -> Result<RangeBuf> {
        let out = raw::range_buf_from(off, len);
        checked(out.answer).map(|_| RangeBuf(out.state))
    }

    /// The chunk that had this state. Refuses numbers that contradict each other.
    pub fn from_state(state: &RangeBufState) -> std::result::Result<RangeBuf, BadState> {
        good(raw::range_buf_is_good(*state)).map(|()| RangeBuf(*state))
    }

    /// The offset of the first byte that is not consumed.
    pub fn off(&self) -> u64 {
        raw::range_buf_off(self.0)
    }

    /// The offset behind the last byte.
    pub fn max_off(&self) -> u64 {
        raw::range_buf_max_off(self.0)
    }

    /// How many bytes are not consumed.
    pub fn len(&self) -> u64 {
        raw::range_buf_len(self.0)
    }

    /// Are all bytes consumed?
    pub fn is_empty(&self) -> bool {
        raw::range_buf_is_empty(self.0)
    }

    /// Consumes `count` bytes more. Refuses 1 where fewer remain.
    pub fn consume(&mut self, count: u64) -> Result<()> {
        step(raw::range_buf_consume(self.0, count), &mut self.0).map(|_| ())
    }

    /// Splits behind the first `at` bytes, keeps the left part and gives the right. Refuses 1 where there are fewer.
    pub fn split_off(&mut self, at: u64) -> Result<RangeBuf> {
        let out = raw::range_buf_split_off(self.0, at);
        self.0 = out.state;
        checked(out.answer).map(|_| RangeBuf(out.right))
    }

    /// The numbers that the chunk holds: what `from_state` takes.
    pub fn state(&self) -> &RangeBufState {
        &self.0
    }
}

/// A receiver's window. Time is in microseconds.
#[derive(Clone, Copy, Debug, PartialEq, Eq)]
pub struct FlowControl(FlowControlState);

impl FlowControl {
    /// Refuses 10 where a number is above 2^62 - 1.
    pub fn new(max_data: u64, window: u64, max_window: u64) -> Result<FlowControl> {
        let out = raw::flow_control_new(max_data, window, max_window);
        checked(out.answer).map(|_| FlowControl(out.state))
    }

    /// The window that had this state. Refuses numbers that contradict each other.
    pub fn from_state(state: &FlowControlState) -> std::result::Result<FlowControl, BadState> {
        good(raw::flow_control_is_good(*state)).map(|()| FlowControl(*state))
    }

    /// The window.
    pub fn window(&self) -> u64 {
        raw::flow_control_window(self.0)
    }

    /// The limit in force.
    pub fn max_data(&self) -> u64 {
        raw::flow_control_max_data(self.0)
    }

    /// Counts bytes consumed. Refuses 1 where the total would pass 2^62 - 1.
    pub fn add_consumed(&mut self, consumed: u64) -> Result<()> {
        step(raw::flow_control_add_consumed(self.0, consumed), &mut self.0).map(|_| ())
    }

    /// Is less than half a window left?
    pub fn should_update_max_data(&self) -> bool {
        raw::flow_control_should_update_max_data(self.0)
    }

    /// The limit that a commit would set.
    pub fn max_data_next(&self) -> u64 {
        raw::flow_control_max_data_next(self.0)
    }

    /// Commits the next limit.
    pub fn update_max_data(&mut self, now: u64) {
        self.0 = raw::flow_control_update_max_data(self.0, now);
    }

    /// Doubles the window, up to its maximum, where the last commit is less than two round trips ago.
    pub fn autotune_window(&mut self, now: u64, rtt: u64) {
        self.0 = raw::flow_control_autotune_window(self.0, now, rtt);
    }

    /// The window at least this, up to its maximum. Refuses 1 where that is above 2^62 - 1.
    pub fn ensure_window_lower_bound(&mut self, min_window: u64) -> Result<()> {
        step(raw::flow_control_ensure_window_lower_bound(self.0, min_window), &mut self.0).map(|_| ())
    }

    /// The numbers that the window holds: what `from_state` takes.
    pub fn state(&self) -> &FlowControlState {
        &self.0
    }
}

/// A set of numbers as at most 64 ranges, sorted and never touching.
#[derive(Clone, Copy, Debug, PartialEq, Eq)]
pub struct RangeSet(RangeSetState);

impl RangeSet {
    /// The empty set. Refuses 10 where the capacity is not 1 to 64.
    pub fn new(capacity: usize) -> Result<RangeSet> {
        let out = raw::range_set_new(capacity);
        checked(out.answer).map(|_| RangeSet(out.state))
    }

    /// The set that had this state. Refuses numbers that contradict each other.
    pub fn from_state(state: &RangeSetState) -> std::result::Result<RangeSet, BadState> {
        good(raw::range_set_is_good(*state)).map(|()| RangeSet(*state))
    }

    /// How many ranges there are.
    pub fn len(&self) -> usize {
        raw::range_set_len(self.0)
    }

    /// Are there no ranges?
    pub fn is_empty(&self) -> bool {
        self.len() == 0
    }

    /// Is the number in the set?
    pub fn contains(&self, item: u64) -> bool {
        raw::range_set_contains(self.0, item)
    }

    /// The ranges, from the lowest on.
    pub fn iter(&self) -> impl Iterator<Item = Range<u64>> + '_ {
        (0..self.len()).filter_map(|i| {
            let out = raw::range_set_get(self.0, i);
            out.known.then_some(out.range.start..out.range.end)
        })
    }

    /// The number before the end of the highest range.
    pub fn last(&self) -> Option<u64> {
        raw::range_set_last(self.0).get()
    }

    /// Joins a range; a full set that it joins nothing in loses its lowest range. Refuses 1 where it runs backwards.
    pub fn insert(&mut self, item: Range<u64>) -> Result<()> {
        step(raw::range_set_insert(self.0, item.start, item.end), &mut self.0).map(|_| ())
    }

    /// Joins a range, and refuses 6 where one would be lost.
    pub fn try_insert(&mut self, item: Range<u64>) -> Result<()> {
        step(raw::range_set_try_insert(self.0, item.start, item.end), &mut self.0).map(|_| ())
    }

    /// Joins a number. Refuses 1 for 2^64 - 1.
    pub fn push_item(&mut self, item: u64) -> Result<()> {
        step(raw::range_set_push_item(self.0, item), &mut self.0).map(|_| ())
    }

    /// Removes every number at or below `largest`.
    pub fn remove_until(&mut self, largest: u64) {
        self.0 = raw::range_set_remove_until(self.0, largest);
    }

    /// The numbers that the set holds: what `from_state` takes.
    pub fn state(&self) -> &RangeSetState {
        &self.0
    }
}

impl PartialEq<Range<u64>> for RangeSet {
    fn eq(&self, other: &Range<u64>) -> bool {
        raw::range_set_eq(self.0, other.start, other.end)
    }
}

/// The bytes of a buffer: its own, or lent by the caller.
#[derive(Debug)]
enum Arena<'a> {
    Own(Box<[u8]>),
    Lent(&'a mut [u8]),
}

impl Arena<'_> {
    fn get(&self) -> &[u8] {
        match self {
            Arena::Own(bytes) => bytes,
            Arena::Lent(bytes) => bytes,
        }
    }

    fn get_mut(&mut self) -> &mut [u8] {
        match self {
            Arena::Own(bytes) => bytes,
            Arena::Lent(bytes) => bytes,
        }
    }

    /// An arena of its own. One that no buffer can have is not made: creation refuses an empty one just as well.
    fn own(len: usize) -> Self {
        Arena::Own(vec![0; if len <= 65536 { len } else { 0 }].into_boxed_slice())
    }

    /// Is it the arena of a state that names this length? No buffer has an arena of no bytes.
    fn fits(&self, len: usize) -> std::result::Result<(), BadState> {
        if len > 0 && self.get().len() == len {
            Ok(())
        } else {
            Err(BadState::Arena)
        }
    }
}

/// The sending side of a stream.
#[derive(Debug)]
pub struct SendBuf<'a> {
    state: SendBufState,
    arena: Arena<'a>,
}

impl SendBuf<'static> {
    /// A buffer with an arena of its own, of 1 to 65,536 bytes. Refuses 10 otherwise, or where the limit is above 2^62 - 1.
    pub fn new(max_data: u64, arena_len: usize) -> Result<SendBuf<'static>> {
        SendBuf::over(max_data, Arena::own(arena_len))
    }

    /// The buffer that had this state and these bytes in its arena, with an arena of its own. Refuses numbers that
    /// contradict each other, and an arena of another length.
    ///
    /// ```
    /// use valemkhor::{SendBuf, SendBufState};
    ///
    /// let mut send = SendBuf::new(1 << 20, 4096)?;
    /// send.write(b"trip at 253 V", false)?;
    /// send.write(b"", true)?; // a write of no bytes closes the stream
    ///
    /// // Before a restart: both of these go into a file.
    /// let (state, arena) = (send.state().to_bytes(), send.arena().to_vec());
    ///
    /// // After it.
    /// let state = SendBufState::from_bytes(&state)?;
    /// let mut send = SendBuf::from_state(&state, arena)?;
    /// let mut frame = [0; 1200];
    /// let (n, fin) = send.emit(&mut frame)?;
    /// assert_eq!((&frame[..n], fin), (&b"trip at 253 V"[..], true));
    /// # Ok::<(), Box<dyn std::error::Error>>(())
    /// ```
    pub fn from_state(state: &SendBufState, arena: impl Into<Box<[u8]>>) -> std::result::Result<SendBuf<'static>, BadState> {
        SendBuf::again(state, Arena::Own(arena.into()))
    }
}

impl<'a> SendBuf<'a> {
    /// A buffer over an arena that the caller lends for as long as the buffer lives.
    pub fn with_arena(max_data: u64, arena: &'a mut [u8]) -> Result<SendBuf<'a>> {
        SendBuf::over(max_data, Arena::Lent(arena))
    }

    /// As [`from_state`](SendBuf::from_state), over an arena that the caller lends, with the saved bytes in it.
    pub fn from_state_with_arena(state: &SendBufState, arena: &'a mut [u8]) -> std::result::Result<SendBuf<'a>, BadState> {
        SendBuf::again(state, Arena::Lent(arena))
    }

    fn again(state: &SendBufState, arena: Arena<'a>) -> std::result::Result<SendBuf<'a>, BadState> {
        good(raw::send_buf_is_good(*state))?;
        arena.fits(state.arena_len)?;
        Ok(SendBuf { state: *state, arena })
    }

    fn over(max_data: u64, arena: Arena<'a>) -> Result<SendBuf<'a>> {
        let out = raw::send_buf_new(max_data, arena.get());
        checked(out.answer).map(|_| SendBuf { state: out.state, arena })
    }

    /// Writes bytes at the end, and with `fin` ends the stream behind them: a write of no bytes with `fin` closes it. Answers how
    /// many were accepted; where the limit takes fewer, the end mark is dropped. Where chunks would be more than 64, neighbours are
    /// joined; a joined chunk is held until all of it is acked. Refuses 2, 3, 5.
    pub fn write(&mut self, data: &[u8], fin: bool) -> Result<usize> {
        let out = raw::send_buf_write(self.state, self.arena.get_mut(), data, fin);
        step(out, &mut self.state).map(|(n, _)| n as usize)
    }

    /// Copies the next bytes to be sent, from [`off_front`](Self::off_front) on; and whether they reach the final size.
    pub fn emit(&mut self, out: &mut [u8]) -> Result<(usize, bool)> {
        let gave = raw::send_buf_emit(self.state, self.arena.get(), out);
        step(gave, &mut self.state).map(|(n, fin)| (n as usize, fin == 1))
    }

    /// Raises the limit; a smaller one has no effect. Refuses 1 above 2^62 - 1.
    pub fn update_max_data(&mut self, max_data: u64) -> Result<()> {
        step(raw::send_buf_update_max_data(self.state, max_data), &mut self.state).map(|_| ())
    }

    /// Remembers where the stream was blocked.
    pub fn update_blocked_at(&mut self, blocked_at: Option<u64>) {
        self.state = raw::send_buf_update_blocked_at(self.state, blocked_at.is_some(), blocked_at.unwrap_or(0));
    }

    /// Where the stream was last blocked.
    pub fn blocked_at(&self) -> Option<u64> {
        raw::send_buf_blocked_at(self.state).get()
    }

    /// The peer has these bytes. Refuses 7, 6.
    pub fn ack(&mut self, off: u64, len: u64) -> Result<()> {
        step(raw::send_buf_ack(self.state, off, len), &mut self.state).map(|_| ())
    }

    /// The same, and drops what is acked from the start on. Answers how many dropped bytes were still to be sent. Refuses 7, 6.
    pub fn ack_and_drop(&mut self, off: u64, len: u64) -> Result<usize> {
        step(raw::send_buf_ack_and_drop(self.state, off, len), &mut self.state).map(|(n, _)| n as usize)
    }

    /// These bytes were lost and will be sent again. Answers how many that are. Where chunks would be more than 64, neighbours are joined.
    /// Refuses 7; and 6 while 63 separate lost stretches wait, each with bytes behind it that are not lost, and this would be the
    /// 64th: emit, then report again.
    pub fn retransmit(&mut self, off: u64, len: u64) -> Result<usize> {
        step(raw::send_buf_retransmit(self.state, off, len), &mut self.state).map(|(n, _)| n as usize)
    }

    /// Ends the stream at the largest offset sent. Answers that offset, and how many bytes were never sent.
    pub fn reset(&mut self) -> (u64, u64) {
        let out = raw::send_buf_reset(self.state);
        self.state = out.state;
        (out.answer.first, out.answer.second)
    }

    /// The peer asked to stop: as `reset`, once. Refuses 8 the second time.
    pub fn stop(&mut self, error_code: u64) -> Result<(u64, u64)> {
        step(raw::send_buf_stop(self.state, error_code), &mut self.state)
    }

    /// The application gives the stream up: as `reset`, once. Refuses 8 the second time.
    pub fn shutdown(&mut self) -> Result<(u64, u64)> {
        step(raw::send_buf_shutdown(self.state), &mut self.state)
    }

    /// The end of what was written.
    pub fn off_back(&self) -> u64 {
        raw::send_buf_off_back(self.state)
    }

    /// The offset of the next byte to be sent.
    pub fn off_front(&self) -> u64 {
        raw::send_buf_off_front(self.state)
    }

    /// The limit.
    pub fn max_off(&self) -> u64 {
        raw::send_buf_max_off(self.state)
    }

    /// Was everything up to the final size written?
    pub fn is_fin(&self) -> bool {
        raw::send_buf_is_fin(self.state)
    }

    /// Is the final size known and everything up to it acked?
    pub fn is_complete(&self) -> bool {
        raw::send_buf_is_complete(self.state)
    }

    /// Did the peer ask to stop?
    pub fn is_stopped(&self) -> bool {
        raw::send_buf_is_stopped(self.state)
    }

    /// Was the stream given up?
    pub fn is_shutdown(&self) -> bool {
        raw::send_buf_is_shutdown(self.state)
    }

    /// Are there no chunks?
    pub fn is_empty(&self) -> bool {
        raw::send_buf_is_empty(self.state)
    }

    /// How far everything is acked, from the start on.
    pub fn ack_off(&self) -> u64 {
        raw::send_buf_ack_off(self.state)
    }

    /// How many bytes the limit leaves. Refuses 2 after a stop.
    pub fn cap(&self) -> Result<usize> {
        checked(raw::send_buf_cap(self.state)).map(|(n, _)| n as usize)
    }

    /// How many chunks there are.
    pub fn bufs_count(&self) -> usize {
        raw::send_buf_bufs_count(self.state)
    }

    /// How many bytes are to be sent, for the first time or again.
    pub fn buffered_bytes(&self) -> u64 {
        raw::send_buf_buffered_bytes(self.state)
    }

    /// The numbers that the buffer holds: what `from_state` takes.
    pub fn state(&self) -> &SendBufState {
        &self.state
    }

    /// The arena: the byte of offset o lies at o modulo its length.
    pub fn arena(&self) -> &[u8] {
        self.arena.get()
    }
}

/// The receiving side of a stream. Time is in microseconds.
#[derive(Debug)]
pub struct RecvBuf<'a> {
    state: RecvBufState,
    arena: Arena<'a>,
}

impl RecvBuf<'static> {
    /// A buffer with an arena of its own, of 1 to 65,536 bytes. Refuses 10 otherwise, or where a number is above 2^62 - 1.
    pub fn new(max_data: u64, max_window: u64, arena_len: usize) -> Result<RecvBuf<'static>> {
        RecvBuf::over(max_data, max_window, Arena::own(arena_len))
    }

    /// The buffer that had this state and these bytes in its arena, with an arena of its own. Refuses numbers that
    /// contradict each other, and an arena of another length.
    ///
    /// ```
    /// use valemkhor::{RecvBuf, RecvBufState};
    ///
    /// let mut recv = RecvBuf::new(1 << 20, 1 << 20, 4096)?;
    /// recv.write(5, b"at 253 V", true)?; // the end came first
    ///
    /// let (state, arena) = (recv.state().to_bytes(), recv.arena().to_vec());
    ///
    /// let mut recv = RecvBuf::from_state(&RecvBufState::from_bytes(&state)?, arena)?;
    /// recv.write(0, b"trip ", false)?;
    /// let mut settings = [0; 64];
    /// let (n, fin) = recv.emit(&mut settings)?;
    /// assert_eq!((&settings[..n], fin), (&b"trip at 253 V"[..], true));
    /// # Ok::<(), Box<dyn std::error::Error>>(())
    /// ```
    pub fn from_state(state: &RecvBufState, arena: impl Into<Box<[u8]>>) -> std::result::Result<RecvBuf<'static>, BadState> {
        RecvBuf::again(state, Arena::Own(arena.into()))
    }
}

impl<'a> RecvBuf<'a> {
    /// A buffer over an arena that the caller lends for as long as the buffer lives.
    pub fn with_arena(max_data: u64, max_window: u64, arena: &'a mut [u8]) -> Result<RecvBuf<'a>> {
        RecvBuf::over(max_data, max_window, Arena::Lent(arena))
    }

    /// As [`from_state`](RecvBuf::from_state), over an arena that the caller lends, with the saved bytes in it.
    pub fn from_state_with_arena(state: &RecvBufState, arena: &'a mut [u8]) -> std::result::Result<RecvBuf<'a>, BadState> {
        RecvBuf::again(state, Arena::Lent(arena))
    }

    fn again(state: &RecvBufState, arena: Arena<'a>) -> std::result::Result<RecvBuf<'a>, BadState> {
        good(raw::recv_buf_is_good(*state))?;
        arena.fits(state.arena_len)?;
        Ok(RecvBuf { state: *state, arena })
    }

    fn over(max_data: u64, max_window: u64, arena: Arena<'a>) -> Result<RecvBuf<'a>> {
        let out = raw::recv_buf_new(max_data, max_window, arena.get());
        checked(out.answer).map(|_| RecvBuf { state: out.state, arena })
    }

    /// A frame came: its bytes at `off`, and whether they end the stream. Refuses 1, 4, 3, 5, 6.
    pub fn write(&mut self, off: u64, data: &[u8], fin: bool) -> Result<()> {
        let out = raw::recv_buf_write(self.state, self.arena.get_mut(), off, data, fin);
        step(out, &mut self.state).map(|_| ())
    }

    /// Hands out the next bytes in order; and whether they reach the final size. Refuses 8 with nothing ready, 9 after a reset, 1.
    pub fn emit(&mut self, out: &mut [u8]) -> Result<(usize, bool)> {
        let gave = raw::recv_buf_emit(self.state, self.arena.get(), out);
        step(gave, &mut self.state).map(|(n, fin)| (n as usize, fin == 1))
    }

    /// The same with no output: up to `len` bytes are passed over.
    pub fn discard(&mut self, len: u64) -> Result<(usize, bool)> {
        step(raw::recv_buf_discard(self.state, len), &mut self.state).map(|(n, fin)| (n as usize, fin == 1))
    }

    /// The peer reset the stream at a final size. Answers how far that is above the highest end seen, and above what was handed
    /// out; (0, 0) after an earlier reset. Refuses 1, 3, 4.
    pub fn reset(&mut self, error_code: u64, final_size: u64) -> Result<(u64, u64)> {
        step(raw::recv_buf_reset(self.state, error_code, final_size), &mut self.state)
    }

    /// The application gives the stream up. Answers how many bytes were never handed out. Refuses 8 the second time.
    pub fn shutdown(&mut self) -> Result<u64> {
        step(raw::recv_buf_shutdown(self.state), &mut self.state).map(|(n, _)| n)
    }

    /// Commits the next limit.
    pub fn update_max_data(&mut self, now: u64) {
        self.state = raw::recv_buf_update_max_data(self.state, now);
    }

    /// The limit that a commit would set.
    pub fn max_data_next(&self) -> u64 {
        raw::recv_buf_max_data_next(self.state)
    }

    /// The limit in force.
    pub fn max_data(&self) -> u64 {
        raw::recv_buf_max_data(self.state)
    }

    /// The window.
    pub fn window(&self) -> u64 {
        raw::recv_buf_window(self.state)
    }

    /// Doubles the window, up to its maximum, where the last commit is less than two round trips ago.
    pub fn autotune_window(&mut self, now: u64, rtt: u64) {
        self.state = raw::recv_buf_autotune_window(self.state, now, rtt);
    }

    /// How far was handed out.
    pub fn off_front(&self) -> u64 {
        raw::recv_buf_off_front(self.state)
    }

    /// Is an update of the limit due, and the final size not known?
    pub fn almost_full(&self) -> bool {
        raw::recv_buf_almost_full(self.state)
    }

    /// The highest end seen.
    pub fn max_off(&self) -> u64 {
        raw::recv_buf_max_off(self.state)
    }

    /// Was everything up to the final size handed out? Ask this after `Done`: a late end mark is never told by `emit`.
    pub fn is_fin(&self) -> bool {
        raw::recv_buf_is_fin(self.state)
    }

    /// Was the buffer shut down?
    pub fn is_draining(&self) -> bool {
        raw::recv_buf_is_draining(self.state)
    }

    /// Is there something to hand out?
    pub fn ready(&self) -> bool {
        raw::recv_buf_ready(self.state)
    }

    /// How many bytes can be handed out, up to `max_len`.
    pub fn readable_len(&self, max_len: u64) -> u64 {
        raw::recv_buf_readable_len(self.state, max_len)
    }

    /// A copy of the window, for the caller's own calls on it.
    pub fn flow_control(&self) -> FlowControl {
        FlowControl(raw::recv_buf_flow_control(self.state))
    }

    /// Takes a window back.
    pub fn set_flow_control(&mut self, flow: FlowControl) {
        self.state = raw::recv_buf_set_flow_control(self.state, flow.0);
    }

    /// The numbers that the buffer holds: what `from_state` takes.
    pub fn state(&self) -> &RecvBufState {
        &self.state
    }

    /// The arena: the byte of offset o lies at o modulo its length.
    pub fn arena(&self) -> &[u8] {
        self.arena.get()
    }
}
