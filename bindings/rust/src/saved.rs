//! States as bytes of a fixed form, so that a buffer can be kept across a restart. No `unsafe`: a state is built field by field.
//!
//! The form: eight bytes that name the kind of state and the version of the form (`vk-send1` for a send buffer), then every field
//! in the order of its declaration, eight bytes each, the lowest first; a flag is 0 or 1. It has one length, and means the same
//! on every machine. There is no checksum.

use crate::raw::FlowControlState;
use crate::raw::Number;
use crate::raw::RangeBufState;
use crate::raw::RangeSetState;
use crate::raw::RangeState;
use crate::raw::RecvBufState;
use crate::raw::SendBufState;
use std::mem::size_of;

/// Why a saved state was not taken.
#[derive(Clone, Copy, Debug, PartialEq, Eq)]
pub enum BadState {
    /// The bytes are no saved state of this kind: another length, kind or version, or a flag that is neither 0 nor 1.
    Form,
    /// The numbers pass their bounds or contradict each other: no call gave them.
    Numbers,
    /// The arena has another length than the state's.
    Arena,
}

impl std::fmt::Display for BadState {
    fn fmt(&self, f: &mut std::fmt::Formatter) -> std::fmt::Result {
        f.write_str(match self {
            BadState::Form => "bad state: the bytes are no saved state of this kind",
            BadState::Numbers => "bad state: its numbers contradict each other",
            BadState::Arena => "bad state: the arena has another length",
        })
    }
}

impl std::error::Error for BadState {}

/// What is written and read as a row of 64-bit words.
trait Fields: Copy {
    fn write(&self, put: &mut impl FnMut(u64));
    fn read(next: &mut impl FnMut() -> u64) -> Result<Self, BadState>;
}

impl Fields for u64 {
    fn write(&self, put: &mut impl FnMut(u64)) {
        put(*self);
    }

    fn read(next: &mut impl FnMut() -> u64) -> Result<Self, BadState> {
        Ok(next())
    }
}

impl Fields for usize {
    fn write(&self, put: &mut impl FnMut(u64)) {
        put(*self as u64);
    }

    fn read(next: &mut impl FnMut() -> u64) -> Result<Self, BadState> {
        next().try_into().map_err(|_| BadState::Form)
    }
}

impl Fields for bool {
    fn write(&self, put: &mut impl FnMut(u64)) {
        put(u64::from(*self));
    }

    fn read(next: &mut impl FnMut() -> u64) -> Result<Self, BadState> {
        match next() {
            0 => Ok(false),
            1 => Ok(true),
            _ => Err(BadState::Form),
        }
    }
}

impl<T: Fields> Fields for [T; 64] {
    fn write(&self, put: &mut impl FnMut(u64)) {
        self.iter().for_each(|entry| entry.write(put));
    }

    fn read(next: &mut impl FnMut() -> u64) -> Result<Self, BadState> {
        let mut table = [T::read(next)?; 64];
        for entry in &mut table[1..] {
            *entry = T::read(next)?;
        }
        Ok(table)
    }
}

/// The fields of a struct, in order: both ways go by this one list.
macro_rules! fields {
    ($($name:ident: $($field:ident),*;)*) => {$(
        impl Fields for $name {
            fn write(&self, put: &mut impl FnMut(u64)) {
                $(self.$field.write(put);)*
            }

            fn read(next: &mut impl FnMut() -> u64) -> Result<Self, BadState> {
                Ok($name { $($field: Fields::read(next)?),* })
            }
        }
    )*};
}

fields! {
    RangeBufState: off, len, pos;
    RangeState: start, end;
    Number: known, value;
    FlowControlState: consumed, max_data, window, max_window, last_update;
    RangeSetState: inner, count, capacity;
    SendBufState: data, count, pos, off, emit_off, buffered_bytes, max_data, blocked_at, fin_off, shutdown, acked, error,
        arena_len;
    RecvBufState: data, count, off, len, flow_control, fin_off, error, drain, arena_len;
}

/// The saved form of a kind of state.
macro_rules! saved {
    ($($name:ident: $tag:literal, $bytes:literal;)*) => {$(
        impl $name {
            /// How many bytes the saved form has.
            pub const BYTES: usize = $bytes;

            /// The saved form: the same bytes on every machine.
            pub fn to_bytes(&self) -> [u8; Self::BYTES] {
                let (mut bytes, mut at) = ([0; Self::BYTES], 8);
                bytes[..8].copy_from_slice($tag);
                self.write(&mut |word| {
                    bytes[at..at + 8].copy_from_slice(&word.to_le_bytes());
                    at += 8;
                });
                bytes
            }

            /// The state that was saved as these bytes. Refuses what has not the form; the numbers are judged by `from_state`.
            pub fn from_bytes(bytes: &[u8]) -> Result<Self, BadState> {
                if bytes.len() != Self::BYTES || !bytes.starts_with($tag) {
                    return Err(BadState::Form);
                }
                let (mut word, mut at) = ([0; 8], 8);
                Fields::read(&mut || {
                    word.copy_from_slice(&bytes[at..at + 8]);
                    at += 8;
                    u64::from_le_bytes(word)
                })
            }
        }

        // A field has eight bytes in memory too, padding included: so the walk goes over as many words as there are.
        const _: () = assert!(size_of::<$name>() + 8 == $bytes);
    )*};
}

saved! {
    RangeBufState: b"vk-chnk1", 32;
    FlowControlState: b"vk-flow1", 56;
    RangeSetState: b"vk-rset1", 1048;
    SendBufState: b"vk-send1", 2696;
    RecvBufState: b"vk-recv1", 1664;
}
