//! Turns for eight lanes that feed one caller: whose family is next.

use crate::family::Refusal;
use crate::sys;

/// Lanes of a dispatcher.
pub const LANES: usize = 8;

/// How many families of each lane wait, and the lane served last; fresh by default. Each call leaves the next one.
#[repr(C)]
#[derive(Clone, Copy, Debug, PartialEq, Eq)]
pub struct Dispatcher {
    pub waiting: [u16; LANES],
    pub last: u32,
}

/// What a turn says.
#[derive(Clone, Copy, Debug, PartialEq, Eq)]
pub enum Turn {
    /// The lane whose family is next; it has used its turn, whatever becomes of the family.
    Lane(usize),
    /// No lane waits.
    Idle,
}

impl Default for Dispatcher {
    fn default() -> Self {
        // SAFETY: numbers by value.
        unsafe { sys::codec_ffi_fresh_dispatcher() }
    }
}

impl Dispatcher {
    /// A family of this lane waits. Refusal 22 for a lane above 7, here or as the lane served last, 23 where 65,535 families wait.
    pub fn add(&mut self, lane: u32) -> Result<(), Refusal> {
        // SAFETY: numbers by value, in and out.
        let answer = unsafe { sys::codec_ffi_add(*self, lane) };
        *self = answer.dispatcher;
        match answer.kind {
            0 => Ok(()),
            3 => Err(Refusal { number: answer.number, with: answer.with }),
            kind => unreachable!("the contract has kinds 0 and 3, this is {kind}"),
        }
    }

    /// The first waiting lane after the one served last, in a circle. Refusal 22 where the lane served last is above 7.
    pub fn turn(&mut self) -> Result<Turn, Refusal> {
        // SAFETY: numbers by value, in and out.
        let answer = unsafe { sys::codec_ffi_turn(*self) };
        *self = answer.dispatcher;
        match answer.kind {
            1 => Ok(Turn::Lane(answer.lane as usize)),
            2 => Ok(Turn::Idle),
            3 => Err(Refusal { number: answer.number, with: answer.with }),
            kind => unreachable!("the contract has kinds 1 to 3, this is {kind}"),
        }
    }
}
