//! Turns for sixteen depositors, 0 to 15, who hand in sheet numbers. The work is done by a proved static library; this crate calls it.
//!
//! ```
//! use desk::{Desk, Refusal, Served};
//!
//! let mut desk = Desk::fresh();
//! desk.hand_in(3, 70)?;
//! desk.hand_in(3, 71)?;
//! desk.hand_in(9, 50)?;
//! assert_eq!(desk.turn(), Some(Served { depositor: 3, sheet: 70 }));
//! assert_eq!(desk.turn(), Some(Served { depositor: 9, sheet: 50 }));
//! assert_eq!(desk.turn(), Some(Served { depositor: 3, sheet: 71 }));
//! assert_eq!(desk.turn(), None);
//! assert_eq!(desk.hand_in(16, 1), Err(Refusal::NoDepositor));
//! # Ok::<(), Refusal>(())
//! ```

use std::fmt;

/// How many depositors there are, and how many sheets of each can wait.
pub const DEPOSITORS: u32 = 16;
pub const PLACES: usize = 8;

const NUMBERS: usize = 161;

unsafe extern "C" {
    fn desk_fresh(block: *mut u32);
    /// 0, or the refusal's number.
    fn desk_hand_in(block: *mut u32, depositor: u32, sheet: u32) -> u32;
    /// The sheet and 2^32 times the depositor, with 16 for an idle turn.
    fn desk_turn(block: *mut u32) -> u64;
}

/// Why a sheet is refused. A refusal changes nothing.
#[derive(Debug, Clone, Copy, PartialEq, Eq, Hash)]
pub enum Refusal {
    NoDepositor = 14,
    EightWaiting = 15,
}

impl fmt::Display for Refusal {
    fn fmt(&self, f: &mut fmt::Formatter) -> fmt::Result {
        let words = match self {
            Refusal::NoDepositor => "the depositor is over 15",
            Refusal::EightWaiting => "eight sheets of the depositor wait",
        };
        write!(f, "refused {}: {words}", *self as u32)
    }
}

impl std::error::Error for Refusal {}

/// Whom a turn served.
#[derive(Debug, Clone, Copy, PartialEq, Eq, Hash)]
pub struct Served {
    pub depositor: u32,
    pub sheet: u32,
}

/// A desk, in the block of numbers that the library works on.
#[derive(Debug, Clone)]
pub struct Desk([u32; NUMBERS]);

impl Desk {
    /// No sheet waits, and depositor 0 is looked at first.
    pub fn fresh() -> Desk {
        let mut block = [0; NUMBERS];
        // SAFETY: the block has as many numbers as the function works on, and it keeps none. So below.
        unsafe { desk_fresh(block.as_mut_ptr()) };
        Desk(block)
    }

    /// A sheet waits behind the depositor's others.
    pub fn hand_in(&mut self, depositor: u32, sheet: u32) -> Result<(), Refusal> {
        match unsafe { desk_hand_in(self.0.as_mut_ptr(), depositor, sheet) } {
            0 => Ok(()),
            14 => Err(Refusal::NoDepositor),
            15 => Err(Refusal::EightWaiting),
            number => panic!("the linked library answers {number} to a hand-in"),
        }
    }

    /// Serves the front sheet of the next depositor who has any, after the one last served; none where no sheet waits.
    pub fn turn(&mut self) -> Option<Served> {
        let answer = unsafe { desk_turn(self.0.as_mut_ptr()) };
        let served = Served { depositor: (answer >> 32) as u32, sheet: answer as u32 };
        (served.depositor < DEPOSITORS).then_some(served)
    }
}
