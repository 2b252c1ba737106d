//! The board: its bytes, how it is opened, kept and restored.

use core::fmt;

use crate::ffi::{self, Area, c};
use crate::{AREA_BYTES, Limits, Refusal};

/// A board: budgets, objects, threads, ready queue and exit log, in its [`AREA_BYTES`] bytes, which
/// are all there is in it. `docs/LAYOUT.md` has them one by one.
///
/// A board is sound, unless it was never opened or something else wrote to its memory: every
/// call asks for that first and is then refused with [`Refusal::Unsound`]. The methods' own
/// documentation names the other refusals.
///
/// A kernel keeps the board in memory of its own and takes it by reference:
/// [`open_in`](Self::open_in), [`restore_in`](Self::restore_in), [`from_mut`](Self::from_mut), or
/// [`unopened`](Self::unopened) in a `static`. What answers a board by value,
/// [`open`](Self::open), [`from_bytes`](Self::from_bytes) and `clone`, is for hosted programs: it
/// takes the board's bytes on the stack, several times over in a debug build.
///
/// Two boards are equal if their bytes are; one state of a board is written in one way only.
#[derive(PartialEq, Eq)]
#[repr(transparent)]
pub struct Board {
    pub(crate) area: Area,
}

/// In the kernel's own memory.
impl Board {
    /// Opens a board in this memory, whatever it held. Its root budget,
    /// [`ObjectId::ROOT`](crate::ObjectId::ROOT), has these limits; thread 0 runs, idle is Ready.
    ///
    /// Refused with [`Refusal::Share`] if the CPU share is above a period; the memory is then as it
    /// was.
    ///
    /// ```
    /// use carv::{AREA_BYTES, Board, Limits, PERIOD_NS, Refusal, ThreadId};
    ///
    /// let mut memory = [0xff; AREA_BYTES];
    /// let above = Limits { cpu_ns: PERIOD_NS + 1, memory_bytes: 1_000_000 };
    /// assert_eq!(Board::open_in(&mut memory, above), Err(Refusal::Share));
    /// assert_eq!(memory, [0xff; AREA_BYTES]);
    ///
    /// let root = Limits { cpu_ns: PERIOD_NS, memory_bytes: 1_000_000 };
    /// let board = Board::open_in(&mut memory, root)?;
    /// assert_eq!(board.current()?, ThreadId::FIRST);
    /// # Ok::<(), Refusal>(())
    /// ```
    pub fn open_in(memory: &mut [u8; AREA_BYTES], root: Limits) -> Result<&mut Self, Refusal> {
        let board = Self::from_mut(memory);
        board.reopen(root)?;
        Ok(board)
    }

    /// The board in this memory, which it lay in before: after a restart, say.
    ///
    /// Refused with [`Refusal::Unsound`] if the board there isn't sound.
    ///
    /// ```
    /// use carv::{AREA_BYTES, Board, Limits, PERIOD_NS, Refusal, ThreadId, Tick};
    ///
    /// let mut memory = [0; AREA_BYTES];
    /// assert_eq!(Board::restore_in(&mut memory), Err(Refusal::Unsound));
    ///
    /// let root = Limits { cpu_ns: PERIOD_NS, memory_bytes: 1_000_000 };
    /// Board::open_in(&mut memory, root)?.tick(Tick(1))?;
    /// let board = Board::restore_in(&mut memory)?;
    /// assert_eq!(board.read_thread(ThreadId::FIRST)?.run_ticks, 1);
    /// # Ok::<(), Refusal>(())
    /// ```
    pub fn restore_in(memory: &mut [u8; AREA_BYTES]) -> Result<&mut Self, Refusal> {
        let board = Self::from_mut(memory);
        board.sound()?;
        Ok(board)
    }

    /// This memory as a board, whatever it holds: nothing is asked. If it is no sound board, every
    /// call but [`reopen`](Self::reopen) and [`restore`](Self::restore) is refused.
    pub const fn from_mut(memory: &mut [u8; AREA_BYTES]) -> &mut Self {
        ffi::board_mut(memory)
    }

    /// This memory as a board to be read, whatever it holds: nothing is asked.
    ///
    /// ```
    /// use carv::{AREA_BYTES, Board, Refusal};
    ///
    /// let memory = [0; AREA_BYTES];
    /// assert_eq!(Board::from_ref(&memory).current(), Err(Refusal::Unsound));
    /// ```
    pub const fn from_ref(memory: &[u8; AREA_BYTES]) -> &Self {
        ffi::board(memory)
    }

    /// A board that was not opened yet, for a `static`: its bytes are 0. It isn't sound: until
    /// [`reopen`](Self::reopen) or [`restore`](Self::restore) every call is refused. In a variable its
    /// bytes are on the stack.
    ///
    /// ```
    /// use carv::{Board, Limits, PERIOD_NS, Refusal};
    /// use std::sync::Mutex;
    ///
    /// static BOARD: Mutex<Board> = Mutex::new(Board::unopened());
    ///
    /// let mut board = BOARD.lock()?;
    /// assert_eq!(board.current(), Err(Refusal::Unsound));
    /// board.reopen(Limits { cpu_ns: PERIOD_NS, memory_bytes: 1_000_000 })?;
    /// assert!(board.is_sound());
    /// # Ok::<(), Box<dyn std::error::Error>>(())
    /// ```
    pub const fn unopened() -> Self {
        Self {
            area: [0; AREA_BYTES],
        }
    }

    /// Opens the board again, in its place, whatever it held. Refused as
    /// [`open_in`](Self::open_in), and then as it was.
    pub fn reopen(&mut self, root: Limits) -> Result<(), Refusal> {
        ffi::carv_open(&mut self.area, root.cpu_ns, root.memory_bytes)?;
        Ok(())
    }

    /// Copies the board in these bytes, which [`as_bytes`](Self::as_bytes) gave at some time, into
    /// this one, whatever it held.
    ///
    /// Refused with [`Refusal::Unsound`] if there are not [`AREA_BYTES`] of them, or if the board
    /// that they hold isn't sound; this board is then as it was.
    ///
    /// ```
    /// use carv::{Board, Limits, PERIOD_NS, Refusal, Tick};
    ///
    /// let mut board = Board::open(Limits { cpu_ns: PERIOD_NS, memory_bytes: 1_000_000 })?;
    /// let kept = board.as_bytes().to_vec();
    /// board.tick(Tick(1))?;
    /// assert_eq!(board.restore(&kept[1..]), Err(Refusal::Unsound));
    /// assert_ne!(board.as_bytes()[..], kept);
    /// board.restore(&kept)?;
    /// assert_eq!(board.as_bytes()[..], kept);
    /// # Ok::<(), Refusal>(())
    /// ```
    pub fn restore(&mut self, bytes: &[u8]) -> Result<(), Refusal> {
        if !c::carv_is_sound(bytes) {
            return Err(Refusal::Unsound);
        }
        self.area.copy_from_slice(bytes);
        Ok(())
    }

    /// The bytes of the board, to be kept or compared.
    pub const fn as_bytes(&self) -> &[u8; AREA_BYTES] {
        &self.area
    }

    /// Is the board sound, in document 01's sense?
    #[must_use]
    pub fn is_sound(&self) -> bool {
        ffi::is_sound(&self.area)
    }

    /// Question 1 of this board.
    fn sound(&self) -> Result<(), Refusal> {
        self.is_sound().then_some(()).ok_or(Refusal::Unsound)
    }
}

/// By value, for hosted programs: the board's bytes are on the stack for a while.
impl Board {
    /// Opens a board. As [`open_in`](Self::open_in), by value.
    ///
    /// ```
    /// use carv::{Board, Limits, PERIOD_NS, Refusal, ThreadId};
    ///
    /// let board = Board::open(Limits { cpu_ns: PERIOD_NS, memory_bytes: 1_000_000 })?;
    /// assert_eq!(board.current()?, ThreadId::FIRST);
    ///
    /// let above = Limits { cpu_ns: PERIOD_NS + 1, memory_bytes: 1_000_000 };
    /// assert_eq!(Board::open(above), Err(Refusal::Share));
    /// # Ok::<(), Refusal>(())
    /// ```
    pub fn open(root: Limits) -> Result<Self, Refusal> {
        let mut board = Self::unopened();
        board.reopen(root)?;
        Ok(board)
    }

    /// The board in these bytes, which [`as_bytes`](Self::as_bytes) gave at some time. As
    /// [`restore`](Self::restore), by value.
    ///
    /// ```
    /// use carv::{Board, Limits, PERIOD_NS, Refusal};
    ///
    /// let board = Board::open(Limits { cpu_ns: PERIOD_NS, memory_bytes: 1_000_000 })?;
    /// let mut kept = board.as_bytes().to_vec();
    /// assert_eq!(Board::from_bytes(&kept)?, board);
    ///
    /// kept[24] = 9; // The root budget's kind.
    /// assert_eq!(Board::from_bytes(&kept), Err(Refusal::Unsound));
    /// assert_eq!(Board::from_bytes(&kept[1..]), Err(Refusal::Unsound));
    /// # Ok::<(), Refusal>(())
    /// ```
    pub fn from_bytes(bytes: &[u8]) -> Result<Self, Refusal> {
        let mut board = Self::unopened();
        board.restore(bytes)?;
        Ok(board)
    }
}

impl Clone for Board {
    /// A copy by value, for hosted programs.
    fn clone(&self) -> Self {
        Self { area: self.area }
    }

    /// Copies the other board into this one, in its place.
    fn clone_from(&mut self, other: &Self) {
        self.area.copy_from_slice(&other.area);
    }
}

impl AsRef<[u8]> for Board {
    fn as_ref(&self) -> &[u8] {
        &self.area
    }
}

impl<'a> From<&'a [u8; AREA_BYTES]> for &'a Board {
    /// As [`Board::from_ref`].
    fn from(memory: &'a [u8; AREA_BYTES]) -> Self {
        Board::from_ref(memory)
    }
}

impl<'a> From<&'a mut [u8; AREA_BYTES]> for &'a mut Board {
    /// As [`Board::from_mut`].
    fn from(memory: &'a mut [u8; AREA_BYTES]) -> Self {
        Board::from_mut(memory)
    }
}

impl fmt::Debug for Board {
    fn fmt(&self, f: &mut fmt::Formatter<'_>) -> fmt::Result {
        f.debug_struct("Board")
            .field("current", &self.current())
            .field("switches", &self.switches())
            .finish_non_exhaustive()
    }
}
