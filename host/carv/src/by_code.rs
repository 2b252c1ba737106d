//! The calls that take a kind, a wait or a cause, by its number.

use crate::answers::is_yes;
use crate::{Backing, Board, ObjectId, Refusal, ThreadId, Wait, ffi};
use carv_sys::{CARV_KILL_WAIT_KIND, CARV_KILL_WAIT_NUMBER, CARV_OUT_VALUE};

/// Calls with a kind, wait or cause by its number, for hosts that hand numbers on. A number that is
/// not listed reaches the board, which refuses it with [`Refusal::Code`]; all else is as in the
/// method without `_by_code`.
impl Board {
    /// As [`create`](Self::create).
    ///
    /// ```
    /// use carv::{Backing, Board, Kind, Limits, ObjectId, Refusal};
    ///
    /// let mut board = Board::open(Limits { cpu_ns: 10_000_000, memory_bytes: 1_000_000 })?;
    /// let frame = board.create_by_code(Kind::Frame.code(), ObjectId::ROOT, Backing::There)?;
    /// assert_eq!(frame, ObjectId(2));
    /// let refused = board.create_by_code(10, ObjectId::ROOT, Backing::There);
    /// assert_eq!(refused, Err(Refusal::Code));
    /// # Ok::<(), Refusal>(())
    /// ```
    pub fn create_by_code(
        &mut self,
        kind: u64,
        payer: ObjectId,
        backing: Backing,
    ) -> Result<ObjectId, Refusal> {
        let words = ffi::carv_create(&mut self.area, kind, payer.0, backing.is_there())?;
        Ok(ObjectId(words[CARV_OUT_VALUE]))
    }

    /// As [`insert`](Self::insert).
    pub fn insert_by_code(
        &mut self,
        kind: u64,
        payer: ObjectId,
        bytes: u64,
    ) -> Result<ObjectId, Refusal> {
        let words = ffi::carv_insert(&mut self.area, kind, payer.0, bytes)?;
        Ok(ObjectId(words[CARV_OUT_VALUE]))
    }

    /// As [`block_current`](Self::block_current), with the numbers of the wait's kind and its own.
    pub fn block_current_by_code(&mut self, (kind, number): (u64, u64)) -> Result<(), Refusal> {
        ffi::carv_block_current(&mut self.area, kind, number)?;
        Ok(())
    }

    /// As [`is_blocked_on`](Self::is_blocked_on), with the numbers of the wait's kind and its own.
    pub fn is_blocked_on_by_code(
        &self,
        id: ThreadId,
        (kind, number): (u64, u64),
    ) -> Result<bool, Refusal> {
        let words = ffi::carv_is_blocked_on(&self.area, id.0, kind, number)?;
        Ok(is_yes(words[CARV_OUT_VALUE]))
    }

    /// As [`kill`](Self::kill).
    pub fn kill_by_code(&mut self, id: ThreadId, cause: u64) -> Result<Option<Wait>, Refusal> {
        let words = ffi::carv_kill(&mut self.area, id.0, cause)?;
        Wait::decode(words[CARV_KILL_WAIT_KIND], words[CARV_KILL_WAIT_NUMBER])
    }
}
