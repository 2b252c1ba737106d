//! Calls on objects and budgets.

use crate::answers::is_yes;
use crate::{
    Account, Backing, Board, Charge, Kind, Limits, Nanoseconds, ObjectId, Refusal, Totals, ffi,
};
use carv_sys::CARV_OUT_VALUE;

/// Objects and budgets.
impl Board {
    /// Creates an object; the payer, a budget, is charged the bytes of its kind. `backing` is asked
    /// of address spaces and frames only.
    ///
    /// Refused with [`Refusal::Full`], [`Missing`](Refusal::Missing), [`Limit`](Refusal::Limit),
    /// [`Kind`](Refusal::Kind) (threads, budgets and interrupts are not created in this way) and
    /// [`Backing`](Refusal::Backing), in this order.
    ///
    /// ```
    /// use carv::{Backing, Board, Kind, Limits, ObjectId, Refusal};
    ///
    /// let mut board = Board::open(Limits { cpu_ns: 10_000_000, memory_bytes: 1_000_000 })?;
    /// let frame = board.create(Kind::Frame, ObjectId::ROOT, Backing::There)?;
    /// assert_eq!(frame, ObjectId(2));
    /// assert_eq!(board.account(ObjectId::ROOT)?.memory_used_bytes, 4_096);
    ///
    /// let refused = board.create(Kind::Frame, ObjectId::ROOT, Backing::Missing);
    /// assert_eq!(refused, Err(Refusal::Backing));
    /// # Ok::<(), Refusal>(())
    /// ```
    pub fn create(
        &mut self,
        kind: Kind,
        payer: ObjectId,
        backing: Backing,
    ) -> Result<ObjectId, Refusal> {
        self.create_by_code(kind.code(), payer, backing)
    }

    /// Inserts an object of any kind but [`Kind::Budget`]; the payer is charged so many bytes.
    ///
    /// Refused with [`Refusal::Code`] (a budget), [`Full`](Refusal::Full),
    /// [`Missing`](Refusal::Missing) and [`Limit`](Refusal::Limit).
    ///
    /// ```
    /// use carv::{Board, Kind, Limits, ObjectId};
    ///
    /// let mut board = Board::open(Limits { cpu_ns: 10_000_000, memory_bytes: 1_000_000 })?;
    /// let thread = board.insert(Kind::Thread, ObjectId::ROOT, Kind::Thread.bytes())?;
    /// let charge = board.charge_of(thread)?;
    /// assert_eq!((charge.payer, charge.bytes), (ObjectId::ROOT, 33_792));
    /// # Ok::<(), carv::Refusal>(())
    /// ```
    pub fn insert(&mut self, kind: Kind, payer: ObjectId, bytes: u64) -> Result<ObjectId, Refusal> {
        self.insert_by_code(kind.code(), payer, bytes)
    }

    /// Carves a budget out of its parent, which pays 128 bytes for it, is renewed if that is due
    /// now, and reserves the limits.
    ///
    /// Refused with [`Refusal::Full`], [`Missing`](Refusal::Missing) and
    /// [`Limit`](Refusal::Limit). Where the parent has 128 bytes free, a refusal with `Limit` leaves
    /// its renewal.
    ///
    /// ```
    /// use carv::{Board, Limits, Nanoseconds, ObjectId, Refusal};
    ///
    /// let mut board = Board::open(Limits { cpu_ns: 10_000_000, memory_bytes: 1_000_000 })?;
    /// let limits = Limits { cpu_ns: 4_000_000, memory_bytes: 8_192 };
    /// let counting = board.create_budget(ObjectId::ROOT, limits, Nanoseconds(0))?;
    /// assert_eq!(board.account(counting)?.limits, limits);
    /// assert_eq!(board.account(ObjectId::ROOT)?.cpu_left_ns, 6_000_000);
    ///
    /// let above = Limits { cpu_ns: 6_000_001, memory_bytes: 0 };
    /// assert_eq!(board.create_budget(ObjectId::ROOT, above, Nanoseconds(0)), Err(Refusal::Limit));
    /// # Ok::<(), Refusal>(())
    /// ```
    pub fn create_budget(
        &mut self,
        parent: ObjectId,
        limits: Limits,
        now: Nanoseconds,
    ) -> Result<ObjectId, Refusal> {
        let Limits {
            cpu_ns,
            memory_bytes,
        } = limits;
        let words = ffi::carv_create_budget(&mut self.area, parent.0, cpu_ns, memory_bytes, now.0)?;
        Ok(ObjectId(words[CARV_OUT_VALUE]))
    }

    /// Raises an object's charge, and what its payer has used.
    ///
    /// Two charges of one object whose sum is below 2^64 are both accepted exactly when one charge of
    /// the sum is, and then leave the same board; where only the first is accepted, it stays. Charges
    /// on objects of different payers give the same answers and board in either order.
    ///
    /// Refused with [`Refusal::Missing`] and [`Limit`](Refusal::Limit).
    ///
    /// ```
    /// use carv::{Backing, Board, Kind, Limits, ObjectId, Refusal};
    ///
    /// let mut board = Board::open(Limits { cpu_ns: 10_000_000, memory_bytes: 8_192 })?;
    /// let frame = board.create(Kind::Frame, ObjectId::ROOT, Backing::There)?;
    /// let mut singly = board.clone();
    /// singly.charge_more(frame, 1_000)?;
    /// singly.charge_more(frame, 3_096)?;
    ///
    /// board.charge_more(frame, 4_096)?;
    /// assert!(board == singly);
    /// assert_eq!(board.charge_more(frame, 1), Err(Refusal::Limit));
    /// # Ok::<(), Refusal>(())
    /// ```
    pub fn charge_more(&mut self, id: ObjectId, bytes: u64) -> Result<(), Refusal> {
        ffi::carv_charge_more(&mut self.area, id.0, bytes)?;
        Ok(())
    }

    /// Lowers an object's charge, and what its payer has used.
    ///
    /// Right after an accepted charge of the same object by as many bytes, it restores the board.
    ///
    /// Refused with [`Refusal::Missing`] and [`Charge`](Refusal::Charge).
    ///
    /// ```
    /// use carv::{Backing, Board, Kind, Limits, ObjectId, Refusal};
    ///
    /// let mut board = Board::open(Limits { cpu_ns: 10_000_000, memory_bytes: 1_000_000 })?;
    /// let frame = board.create(Kind::Frame, ObjectId::ROOT, Backing::There)?;
    /// assert_eq!(board.uncharge(frame, 4_097), Err(Refusal::Charge));
    /// board.uncharge(frame, 4_096)?;
    /// assert_eq!(board.charge_of(frame)?.bytes, 0);
    ///
    /// let before = board.clone();
    /// board.charge_more(frame, 1_000)?;
    /// board.uncharge(frame, 1_000)?;
    /// assert!(board == before);
    /// # Ok::<(), Refusal>(())
    /// ```
    pub fn uncharge(&mut self, id: ObjectId, bytes: u64) -> Result<(), Refusal> {
        ffi::carv_uncharge(&mut self.area, id.0, bytes)?;
        Ok(())
    }

    /// Removes an object: its payer is credited the charge, and reserves a budget's limits no more.
    ///
    /// The payer of a removed budget is first renewed if that is due now, with the budget's share
    /// still reserved. Beyond that its CPU left does not move until its next renewal: in a period in
    /// which the budget may have used its share, the payer doesn't get it too. The removal of
    /// another kind renews nobody, and so does a refused one.
    ///
    /// Refused with [`Refusal::Missing`], [`Root`](Refusal::Root) and [`Pays`](Refusal::Pays).
    ///
    /// ```
    /// use carv::{Backing, Board, Kind, Limits, Nanoseconds, ObjectId, Refusal};
    ///
    /// let mut board = Board::open(Limits { cpu_ns: 10_000_000, memory_bytes: 1_000_000 })?;
    /// let limits = Limits { cpu_ns: 4_000_000, memory_bytes: 8_192 };
    /// let counting = board.create_budget(ObjectId::ROOT, limits, Nanoseconds(0))?;
    /// let frame = board.create(Kind::Frame, counting, Backing::There)?;
    ///
    /// // In the second period counting uses its share, and goes.
    /// board.charge_cpu(counting, 4_000_000, Nanoseconds(10_000_000))?;
    /// let now = Nanoseconds(14_000_000);
    /// assert_eq!(board.remove(counting, now), Err(Refusal::Pays));
    /// board.remove(frame, now)?;
    /// board.remove(counting, now)?;
    ///
    /// // Of that period the root has the other 6 ms, of the next one all.
    /// let root = board.account(ObjectId::ROOT)?;
    /// assert_eq!((root.period_start, root.cpu_left_ns), (Nanoseconds(10_000_000), 6_000_000));
    /// assert_eq!(root.cpu_left_at(Nanoseconds(20_000_000)), 10_000_000);
    /// # Ok::<(), Refusal>(())
    /// ```
    pub fn remove(&mut self, id: ObjectId, now: Nanoseconds) -> Result<(), Refusal> {
        ffi::carv_remove(&mut self.area, id.0, now.0)?;
        Ok(())
    }

    /// Renews a budget if that is due now, and says whether it was.
    ///
    /// Refused with [`Refusal::Missing`].
    ///
    /// ```
    /// use carv::{Board, Limits, Nanoseconds, ObjectId};
    ///
    /// let mut board = Board::open(Limits { cpu_ns: 10_000_000, memory_bytes: 1_000_000 })?;
    /// assert!(!board.refill(ObjectId::ROOT, Nanoseconds(9_999_999))?);
    /// assert!(board.refill(ObjectId::ROOT, Nanoseconds(25_000_000))?);
    /// assert_eq!(board.account(ObjectId::ROOT)?.period_start, Nanoseconds(20_000_000));
    /// # Ok::<(), carv::Refusal>(())
    /// ```
    pub fn refill(&mut self, id: ObjectId, now: Nanoseconds) -> Result<bool, Refusal> {
        let words = ffi::carv_refill(&mut self.area, id.0, now.0)?;
        Ok(is_yes(words[CARV_OUT_VALUE]))
    }

    /// Renews a budget if that is due now, then charges it CPU time.
    ///
    /// Refused with [`Refusal::Missing`] and [`Limit`](Refusal::Limit), which leaves the renewal.
    ///
    /// ```
    /// use carv::{Board, Limits, Nanoseconds, ObjectId, Refusal};
    ///
    /// let mut board = Board::open(Limits { cpu_ns: 1_000_000, memory_bytes: 1_000_000 })?;
    /// board.charge_cpu(ObjectId::ROOT, 700_000, Nanoseconds(0))?;
    /// assert_eq!(board.charge_cpu(ObjectId::ROOT, 300_001, Nanoseconds(0)), Err(Refusal::Limit));
    /// assert_eq!(board.account(ObjectId::ROOT)?.cpu_left_ns, 300_000);
    /// # Ok::<(), Refusal>(())
    /// ```
    pub fn charge_cpu(&mut self, id: ObjectId, ns: u64, now: Nanoseconds) -> Result<(), Refusal> {
        ffi::carv_charge_cpu(&mut self.area, id.0, ns, now.0)?;
        Ok(())
    }

    /// Does any other object have this payer? No if there is no such payer.
    ///
    /// ```
    /// use carv::{Backing, Board, Kind, Limits, ObjectId};
    ///
    /// let mut board = Board::open(Limits { cpu_ns: 10_000_000, memory_bytes: 1_000_000 })?;
    /// assert!(!board.pays_for_anything(ObjectId::ROOT)?);
    /// board.create(Kind::Reply, ObjectId::ROOT, Backing::There)?;
    /// assert!(board.pays_for_anything(ObjectId::ROOT)?);
    /// # Ok::<(), carv::Refusal>(())
    /// ```
    pub fn pays_for_anything(&self, id: ObjectId) -> Result<bool, Refusal> {
        let words = ffi::carv_pays_for_anything(&self.area, id.0)?;
        Ok(is_yes(words[CARV_OUT_VALUE]))
    }

    /// The account of a budget.
    ///
    /// Refused with [`Refusal::Missing`].
    ///
    /// ```
    /// use carv::{Board, Limits, Nanoseconds, ObjectId};
    ///
    /// let board = Board::open(Limits { cpu_ns: 10_000_000, memory_bytes: 1_000_000 })?;
    /// let root = board.account(ObjectId::ROOT)?;
    /// assert_eq!(root.memory_free_bytes(), 1_000_000);
    /// assert_eq!(root.cpu_left_at(Nanoseconds(25_000_000)), 10_000_000);
    /// # Ok::<(), carv::Refusal>(())
    /// ```
    pub fn account(&self, id: ObjectId) -> Result<Account, Refusal> {
        ffi::carv_account(&self.area, id.0).map(|words| Account::from(&words))
    }

    /// The payer and the charge of an object. For an example see [`insert`](Self::insert).
    ///
    /// Refused with [`Refusal::Missing`].
    pub fn charge_of(&self, id: ObjectId) -> Result<Charge, Refusal> {
        ffi::carv_charge_of(&self.area, id.0).map(|words| Charge::from(&words))
    }

    /// Memory used, memory free and CPU left, each summed up over a budget and all budgets that are
    /// carved out of it, at any depth. Nothing is renewed.
    ///
    /// Refused with [`Refusal::Missing`].
    ///
    /// ```
    /// use carv::{Backing, Board, Kind, Limits, Nanoseconds, ObjectId};
    ///
    /// let mut board = Board::open(Limits { cpu_ns: 10_000_000, memory_bytes: 1_000_000 })?;
    /// let limits = Limits { cpu_ns: 4_000_000, memory_bytes: 65_536 };
    /// let counting = board.create_budget(ObjectId::ROOT, limits, Nanoseconds(0))?;
    /// let limits = Limits { cpu_ns: 1_000_000, memory_bytes: 8_192 };
    /// let camera = board.create_budget(counting, limits, Nanoseconds(0))?;
    /// board.create(Kind::Frame, camera, Backing::There)?;
    ///
    /// // The camera's 128 bytes, and the frame that it pays for.
    /// let totals = board.totals(counting)?;
    /// assert_eq!(totals.memory_used_bytes, 128 + 4_096);
    /// assert_eq!(totals.memory_free_bytes, 65_536 - 128 - 4_096);
    /// assert_eq!(totals.cpu_left_ns, 4_000_000);
    /// # Ok::<(), carv::Refusal>(())
    /// ```
    pub fn totals(&self, id: ObjectId) -> Result<Totals, Refusal> {
        ffi::carv_totals(&self.area, id.0).map(|words| Totals::from(&words))
    }
}
