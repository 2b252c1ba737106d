//! The model's charges.

use super::mistake::{LastCharge, last_charge, remember};
use super::registry::covers;
use super::{Done, Mistake, Model, ask, planted};
use crate::area::ObjectRow;
use carv_compare::board::BUDGET;

impl Model {
    pub(super) fn charge_more(&mut self, id: u64, bytes: u64) -> Done {
        let row = *self.object(id)?;
        // The last charge, if this one follows it on the same board.
        let last = last_charge().filter(|last| (last.id, last.charge) == (id, row.charge));
        let in_a_row = last.map_or(0, |last| last.in_a_row);
        let bytes = match self.rounds_up(&row) {
            true => bytes.checked_next_multiple_of(64).unwrap_or(bytes),
            false => bytes,
        };
        let payer = self.booked_payer(&row);
        let refused = planted(Mistake::SecondChargeInARowRefused) && in_a_row == 1
            || planted(Mistake::FourthChargeInARowRefused) && in_a_row == 3;
        if refused || !self.is_covered(payer, bytes)? {
            self.leave_refused(&row, last)?;
            return Err(12);
        }
        self.book(id, payer, bytes)?;
        if planted(Mistake::ChargeBookedOnThePayersPayerToo) && payer != 1 {
            let above = self.object(payer)?.payer;
            self.budget(above)?.memory_used += bytes;
        }
        remember(LastCharge {
            id,
            payer: row.payer,
            bytes,
            charge: self.object(id)?.charge,
            in_a_row: in_a_row + 1,
        });
        Ok(vec![])
    }

    /// Whether a charge of this object is rounded up: only where that is planted.
    fn rounds_up(&mut self, row: &ObjectRow) -> bool {
        let last = last_charge().filter(|last| last.id != row.id);
        // Whether it was made on the same board.
        let other = last.is_some_and(|last| {
            let charge = self.object(last.id).map(|row| row.charge);
            charge == Ok(last.charge)
        });
        planted(Mistake::ChargeRoundsUpWhereThereIsOne) && row.charge > 0
            || planted(Mistake::ChargeRoundsUpBehindAnother) && other
    }

    /// The payer that a charge of this object is booked on.
    fn booked_payer(&mut self, row: &ObjectRow) -> u64 {
        if planted(Mistake::ChargeOfABudgetBookedOnItself) && row.kind == BUDGET {
            return row.id;
        }
        let last = last_charge().map(|last| last.payer);
        let last = last.filter(|payer| self.budget(*payer).is_ok());
        match planted(Mistake::ChargeBookedOnTheLastPayer) {
            true => last.unwrap_or(row.payer),
            false => row.payer,
        }
    }

    fn is_covered(&mut self, payer: u64, bytes: u64) -> Result<bool, u64> {
        let is_odd = self.has_odd_start();
        let above = self.object(payer)?.payer;
        let is_covered_above = payer == 1 || covers(self.budget(above)?, bytes);
        let account = self.budget(payer)?;
        if planted(Mistake::ChargesWrap) {
            let used = account.memory_used.wrapping_add(bytes);
            return Ok(used <= account.memory_limit - account.memory_reserved);
        }
        if planted(Mistake::ChargeForgetsReservations) {
            return Ok(bytes <= account.memory_limit - account.memory_used);
        }
        let is_full = account.memory_free() == 0;
        let refused = planted(Mistake::ChargeOf0RefusedWhereNothingIsFree) && is_full
            || planted(Mistake::ChargeAsksThePayersPayerToo) && !is_covered_above
            || planted(Mistake::ChargeRefusedWhereAStartIsNoMultiple) && is_odd;
        Ok(covers(account, bytes) && !refused)
    }

    /// What a refused charge of this object leaves: everything, if no mistake is planted.
    fn leave_refused(&mut self, row: &ObjectRow, last: Option<LastCharge>) -> Result<(), u64> {
        if planted(Mistake::RefusedChargeBooksWhatIsFree) {
            let free = self.budget(row.payer)?.memory_free();
            self.book(row.id, row.payer, free)?;
        }
        let back = last.filter(|_| planted(Mistake::RefusedChargeTakesTheLastBack));
        if let Some(LastCharge { bytes, .. }) = back {
            self.object(row.id)?.charge -= bytes;
            self.budget(row.payer)?.memory_used -= bytes;
        }
        Ok(())
    }

    fn book(&mut self, id: u64, payer: u64, bytes: u64) -> Result<(), u64> {
        // What wraps here is a mistake's.
        let used = &mut self.budget(payer)?.memory_used;
        *used = used.wrapping_add(bytes);
        let charge = &mut self.object(id)?.charge;
        *charge = charge.wrapping_add(bytes);
        Ok(())
    }

    pub(super) fn uncharge(&mut self, id: u64, bytes: u64) -> Done {
        let row = self.object(id)?;
        let bytes = match planted(Mistake::UnchargeAboveCharge) {
            true => bytes.min(row.charge),
            false => bytes,
        };
        ask(11, bytes <= row.charge)?;
        if !planted(Mistake::UnchargeKeepsTheEntry) {
            row.charge -= bytes;
        }
        let payer = row.payer;
        let left = planted(Mistake::UnchargeLeavesAByteWithThePayer) && bytes > 0;
        self.budget(payer)?.memory_used -= bytes - u64::from(left);
        Ok(vec![])
    }
}
