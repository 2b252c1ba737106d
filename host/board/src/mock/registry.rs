//! The model's registry.

use super::{Done, Mistake, Model, ask, planted};
use crate::area::{Account, ObjectRow};
use carv_compare::board::{BUDGET, OBJECTS};
use carv_oracle::account::PERIOD;

impl Model {
    pub(super) fn object(&mut self, id: u64) -> Result<&mut ObjectRow, u64> {
        let mut rows = self.0.objects.iter_mut();
        rows.find(|row| row.id == id).ok_or(7)
    }

    pub(super) fn budget(&mut self, id: u64) -> Result<&mut Account, u64> {
        let row = self.object(id)?;
        ask(7, row.kind == BUDGET)?;
        Ok(&mut row.account)
    }

    fn ask_place(&self) -> Result<(), u64> {
        let places = OBJECTS - usize::from(planted(Mistake::TableFullTooEarly));
        let last = u64::MAX - u64::from(planted(Mistake::LastIdTooEarly));
        ask(6, self.0.objects.len() < places && self.0.next_id < last)
    }

    fn add(&mut self, kind: u64, payer: u64, charge: u64, account: Account) -> Done {
        let id = self.0.next_id;
        self.0.next_id += 1;
        self.0.objects.push(ObjectRow {
            id,
            kind,
            payer,
            charge,
            account,
        });
        Ok(vec![id])
    }

    pub(super) fn create(&mut self, kind: u64, payer: u64, backing: bool) -> Done {
        ask(4, (1..=9).contains(&kind))?;
        self.ask_place()?;
        let created = [2, 3, 4, 5, 7].contains(&kind);
        let bytes = [33_792, 16_384, 4_096, 128, 64, 128, 64, 64, 64][kind as usize - 1];
        let account = self.budget(payer)?;
        let backed = backing || ![2, 3].contains(&kind);
        ask(13, !planted(Mistake::KindBeforeCharge) || created)?;
        ask(14, !planted(Mistake::BackingBeforeKind) || backed)?;
        ask(12, covers(account, bytes))?;
        ask(13, created)?;
        ask(14, backed)?;
        account.memory_used += bytes;
        self.add(kind, payer, bytes, Account::default())
    }

    pub(super) fn insert(&mut self, kind: u64, payer: u64, bytes: u64) -> Done {
        ask(4, (1..=9).contains(&kind) && kind != BUDGET)?;
        self.ask_place()?;
        let account = self.budget(payer)?;
        ask(12, covers(account, bytes))?;
        account.memory_used += bytes;
        self.add(kind, payer, bytes, Account::default())
    }

    pub(super) fn create_budget(&mut self, parent: u64, cpu: u64, memory: u64, time: u64) -> Done {
        self.ask_place()?;
        let account = self.budget(parent)?;
        ask(12, 128 <= account.memory_free())?;
        let before = *account;
        renew(account, time);
        let covered = cpu <= account.cpu_left && memory <= account.memory_free() - 128;
        if !covered && planted(Mistake::RefusedCarveForgetsRenewal) {
            *account = before;
        }
        if !covered && planted(Mistake::RefusedCarveKeepsCharge) {
            account.memory_used += 128;
        }
        ask(12, covered)?;
        account.memory_used += 128;
        account.cpu_reserved += cpu;
        account.cpu_left = match planted(Mistake::CarveLeavesCpuLeft) {
            // As far as question 1 lets it.
            true => (account.cpu_allowance - account.cpu_reserved).min(account.cpu_left),
            false => account.cpu_left - cpu,
        };
        account.memory_reserved += memory;
        let late = planted(Mistake::ChildStartsAtTime);
        let child = Account {
            cpu_allowance: cpu,
            memory_limit: memory,
            period_start: if late { time } else { account.period_start },
            cpu_left: cpu,
            ..Account::default()
        };
        self.add(BUDGET, parent, 128, child)
    }

    pub(super) fn remove(&mut self, id: u64, time: u64) -> Done {
        let row = *self.object(id)?;
        let is_budget = row.kind == BUDGET;
        let pays = is_budget && self.pays(id);
        if (id == 1 || pays) && planted(Mistake::RefusedRemovalRenews) {
            renew(self.budget(row.payer)?, time);
        }
        ask(9, id != 1)?;
        ask(10, !pays)?;
        ask(15, !(is_budget && self.answers_15(&row.account)))?;
        if is_budget || planted(Mistake::RemovalRenewsForEveryKind) {
            self.renew_for_removal(&row, time)?;
        }
        self.0.objects.retain(|row| row.id != id);
        if planted(Mistake::IdsGivenAgain) && id + 1 == self.0.next_id {
            self.0.next_id = id;
        }
        let account = self.budget(row.payer)?;
        account.cpu_reserved -= row.account.cpu_allowance;
        account.memory_reserved -= row.account.memory_limit;
        account.memory_used -= row.charge;
        if planted(Mistake::RemovalGivesCpuBack) {
            account.cpu_left += row.account.cpu_allowance;
        }
        if planted(Mistake::RemovalGivesWhatIsLeftBack) {
            account.cpu_left += row.account.cpu_left;
        }
        if is_budget && planted(Mistake::RemovalRenewsBehindTheReturn) {
            renew(account, time);
        }
        Ok(vec![])
    }

    /// Whether the removal of a budget answers 15: only where that is planted.
    fn answers_15(&self, removed: &Account) -> bool {
        if planted(Mistake::RemovalAnswers15WhereTheBudgetRan) {
            return removed.cpu_left < removed.cpu_allowance;
        }
        planted(Mistake::RemovalAnswers15WhereAStartIsNoMultiple) && self.has_odd_start()
    }

    /// Whether a period starts at no multiple of 10 ms. No list of calls leads there.
    pub(super) fn has_odd_start(&self) -> bool {
        let fits = |row: &ObjectRow| row.account.period_start.is_multiple_of(PERIOD);
        !self.0.objects.iter().all(fits)
    }

    /// Renews the payer of an object that is about to go.
    fn renew_for_removal(&mut self, row: &ObjectRow, time: u64) -> Result<(), u64> {
        let late = planted(Mistake::RemovalRenewsBehindTheReturn);
        if late || planted(Mistake::RemovalRenewsNobody) {
            return Ok(());
        }
        let instead = planted(Mistake::RemovalRenewsTheRemovedInstead);
        let renewed = if instead { row.id } else { row.payer };
        renew(self.budget(renewed)?, time);
        if planted(Mistake::RemovalRenewsThePayersPayerToo) {
            let above = self.object(row.payer)?.payer;
            renew(self.budget(above)?, time);
        }
        Ok(())
    }

    pub(super) fn pays(&self, id: u64) -> bool {
        let itself = planted(Mistake::RootPaysForItself);
        let mut rows = self.0.objects.iter();
        rows.any(|row| row.payer == id && (itself || row.id != id))
    }

    pub(super) fn totals(&mut self, id: u64) -> Done {
        if self.totals_are_0(id) {
            return Ok(vec![0; 3]);
        }
        self.budget(id)?;
        let counted = self.counted(id);
        // What wraps here is a mistake's.
        let sum =
            |figure: fn(&Account) -> u64| counted.iter().map(figure).fold(0, u64::wrapping_add);
        let used = sum(|account| account.memory_used);
        let free = match planted(Mistake::TotalsForgetReservations) {
            true => sum(|account| account.memory_limit - account.memory_used),
            false => sum(|it| it.memory_limit - it.memory_used - it.memory_reserved),
        };
        let left = match planted(Mistake::TotalsAsIfRenewed) {
            true => sum(|account| account.cpu_allowance - account.cpu_reserved),
            false => sum(|account| account.cpu_left),
        };
        Ok(match planted(Mistake::TotalsInTheAccountsOrder) {
            true => vec![left, used, free],
            false => vec![used, free, left],
        })
    }

    /// Whether totals of an id without a budget are answered: only where that is planted.
    fn totals_are_0(&mut self, id: u64) -> bool {
        match self.object(id) {
            Ok(row) => row.kind != BUDGET && planted(Mistake::TotalsOfOtherKindsAre0),
            Err(_) => planted(Mistake::TotalsOfMissingIdsAre0),
        }
    }

    /// The accounts that the totals of a budget count.
    fn counted(&self, id: u64) -> Vec<Account> {
        let budgets = self.0.objects.iter().filter(|row| row.kind == BUDGET);
        if planted(Mistake::TotalsOfEveryBudget) {
            return budgets.map(|row| row.account).collect();
        }
        if planted(Mistake::TotalsOfEveryYoungerBudget) {
            let younger = budgets.filter(|row| row.id >= id);
            return younger.map(|row| row.account).collect();
        }
        let mut counted = Vec::new();
        self.collect(id, 0, &mut counted);
        counted
    }

    /// Adds the accounts of a budget, so many levels below the one that is asked for, and of all
    /// below it.
    fn collect(&self, id: u64, level: u64, to: &mut Vec<Account>) {
        let left_out = |row: &ObjectRow| {
            let odd = !row.account.period_start.is_multiple_of(PERIOD);
            planted(Mistake::TotalsLeaveTheBudgetOut) && level == 0
                || planted(Mistake::TotalsOfChildrenAlone) && level > 1
                || planted(Mistake::TotalsLeaveOutWhereAStartIsNoMultiple) && odd
        };
        for row in self.0.objects.iter().filter(|row| row.kind == BUDGET) {
            if row.id == id {
                to.extend((!left_out(row)).then_some(row.account));
            } else if row.payer == id {
                self.collect(row.id, level + 1, to);
            }
        }
    }

    pub(super) fn refill(&mut self, id: u64, time: u64) -> Done {
        let account = self.budget(id)?;
        Ok(vec![renew(account, time).into()])
    }

    pub(super) fn charge_cpu(&mut self, id: u64, ns: u64, time: u64) -> Done {
        let account = self.budget(id)?;
        let before = *account;
        renew(account, time);
        let covered = ns <= account.cpu_left;
        if !covered && planted(Mistake::RefusedCpuChargeForgetsRenewal) {
            *account = before;
        }
        ask(12, covered)?;
        if !planted(Mistake::CpuChargeNotBooked) {
            account.cpu_left -= ns;
        }
        Ok(vec![])
    }
}

pub(super) fn covers(account: &Account, bytes: u64) -> bool {
    bytes <= account.memory_free() && !planted(Mistake::EveryChargeRefused)
}

pub(super) fn renew(account: &mut Account, time: u64) -> bool {
    let Some(passed) = time.checked_sub(account.period_start) else {
        return false;
    };
    let due = passed >= PERIOD;
    if due {
        let whole = !planted(Mistake::StartSetToTime);
        account.period_start = time - if whole { passed % PERIOD } else { 0 };
        account.cpu_left = account.cpu_allowance - account.cpu_reserved;
        if planted(Mistake::RenewalForgetsReservations) {
            account.cpu_left = account.cpu_allowance;
        }
    }
    due
}
