//! Damage to objects.

use super::Victim;
use crate::area::{NEXT_ID, ObjectField as Field, ObjectRow};
use carv_compare::board::BUDGET;
use carv_compare::draw::Draw;
use carv_oracle::account::PERIOD;

impl Victim {
    fn count(&self) -> usize {
        self.table.objects.len()
    }

    fn any_row(&self, draw: &mut Draw) -> usize {
        draw.random.below(self.count() as u64) as usize
    }

    /// The first row from a random one on that is as asked, else the first of all.
    fn row_where(&self, draw: &mut Draw, fits: impl Fn(&ObjectRow) -> bool) -> usize {
        let from = self.any_row(draw);
        let rows = (from..self.count()).chain(0..from);
        let mut found = rows.filter(|row| fits(&self.table.objects[*row]));
        found.next().unwrap_or(0)
    }

    fn any_budget(&self, draw: &mut Draw) -> usize {
        self.row_where(draw, |row| row.kind == BUDGET)
    }

    /// The place of an object's payer.
    fn payer_of(&self, row: usize) -> usize {
        let payer = self.table.objects[row].payer;
        let place = self.table.objects.iter().position(|row| row.id == payer);
        place.expect("payers are live in a sound registry")
    }

    pub(super) fn off_by_one(&mut self, draw: &mut Draw) {
        let row = self.any_budget(draw);
        let field = draw.random.of(&Field::ALL);
        let amount = draw.random.of(&[1, u64::MAX]);
        self.add(field, row, amount);
    }

    pub(super) fn swap_ids(&mut self, draw: &mut Draw) {
        let (one, other) = (self.any_row(draw), self.any_row(draw));
        let (id, other_id) = (self.get(Field::Id, one), self.get(Field::Id, other));
        self.set(Field::Id, one, other_id);
        self.set(Field::Id, other, id);
    }

    pub(super) fn swap_rows(&mut self, draw: &mut Draw) {
        let (one, other) = (self.any_row(draw), self.any_row(draw));
        self.table.objects.swap(one, other);
        self.write_table();
    }

    pub(super) fn repeat_id(&mut self, draw: &mut Draw) {
        let row = self.any_row(draw);
        let id = self.get(Field::Id, row.saturating_sub(1));
        self.set(Field::Id, row, id);
    }

    pub(super) fn wrong_kind(&mut self, draw: &mut Draw) {
        let row = self.any_row(draw);
        let kind = self.get(Field::Kind, row);
        let kinds = [0, 3, 6, 10, kind + 256, kind + (1 << 32), u64::MAX];
        self.set(Field::Kind, row, draw.random.of(&kinds));
    }

    pub(super) fn wrong_payer(&mut self, draw: &mut Draw) {
        let row = self.any_row(draw);
        let plain = self.row_where(draw, |row| row.kind != BUDGET);
        let budget = self.any_budget(draw);
        let last = self.count() - 1;
        let payers = [
            0,
            self.get(Field::Id, row),
            self.get(Field::Id, plain),
            self.get(Field::Id, budget),
            self.get(Field::Id, last),
            self.get(Field::Payer, row).wrapping_add(1),
            self.get(Field::Payer, row).wrapping_add(1 << 32),
            self.table.next_id,
            u64::MAX,
        ];
        self.set(Field::Payer, row, draw.random.of(&payers));
    }

    pub(super) fn wrapping_charges(&mut self, draw: &mut Draw) {
        let one = self.any_row(draw);
        let ObjectRow { id, payer, .. } = self.table.objects[one];
        let other = self.row_where(draw, |row| row.payer == payer && row.id != id);
        let amount = cancelling(draw);
        self.add(Field::Charge, one, amount);
        self.add(Field::Charge, other, amount.wrapping_neg());
    }

    pub(super) fn wrapping_limits(&mut self, draw: &mut Draw) {
        let one = self.row_where(draw, |row| row.kind == BUDGET && row.id != 1);
        let ObjectRow { id, payer, .. } = self.table.objects[one];
        let other = self.row_where(draw, |row| {
            row.kind == BUDGET && row.payer == payer && row.id != id && row.id != 1
        });
        let field = draw.random.of(&[Field::MemoryLimit, Field::CpuAllowance]);
        let amount = cancelling(draw);
        self.add(field, one, amount);
        self.add(field, other, amount.wrapping_neg());
    }

    /// The root's use, with its own charge, so large that used + reserved wraps to 0 or little
    /// above.
    pub(super) fn wrapping_use(&mut self, draw: &mut Draw) {
        let account = self.table.objects[0].account;
        let taken = account.memory_used + account.memory_reserved;
        let amount = draw.within(16).wrapping_sub(taken);
        self.add(Field::Charge, 0, amount);
        self.add(Field::MemoryUsed, 0, amount);
    }

    /// CPU left so large that, with what is reserved, it wraps to 0 or little above.
    pub(super) fn wrapping_cpu(&mut self, draw: &mut Draw) {
        let row = self.any_budget(draw);
        let reserved = self.get(Field::CpuReserved, row);
        let left = draw.within(16).wrapping_sub(reserved);
        self.set(Field::CpuLeft, row, left);
    }

    pub(super) fn account_without_budget(&mut self, draw: &mut Draw) {
        let row = self.row_where(draw, |row| row.kind != BUDGET);
        let field = draw.random.of(&Field::ALL[4..]);
        let value = draw.number();
        self.set(field, row, value);
    }

    pub(super) fn low_next_id(&mut self, draw: &mut Draw) {
        let last = self.get(Field::Id, self.count() - 1);
        let ids = [0, 1, last - 1, last, last + 1];
        self.set_word(NEXT_ID, draw.random.of(&ids));
    }

    /// Sound if the payer's limit allows for it.
    pub(super) fn move_charge_and_use(&mut self, draw: &mut Draw) {
        let row = self.any_row(draw);
        let payer = self.payer_of(row);
        let account = self.table.objects[payer].account;
        let free = account.memory_limit - account.memory_used - account.memory_reserved;
        let amount = if draw.random.one_in(2) {
            draw.amount(free)
        } else {
            draw.amount(self.table.objects[row].charge).wrapping_neg()
        };
        self.add(Field::Charge, row, amount);
        self.add(Field::MemoryUsed, payer, amount);
    }

    /// Sound if the limits of child and parent allow for it.
    pub(super) fn move_limit_and_reservation(&mut self, draw: &mut Draw) {
        let row = self.row_where(draw, |row| row.kind == BUDGET && row.id != 1);
        let payer = self.payer_of(row);
        let parent = self.table.objects[payer].account;
        let (limit, reserved, free) = if draw.random.one_in(2) {
            let free = parent.memory_limit - parent.memory_used - parent.memory_reserved;
            (Field::MemoryLimit, Field::MemoryReserved, free)
        } else {
            let free = parent.cpu_allowance - parent.cpu_left - parent.cpu_reserved;
            (Field::CpuAllowance, Field::CpuReserved, free)
        };
        let amount = draw.amount(free);
        let amount = if draw.random.one_in(2) {
            amount
        } else {
            amount.wrapping_neg()
        };
        self.add(limit, row, amount);
        self.add(reserved, payer, amount);
    }

    pub(super) fn allowance_around_period(&mut self, draw: &mut Draw) {
        let allowance = draw.beside(PERIOD);
        self.set(Field::CpuAllowance, 0, allowance);
    }

    pub(super) fn limit_around_use(&mut self, draw: &mut Draw) {
        if draw.random.one_in(2) {
            let account = self.table.objects[0].account;
            let limit = draw.beside(account.memory_used + account.memory_reserved);
            self.set(Field::MemoryLimit, 0, limit);
        } else {
            let row = self.any_budget(draw);
            let account = self.table.objects[row].account;
            let left = draw.beside(account.cpu_allowance - account.cpu_reserved);
            self.set(Field::CpuLeft, row, left);
        }
    }

    pub(super) fn change_root(&mut self, draw: &mut Draw) {
        let field = draw.random.of(&[Field::Id, Field::Kind, Field::Payer]);
        let values = [0, 1, 2, 3, 6, u64::MAX];
        self.set(field, 0, draw.random.of(&values));
    }

    /// Sound if nothing was charged or reserved for it.
    pub(super) fn take_object_out(&mut self, draw: &mut Draw) {
        let row = self.any_row(draw);
        self.table.objects.remove(row);
        self.write_table();
    }

    /// Sound: the next id raised, CPU left lowered, another period start, a higher limit.
    pub(super) fn change_free_figures(&mut self, draw: &mut Draw) {
        let row = self.any_budget(draw);
        let account = self.table.objects[row].account;
        match draw.random.below(4) {
            0 => {
                let id = self.table.next_id.max(draw.number());
                self.set_word(NEXT_ID, id);
            }
            1 => self.set(Field::CpuLeft, row, draw.within(account.cpu_left)),
            2 => self.set(Field::PeriodStart, row, draw.number()),
            _ => {
                let limit = self.table.objects[0]
                    .account
                    .memory_limit
                    .max(draw.number());
                self.set(Field::MemoryLimit, 0, limit);
            }
        }
    }
}

/// An amount that is added to one figure and taken from another: 2^63 raises or lowers both.
fn cancelling(draw: &mut Draw) -> u64 {
    if draw.random.one_in(2) {
        1 << 63
    } else {
        draw.number()
    }
}
