//! The rules of the objects.

use super::{Rule, Search, Take, Test, falling, misses, rule_of};
use crate::area::{Account, OBJECTS, ObjectField as Field, ObjectRow, Table};
use crate::{BUDGET, PERIOD};

pub(super) const RULES: [Rule; 11] = [
    rule("every kind is listed", |t, take| {
        let is_listed = |row: &ObjectRow| (1..=9).contains(&row.kind);
        let says = |row: &ObjectRow| {
            let ObjectRow { id, kind, .. } = row;
            format!("kind of object {id} is {kind}, listed are 1 to 9")
        };
        rows(t, Field::Kind, is_listed, says, take)
    }),
    rule("object ids rise", |t, take| {
        falling(&OBJECTS, &t.objects, |row| row.id, take)
    }),
    rule("object ids lie below the next id", |t, take| {
        let is_below = |row: &ObjectRow| row.id < t.next_id;
        let says =
            |row: &ObjectRow| format!("object {} is there, the next id is {}", row.id, t.next_id);
        rows(t, Field::Id, is_below, says, take)
    }),
    rule("entry 1 is a budget paying for itself", root),
    rule("other payers are live budgets of lower id", |t, take| {
        let is_fit = |row: &ObjectRow| row.id == 1 || payer_is_fit(t, row);
        let says = |row: &ObjectRow| {
            let why = match entry(t, row.payer) {
                None => "is not there",
                Some(payer) if payer.kind != BUDGET => "is no budget",
                Some(_) => "has no lower id",
            };
            format!("payer {} of object {} {why}", row.payer, row.id)
        };
        rows(t, Field::Payer, is_fit, says, take)
    }),
    rule("what is no budget has no account", no_account),
    rule("used equals the charges it pays", |t, take| {
        let figure = |b: &ObjectRow| b.account.memory_used;
        let charges = |b: &ObjectRow| {
            let paid = t.objects.iter().filter(|row| row.payer == b.id);
            sum(paid.map(|row| row.charge))
        };
        let of = "the charges that it pays";
        sums(t, Field::MemoryUsed, figure, of, charges, take)
    }),
    rule("memory reserved equals its children's limits", |t, take| {
        let figure = |b: &ObjectRow| b.account.memory_reserved;
        let limits = |b: &ObjectRow| sum(children(t, b.id).map(|child| child.account.memory_limit));
        let of = "its children's limits";
        sums(t, Field::MemoryReserved, figure, of, limits, take)
    }),
    rule(
        "CPU reserved equals its children's allowances",
        |t, take| {
            let figure = |b: &ObjectRow| b.account.cpu_reserved;
            let allowances =
                |b: &ObjectRow| sum(children(t, b.id).map(|child| child.account.cpu_allowance));
            let of = "its children's allowances";
            sums(t, Field::CpuReserved, figure, of, allowances, take)
        },
    ),
    rule("used + reserved is at most the memory limit", |t, take| {
        let fits = |a: Account| {
            sum([a.memory_used, a.memory_reserved].into_iter()) <= u128::from(a.memory_limit)
        };
        let says = |id: u64, a: Account| {
            let (used, reserved, limit) = (a.memory_used, a.memory_reserved, a.memory_limit);
            format!("used {used} + reserved {reserved} of budget {id} are above its limit {limit}")
        };
        accounts(t, Field::MemoryLimit, fits, says, take)
    }),
    rule(
        "CPU left + CPU reserved ≤ allowance ≤ period",
        |t, take| {
            let fits = |a: Account| {
                sum([a.cpu_left, a.cpu_reserved].into_iter()) <= u128::from(a.cpu_allowance)
            };
            let says = |id: u64, a: Account| {
                let (left, reserved, allowance) = (a.cpu_left, a.cpu_reserved, a.cpu_allowance);
                let parts = format!("CPU left {left} + CPU reserved {reserved}");
                format!("{parts} of budget {id} are above its allowance {allowance}")
            };
            accounts(t, Field::CpuLeft, fits, says, take)?;
            let fits = |a: Account| a.cpu_allowance <= PERIOD;
            let says = |id: u64, a: Account| {
                let allowance = a.cpu_allowance;
                format!("CPU allowance {allowance} of budget {id} is above the period {PERIOD}")
            };
            accounts(t, Field::CpuAllowance, fits, says, take)
        },
    ),
];

const fn rule(says: &'static str, test: Test) -> Rule {
    rule_of(&[OBJECTS], says, test)
}

fn word(place: usize, field: Field) -> usize {
    OBJECTS.row(place) + field as usize
}

/// Where a row misses a test: at this field.
fn rows(
    table: &Table,
    field: Field,
    fits: impl Fn(&ObjectRow) -> bool,
    says: impl Fn(&ObjectRow) -> String,
    take: Take<'_>,
) -> Search {
    misses(&OBJECTS, &table.objects, field as usize, fits, says, take)
}

/// Where a budget's account misses a test.
fn accounts(
    table: &Table,
    field: Field,
    fits: impl Fn(Account) -> bool,
    says: impl Fn(u64, Account) -> String,
    take: Take<'_>,
) -> Search {
    let fits = |row: &ObjectRow| row.kind != BUDGET || fits(row.account);
    let says = |row: &ObjectRow| says(row.id, row.account);
    rows(table, field, fits, says, take)
}

/// Where a budget's figure isn't the sum that it stands for.
fn sums(
    table: &Table,
    field: Field,
    figure: impl Fn(&ObjectRow) -> u64,
    of: &str,
    sum: impl Fn(&ObjectRow) -> u128,
    take: Take<'_>,
) -> Search {
    let fits = |row: &ObjectRow| row.kind != BUDGET || u128::from(figure(row)) == sum(row);
    let says = |row: &ObjectRow| {
        let (text, id, figure, sum) = (field.text(), row.id, figure(row), sum(row));
        format!("{text} of budget {id} is {figure}, {of} sum up to {sum}")
    };
    rows(table, field, fits, says, take)
}

fn root(table: &Table, take: Take<'_>) -> Search {
    let Some(place) = table.objects.iter().position(|row| row.id == 1) else {
        return take(word(0, Field::Id), &|| "there is no object 1".to_string());
    };
    let ObjectRow { kind, payer, .. } = table.objects[place];
    if kind != BUDGET {
        take(word(place, Field::Kind), &|| {
            format!("kind of object 1 is {kind}, that of a budget is {BUDGET}")
        })?;
    }
    if payer != 1 {
        take(word(place, Field::Payer), &|| {
            format!("object 1 is paid by {payer}, not by itself")
        })?;
    }
    Search::Continue(())
}

fn no_account(table: &Table, take: Take<'_>) -> Search {
    for (place, row) in table.objects.iter().enumerate() {
        if row.kind == BUDGET || row.account.words() == [0; 7] {
            continue;
        }
        let account = Field::ALL.into_iter().zip(row.words()).skip(4);
        for (field, figure) in account.filter(|(_, figure)| *figure != 0) {
            let (text, id) = (field.text(), row.id);
            take(word(place, field), &|| {
                format!("{text} of object {id}, which is no budget, is {figure}")
            })?;
        }
    }
    Search::Continue(())
}

/// The object with this id. Ids may stand in any order.
fn entry(table: &Table, id: u64) -> Option<&ObjectRow> {
    table.objects.iter().find(|row| row.id == id)
}

fn payer_is_fit(table: &Table, row: &ObjectRow) -> bool {
    row.payer < row.id && entry(table, row.payer).is_some_and(|payer| payer.kind == BUDGET)
}

/// The budgets carved out of this one; the root is not its own child.
fn children(table: &Table, id: u64) -> impl Iterator<Item = &ObjectRow> {
    let budgets = table.objects.iter().filter(|row| row.kind == BUDGET);
    budgets.filter(move |row| row.payer == id && row.id != id)
}

fn sum(numbers: impl Iterator<Item = u64>) -> u128 {
    numbers.map(u128::from).sum()
}
