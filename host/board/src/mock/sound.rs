//! The model's question 1.

use super::{Mistake, planted};
use crate::area::{self, Account, ObjectRow, PARTS, Table, ThreadRow};
use carv_compare::board::state::{BLOCKED, DEAD, INACTIVE, READY, RUNNING};
use carv_compare::board::{BUDGET, IDLE};
use carv_oracle::account::PERIOD;

pub(super) fn is_sound(area: &[u8]) -> bool {
    let Some(table) = area::read(area) else {
        return false;
    };
    let rests = PARTS.iter().all(|part| {
        let rows = part.length(area).unwrap_or(0);
        part.ends_with_zeros(area, rows)
    });
    asked(Mistake::RestNotAsked, rests)
        && objects_fit(&table)
        && threads_fit(&table)
        && queue_fits(&table)
        && current_and_idle_fit(&table)
        && asked(
            Mistake::CausesNotAsked,
            table
                .exits
                .iter()
                .all(|exit| exit.cause.wrapping_sub(1) < 2),
        )
}

/// What is asked, unless the mistake of leaving it out is planted.
fn asked(mistake: Mistake, holds: bool) -> bool {
    holds || planted(mistake)
}

/// One pass that takes what each row takes off its payer's figures.
fn objects_fit(table: &Table) -> bool {
    let rows = &table.objects;
    let mut left = rows.clone();
    let mut last = 0;
    for (place, row) in rows.iter().enumerate() {
        // The ids up to here rise, or the row doesn't fit.
        let payer = rows[..=place].binary_search_by_key(&row.payer, |r| r.id);
        let fits = |payer: &usize| object_fits(row, last, table.next_id, &rows[*payer]);
        let Some(payer) = payer.ok().filter(fits) else {
            return false;
        };
        let limits = match place {
            0 => [0, 0],
            _ => [row.account.memory_limit, row.account.cpu_allowance],
        };
        if !take(&mut left[payer].account, [row.charge, limits[0], limits[1]]) {
            return false;
        }
        last = row.id;
    }
    let used_up = |a: &Account| {
        let rest = [a.memory_used, a.memory_reserved, a.cpu_reserved];
        let mut rest = rest.into_iter().zip(SUMS_NOT_ASKED);
        rest.all(|(figure, mistake)| asked(mistake, figure == 0))
    };
    let mut left = left.iter();
    !rows.is_empty() && left.all(|row| row.kind != BUDGET || used_up(&row.account))
}

/// Whether a row is in order behind the id `last` and with this payer.
fn object_fits(row: &ObjectRow, last: u64, next_id: u64, payer: &ObjectRow) -> bool {
    let account = &row.account;
    let first = row.id == 1 && row.payer == 1 && row.kind == BUDGET;
    let later = row.id > last.max(1) && row.payer < row.id;
    let figures = row.kind == BUDGET || account.words() == [0; 7];
    (1..=9).contains(&row.kind)
        && row.id < next_id
        && if last == 0 { first } else { later }
        && asked(Mistake::PayerKindNotAsked, payer.kind == BUDGET)
        && asked(Mistake::AccountsOfOthersNotAsked, figures)
        && within(
            account.memory_used,
            account.memory_reserved,
            account.memory_limit,
        )
        && within(
            account.cpu_left,
            account.cpu_reserved,
            account.cpu_allowance,
        )
        && account.cpu_allowance <= PERIOD
}

fn within(first: u64, second: u64, limit: u64) -> bool {
    if planted(Mistake::SumsWrap) {
        return first.wrapping_add(second) <= limit;
    }
    first.checked_add(second).is_some_and(|sum| sum <= limit)
}

/// Mistakes of the figures that are sums over what a budget pays for: use, memory and CPU reserved.
const SUMS_NOT_ASKED: [Mistake; 3] = [
    Mistake::SumOfChargesNotAsked,
    Mistake::SumOfMemoryReservationsNotAsked,
    Mistake::SumOfCpuReservationsNotAsked,
];

fn take(account: &mut Account, takes: [u64; 3]) -> bool {
    let figures = [
        &mut account.memory_used,
        &mut account.memory_reserved,
        &mut account.cpu_reserved,
    ];
    let mut figures = figures.into_iter().zip(takes).zip(SUMS_NOT_ASKED);
    figures.all(|((figure, take), mistake)| {
        let enough = *figure >= take;
        *figure = figure.wrapping_sub(take);
        asked(Mistake::SumsWrap, enough) || planted(mistake)
    })
}

fn threads_fit(table: &Table) -> bool {
    let rises = table.threads.is_sorted_by(|one, other| one.id < other.id);
    asked(Mistake::ThreadIdsNotAsked, rises)
        && table.threads.iter().all(|row| thread_fits(row, table))
}

fn thread_fits(row: &ThreadRow, table: &Table) -> bool {
    let current = row.id == table.current;
    let unpaid = row.id == 0 || row.id == IDLE;
    let (wait, waits) = match row.state {
        BLOCKED => (Mistake::WaitsNotAsked, row.wait[0].wrapping_sub(1) < 5),
        _ => (Mistake::WaitsOfOthersNotAsked, row.wait == [0, 0]),
    };
    asked(Mistake::StatesNotAsked, row.state.wrapping_sub(1) < 5)
        && asked(wait, waits)
        && asked(
            Mistake::BudgetFlagNotAsked,
            matches!(row.budget, [0, 0] | [1, _]),
        )
        && asked(
            Mistake::SpaceFlagNotAsked,
            matches!(row.space, [0, 0, 0, 0] | [1, ..]),
        )
        && asked(
            Mistake::ReadyOutsideQueueNotAsked,
            row.state != READY || row.id == IDLE || table.queue.contains(&row.id),
        )
        && asked(Mistake::SecondDeadNotAsked, row.state != DEAD || current)
        && asked(
            Mistake::SecondRunningNotAsked,
            row.state != RUNNING || current || row.id == IDLE,
        )
        && asked(
            Mistake::BudgetsOfThreadsNotAsked,
            (row.budget[0] == 0) == unpaid,
        )
}

fn state_of(table: &Table, id: u64) -> Option<u64> {
    let mut rows = table.threads.iter();
    rows.find(|row| row.id == id).map(|row| row.state)
}

fn queue_fits(table: &Table) -> bool {
    table.queue.iter().enumerate().all(|(place, id)| {
        let ready = state_of(table, *id) == Some(READY);
        asked(
            Mistake::QueueTwiceNotAsked,
            !table.queue[..place].contains(id),
        ) && asked(Mistake::IdleInQueueNotAsked, *id != IDLE)
            && asked(Mistake::QueueStatesNotAsked, ready)
    })
}

fn current_and_idle_fit(table: &Table) -> bool {
    let current = state_of(table, table.current);
    let idle = state_of(table, IDLE);
    asked(Mistake::CurrentNotAsked, current.is_some())
        && asked(Mistake::InactiveCurrentNotAsked, current != Some(INACTIVE))
        && asked(Mistake::IdleNotAsked, idle.is_some())
        && asked(
            Mistake::IdleStateNotAsked,
            idle.is_none_or(|state| [READY, RUNNING].contains(&state)),
        )
        && asked(
            Mistake::IdleCurrentNotAsked,
            table.current != IDLE || idle.is_none_or(|state| state != READY),
        )
}
