//! The accounts in a board's bytes.

use carv::{Account, Limits, Nanoseconds, ObjectId};
use carv_layout::BUDGET;
use carv_layout::area::{OBJECTS, ObjectField, word};

/// The live budgets with their accounts, by rising id.
pub fn accounts(area: &[u8]) -> impl Iterator<Item = (ObjectId, Account)> {
    let rows = 0..OBJECTS.length(area).unwrap_or(0);
    let field = |place, field: ObjectField| word(area, OBJECTS.row(place) + field as usize);
    let rows = rows.filter(move |place| field(*place, ObjectField::Kind) == BUDGET);
    rows.map(move |place| {
        let mut account = Account::default();
        account.limits = Limits {
            cpu_ns: field(place, ObjectField::CpuAllowance),
            memory_bytes: field(place, ObjectField::MemoryLimit),
        };
        account.period_start = Nanoseconds(field(place, ObjectField::PeriodStart));
        account.cpu_left_ns = field(place, ObjectField::CpuLeft);
        account.cpu_reserved_ns = field(place, ObjectField::CpuReserved);
        account.memory_used_bytes = field(place, ObjectField::MemoryUsed);
        account.memory_reserved_bytes = field(place, ObjectField::MemoryReserved);
        (ObjectId(field(place, ObjectField::Id)), account)
    })
}
