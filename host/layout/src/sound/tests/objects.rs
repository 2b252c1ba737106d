//! The rules of the objects.

use super::{fault_with, object};
use crate::area::{NEXT_ID, ObjectField as O};
use crate::sound::registry;

#[test]
fn each_rule_of_the_registry_is_asked() {
    let is = |change: (usize, u64), rule: usize, word: usize, says: &str| {
        fault_with(&[change], registry::RULES[rule].says, word, says);
    };
    let says = "kind of object 3 is 10, listed are 1 to 9";
    is((object(2, O::Kind), 10), 0, object(2, O::Kind), says);
    let says = "id 4 stands behind id 4";
    is((object(2, O::Id), 4), 1, object(3, O::Id), says);
    let says = "object 4 is there, the next id is 4";
    is((NEXT_ID, 4), 2, object(3, O::Id), says);
    let says = "object 1 is paid by 2, not by itself";
    is((object(0, O::Payer), 2), 3, object(0, O::Payer), says);
    let says = "payer 3 of object 3 is no budget";
    is((object(2, O::Payer), 3), 4, object(2, O::Payer), says);
    let says = "payer 9 of object 3 is not there";
    is((object(2, O::Payer), 9), 4, object(2, O::Payer), says);
    let says = "payer 2 of object 2 has no lower id";
    is((object(1, O::Payer), 2), 4, object(1, O::Payer), says);
    let says = "period start of object 3, which is no budget, is 1";
    is(
        (object(2, O::PeriodStart), 1),
        5,
        object(2, O::PeriodStart),
        says,
    );
    let says = "memory used of budget 2 is 4096, the charges that it pays sum up to 4095";
    is(
        (object(2, O::Charge), 4_095),
        6,
        object(1, O::MemoryUsed),
        says,
    );
    let says = "memory reserved of budget 1 is 8192, its children's limits sum up to 8193";
    is(
        (object(1, O::MemoryLimit), 8_193),
        7,
        object(0, O::MemoryReserved),
        says,
    );
    let says = "CPU reserved of budget 1 is 4000000, its children's allowances sum up to 4000001";
    is(
        (object(1, O::CpuAllowance), 4_000_001),
        8,
        object(0, O::CpuReserved),
        says,
    );
    let says = "used 256 + reserved 8192 of budget 1 are above its limit 8447";
    is(
        (object(0, O::MemoryLimit), 8_447),
        9,
        object(0, O::MemoryLimit),
        says,
    );
    let says =
        "CPU left 6000001 + CPU reserved 4000000 of budget 1 are above its allowance 10000000";
    is(
        (object(0, O::CpuLeft), 6_000_001),
        10,
        object(0, O::CpuLeft),
        says,
    );
    let says = "CPU allowance 10000001 of budget 1 is above the period 10000000";
    is(
        (object(0, O::CpuAllowance), 10_000_001),
        10,
        object(0, O::CpuAllowance),
        says,
    );
    let says = "kind of object 1 is 3, that of a budget is 6";
    is((object(0, O::Kind), 3), 3, object(0, O::Kind), says);
    let says = "there is no object 1";
    is((object(0, O::Id), 0), 3, object(0, O::Id), says);
}
