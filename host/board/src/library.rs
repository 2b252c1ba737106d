//! The calls on the port's library, through its C functions.

use crate::port::Port;
use carv::c;
use carv_compare::board::call::Call;

/// See [`Port::make`].
#[inline(always)]
pub(crate) fn make(call: Call, Port { area, out, image }: &mut Port) -> u64 {
    match call {
        Call::Open { cpu, memory } => c::carv_open(area, cpu, memory, out),
        Call::Create {
            kind,
            payer,
            backing,
        } => c::carv_create(area, kind, payer, backing, out),
        Call::Insert { kind, payer, bytes } => c::carv_insert(area, kind, payer, bytes, out),
        Call::CreateBudget {
            parent,
            cpu,
            memory,
            time,
        } => c::carv_create_budget(area, parent, cpu, memory, time, out),
        Call::ChargeMore { id, bytes } => c::carv_charge_more(area, id, bytes, out),
        Call::Uncharge { id, bytes } => c::carv_uncharge(area, id, bytes, out),
        Call::Remove { id, time } => c::carv_remove(area, id, time, out),
        Call::Refill { id, time } => c::carv_refill(area, id, time, out),
        Call::ChargeCpu { id, ns, time } => c::carv_charge_cpu(area, id, ns, time, out),
        Call::PaysForAnything { id } => c::carv_pays_for_anything(area, id, out),
        Call::Account { id } => c::carv_account(area, id, out),
        Call::ChargeOf { id } => c::carv_charge_of(area, id, out),
        Call::Totals { id } => c::carv_totals(area, id, out),
        Call::CreateUserThread { id, budget, stack } => {
            c::carv_create_user_thread(area, id, budget, stack, image, out)
        }
        Call::Start {
            id,
            space,
            cspace,
            root,
            context: [rip, rsp, rflags, rdi, rsi, cs, ss],
        } => c::carv_start(
            area, id, space, cspace, root, rip, rsp, rflags, rdi, rsi, cs, ss, out,
        ),
        Call::BlockCurrent { kind, number } => c::carv_block_current(area, kind, number, out),
        Call::Wake {
            id,
            results: [first, second, third],
        } => c::carv_wake(area, id, first, second, third, out),
        Call::IsBlockedOn { id, kind, number } => {
            c::carv_is_blocked_on(area, id, kind, number, out)
        }
        Call::Kill { id, cause } => c::carv_kill(area, id, cause, out),
        Call::Tick { tick } => c::carv_tick(area, tick, out),
        Call::Plan { tick } => c::carv_plan(area, tick, out),
        Call::Thread { id } => c::carv_read_thread(area, id, out),
        Call::Current {} => c::carv_current(area, out),
        Call::Switches {} => c::carv_switches(area, out),
        Call::ExitOf { id } => c::carv_exit_of(area, id, out),
    }
}

/// See [`Port::fill_image`].
#[inline]
pub(crate) fn fill_image(image: &mut [u8]) -> u64 {
    c::carv_image(image)
}

/// See [`Port::is_sound`].
#[inline]
pub(crate) fn is_sound(area: &[u8]) -> bool {
    c::carv_is_sound(area)
}
