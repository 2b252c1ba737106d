//! The calls on the Rust, with what document 02 has put into them.

use super::call::Call;
use carv_oracle::{Board, Value, Wait};

/// Makes the call on the Rust, which must not be one that the port refuses beyond the Rust.
///
/// # Errors
/// The number of the Rust's refusal.
///
/// # Panics
/// Where the Rust does.
// So that a call that is written out, as in the benchmark, costs no look at which it is.
#[inline(always)]
pub fn on_rust(call: Call, board: &mut Board) -> Result<Value, u8> {
    match call {
        Call::Open { cpu, memory } => {
            *board = Board::open(cpu, memory);
            Ok(Value::Done)
        }
        Call::Create {
            kind,
            payer,
            backing,
        } => board.create(kind, payer, backing),
        Call::Insert { kind, payer, bytes } => board.insert(kind, payer, bytes),
        Call::CreateBudget {
            parent,
            cpu,
            memory,
            time,
        } => board.create_budget(parent, cpu, memory, time),
        Call::ChargeMore { id, bytes } => board.charge_more(id, bytes),
        Call::Uncharge { id, bytes } => board.uncharge(id, bytes),
        Call::Remove { id, time } => board.remove(id, time),
        Call::Refill { id, time } => board.refill(id, time),
        Call::ChargeCpu { id, ns, time } => board.charge_cpu(id, ns, time),
        Call::PaysForAnything { id } => board.pays_for_anything(id),
        Call::Account { id } => board.account(id),
        Call::ChargeOf { id } => board.charge_of(id),
        Call::Totals { id } => board.totals(id),
        Call::CreateUserThread { id, budget, stack } => board.create_user_thread(id, budget, stack),
        Call::Start {
            id,
            space,
            cspace,
            root,
            context,
        } => board.start(id, space, cspace, root, context),
        Call::BlockCurrent { kind, number } => board.block_current(Wait { kind, number }),
        Call::Wake { id, results } => board.wake(id, results),
        Call::IsBlockedOn { id, kind, number } => board.is_blocked_on(id, Wait { kind, number }),
        Call::Kill { id, cause } => board.kill(id, cause),
        Call::Tick { tick } => board.tick(tick),
        Call::Plan { tick } => board.plan(tick),
        Call::Thread { id } => board.thread(id),
        Call::Current {} => board.current(),
        Call::Switches {} => board.switches(),
        Call::ExitOf { id } => board.exit_of(id),
    }
}
