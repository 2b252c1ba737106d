//! A call on a stack of its own, which is painted before and looked at after it.

use crate::cases::{Answer, Memory};
use std::arch::asm;

/// Bytes of that stack: enough for what takes a board by value.
const STACK: usize = 1 << 20;
/// What a word of the stack holds that was never written.
const PAINT: u64 = 0x5ca1_ab1e_5ca1_ab1e;

/// What is done there.
struct Job<'a> {
    make: fn(&mut Memory) -> Answer,
    memory: &'a mut Memory,
    answer: Option<Answer>,
}

/// Makes a call on a stack of its own. Answers what the call answers, and how many bytes of the
/// stack it took, those of `make` and its return address among them.
pub fn made(make: fn(&mut Memory) -> Answer, memory: &mut Memory) -> (Answer, usize) {
    let mut stack = vec![[PAINT; 2]; STACK / 16];
    let mut job = Job {
        make,
        memory,
        answer: None,
    };
    run(&mut job, &mut stack);
    let words = stack.as_flattened();
    let untouched = words.iter().take_while(|word| **word == PAINT).count();
    let taken = (words.len() - untouched) * size_of::<u64>();
    (job.answer.expect("the call was made"), taken - entry())
}

/// What is on the stack before `make` is called: the frame of `enter` and its return address.
fn entry() -> usize {
    let mut stack = vec![[PAINT; 2]; 64];
    let mut memory = crate::cases::memory();
    let mut job = Job {
        make: |_| Ok(()),
        memory: &mut memory,
        answer: None,
    };
    run(&mut job, &mut stack);
    let words = stack.as_flattened();
    let untouched = words.iter().take_while(|word| **word == PAINT).count();
    // All but the return address of `make`.
    (words.len() - untouched - 1) * size_of::<u64>()
}

/// Runs the job on this stack.
fn run(job: &mut Job, stack: &mut [[u64; 2]]) {
    let top = stack.as_mut_ptr_range().end;
    // SAFETY: the stack is memory of this call's own, and the stack pointer goes to its end, which
    // lies on a boundary of 16 bytes, and comes back, as `enter` keeps r12.
    unsafe {
        asm!(
            "mov r12, rsp",
            "mov rsp, rsi",
            "and rsp, -16",
            "call {enter}",
            "mov rsp, r12",
            enter = sym enter,
            in("rdi") job,
            in("rsi") top,
            out("r12") _,
            clobber_abi("C"),
        );
    }
}

extern "C" fn enter(job: &mut Job) {
    job.answer = Some((job.make)(job.memory));
}
