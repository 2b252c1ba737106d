//! What a call leaves of the SSE registers: all of them with the feature `save-sse`, not all without
//! it. Asked of the module `c`, whose functions do nothing but call the library.

use crate::cases::{Memory, PREPARED, memory};
use crate::functions::{CALLS, Call};
use carv::{IMAGE_BYTES, c};
use std::arch::asm;

/// The registers xmm0 to xmm15.
type Registers = [u128; 16];

/// What calls are lent.
struct Lent {
    area: Box<Memory>,
    image: Box<[u8; IMAGE_BYTES]>,
    out: Box<c::Words>,
}

/// What is done between the setting of the registers and the look at them.
struct Job {
    call: Call,
    lent: Lent,
    number: u64,
}

extern "C" fn enter(job: &mut Job) {
    let Lent { area, image, out } = &mut job.lent;
    job.number = (job.call)(&mut area[..], &mut image[..], &mut out[..]);
}

/// Sets the registers, makes the call, and answers them as they are after it.
fn after(job: &mut Job, set: &Registers) -> Registers {
    let mut seen = Registers::default();
    // SAFETY: the registers are read from one array of 16 and written to the other; what `enter`
    // may change is said, and it keeps r12 and r13.
    unsafe {
        asm!(
            "movups xmm0, [r12]",
            "movups xmm1, [r12 + 16]",
            "movups xmm2, [r12 + 32]",
            "movups xmm3, [r12 + 48]",
            "movups xmm4, [r12 + 64]",
            "movups xmm5, [r12 + 80]",
            "movups xmm6, [r12 + 96]",
            "movups xmm7, [r12 + 112]",
            "movups xmm8, [r12 + 128]",
            "movups xmm9, [r12 + 144]",
            "movups xmm10, [r12 + 160]",
            "movups xmm11, [r12 + 176]",
            "movups xmm12, [r12 + 192]",
            "movups xmm13, [r12 + 208]",
            "movups xmm14, [r12 + 224]",
            "movups xmm15, [r12 + 240]",
            "call {enter}",
            "movups [r13], xmm0",
            "movups [r13 + 16], xmm1",
            "movups [r13 + 32], xmm2",
            "movups [r13 + 48], xmm3",
            "movups [r13 + 64], xmm4",
            "movups [r13 + 80], xmm5",
            "movups [r13 + 96], xmm6",
            "movups [r13 + 112], xmm7",
            "movups [r13 + 128], xmm8",
            "movups [r13 + 144], xmm9",
            "movups [r13 + 160], xmm10",
            "movups [r13 + 176], xmm11",
            "movups [r13 + 192], xmm12",
            "movups [r13 + 208], xmm13",
            "movups [r13 + 224], xmm14",
            "movups [r13 + 240], xmm15",
            enter = sym enter,
            in("rdi") job,
            in("r12") set.as_ptr(),
            in("r13") seen.as_mut_ptr(),
            clobber_abi("C"),
        );
    }
    seen
}

/// The registers that a call leaves changed, by their numbers.
fn changed(name: &str, call: Call) -> Vec<usize> {
    let mut area = memory();
    area.copy_from_slice(&PREPARED[..]);
    let mut job = Job {
        call,
        lent: Lent {
            area,
            image: Box::new([0; IMAGE_BYTES]),
            out: Box::new([0; c::ANSWER_WORDS]),
        },
        number: u64::MAX,
    };
    let set: Registers = std::array::from_fn(|number| (0x5ca1_ab1e << 64) | (number as u128 + 1));
    let seen = after(&mut job, &set);
    assert_eq!(job.number, 0, "{name}");
    (0..set.len())
        .filter(|number| set[*number] != seen[*number])
        .collect()
}

/// With the feature every call leaves every register as it was. Without it some don't: so the test
/// can see it.
#[test]
fn registers_are_kept_with_the_feature() {
    let changed = CALLS.map(|(name, call)| (name, changed(name, call)));
    println!("{changed:?}");
    let changing = changed
        .iter()
        .filter(|(_, registers)| !registers.is_empty());
    if cfg!(feature = "save-sse") {
        assert_eq!(changing.count(), 0, "{changed:?}");
    } else {
        assert_ne!(changing.count(), 0);
    }
}
