//! A kernel in small on the board: no standard library, no C library, a board in a `static`, a stack
//! of 32 KiB. It switches a service on, takes the timer's ticks, and switches the service off.
//!
//! Built with `panic = "abort"` it is a program of its own from the first instruction on:
//!
//!     cargo rustc --profile kernel -p carv --example kernel -- \
//!         -C link-args="-nostartfiles -nostdlib -static" -C relocation-model=static
//!     target/kernel/examples/kernel
//!
//! Its exit status is 0 if all went as expected. Built in the usual way it is a hosted program that
//! does the same.

#![cfg_attr(panic = "abort", no_std, no_main)]

use carv::{
    Backing, Board, Cause, Context, Kind, Limits, ObjectId, PERIOD_NS, Refusal, Space, ThreadId,
    Tick, Wait,
};

const COUNTING: Limits = Limits {
    cpu_ns: PERIOD_NS / 5,
    memory_bytes: 65_536,
};

/// Two periods of the kernel's life. Answers how many ticks the service ran.
fn live(board: &mut Board) -> Result<u64, Refusal> {
    let root = Limits {
        cpu_ns: PERIOD_NS,
        memory_bytes: 1_000_000,
    };
    board.reopen(root)?;
    let budget = board.create_budget(ObjectId::ROOT, COUNTING, Tick(0).time()?)?;
    let object = board.insert(Kind::Thread, budget, Kind::Thread.bytes())?;
    let thread = ThreadId::of(object);
    let _image = board.create_user_thread(thread, budget, Backing::There)?;
    board.start(thread, Space::default(), Context::default())?;
    board.block_current(Wait::Notification(1))?;
    let mut runs = board.plan(Tick(0))?.switch.map(|switch| switch.new);
    let mut ticks = 0;
    for n in 1..20 {
        ticks += u64::from(runs == Some(thread));
        board.tick(Tick(n))?;
        if let Some(switch) = board.plan(Tick(n))?.switch {
            runs = Some(switch.new);
        }
    }
    board.kill(thread, Cause::Destroyed)?;
    board.remove(object, Tick(19).time()?)?;
    board.remove(budget, Tick(19).time()?)?;
    Ok(ticks)
}

/// Its share is 2 ms of every 10.
fn is_as_expected(ticks: Result<u64, Refusal>) -> bool {
    ticks == Ok(4)
}

#[cfg(not(panic = "abort"))]
fn main() {
    let mut board = Box::new(Board::unopened());
    assert!(is_as_expected(live(&mut board)));
    println!("the service ran 4 of 20 ms, as its share allows");
}

/// What a kernel brings: a stack, a board, an entry, and the functions of memory that compiler and
/// library ask for.
#[cfg(panic = "abort")]
mod bare {
    use super::{Board, is_as_expected, live};
    use core::arch::{asm, global_asm};
    use core::panic::PanicInfo;
    use core::ptr::{addr_of, addr_of_mut};

    const STACK: usize = 32 * 1_024;
    /// The part of it that must stay as it was.
    const UNTOUCHED: usize = STACK - carv::STACK_BYTES - 1_024;
    const EXIT: u64 = 60;

    #[repr(C, align(16))]
    struct Stack([u8; STACK]);

    #[unsafe(no_mangle)]
    static mut KERNEL_STACK: Stack = Stack([0; STACK]);
    static mut BOARD: Board = Board::unopened();

    global_asm!(
        ".globl _start",
        "_start:",
        "lea rsp, [rip + KERNEL_STACK + {stack}]",
        "xor ebp, ebp",
        "call {entered}",
        "ud2",
        stack = const STACK,
        entered = sym entered,
    );

    extern "C" fn entered() -> ! {
        // SAFETY: there is one thread, and this is the only reference.
        let board = unsafe { &mut *addr_of_mut!(BOARD) };
        let ticks = live(board);
        // SAFETY: this part of the stack lies below all frames, if the stack suffices.
        let lowest = unsafe { &*addr_of!(KERNEL_STACK).cast::<[u8; UNTOUCHED]>() };
        let suffices = lowest.iter().all(|byte| *byte == 0);
        exit(u64::from(!(is_as_expected(ticks) && suffices)))
    }

    fn exit(status: u64) -> ! {
        // SAFETY: the call ends the program.
        unsafe {
            asm!("syscall", in("rax") EXIT, in("rdi") status, options(noreturn));
        }
    }

    #[panic_handler]
    fn panicked(_: &PanicInfo) -> ! {
        exit(101)
    }

    /// Named by the `core` that comes for Linux, which can unwind; that of a kernel's target can't.
    #[unsafe(no_mangle)]
    extern "C" fn rust_eh_personality() {}

    // SAFETY: the four below are as in C; what that asks is the caller's word.

    #[unsafe(no_mangle)]
    unsafe extern "C" fn memset(to: *mut u8, byte: i32, count: usize) -> *mut u8 {
        unsafe {
            asm!(
                "rep stosb",
                inout("rcx") count => _, inout("rdi") to => _, in("al") byte as u8,
                options(nostack, preserves_flags),
            );
        }
        to
    }

    #[unsafe(no_mangle)]
    unsafe extern "C" fn memcpy(to: *mut u8, from: *const u8, count: usize) -> *mut u8 {
        unsafe {
            asm!(
                "rep movsb",
                inout("rcx") count => _, inout("rdi") to => _, inout("rsi") from => _,
                options(nostack, preserves_flags),
            );
        }
        to
    }

    #[unsafe(no_mangle)]
    unsafe extern "C" fn memmove(to: *mut u8, from: *const u8, count: usize) -> *mut u8 {
        if (to as usize).wrapping_sub(from as usize) >= count {
            return unsafe { memcpy(to, from, count) };
        }
        // Backwards, as the end of `from` lies in `to`.
        unsafe {
            asm!(
                "std",
                "rep movsb",
                "cld",
                inout("rcx") count => _,
                inout("rdi") to.wrapping_add(count).wrapping_sub(1) => _,
                inout("rsi") from.wrapping_add(count).wrapping_sub(1) => _,
                options(nostack, preserves_flags),
            );
        }
        to
    }

    #[unsafe(no_mangle)]
    unsafe extern "C" fn memcmp(one: *const u8, other: *const u8, count: usize) -> i32 {
        for at in 0..count {
            let (one, other) = unsafe { (*one.add(at), *other.add(at)) };
            if one != other {
                return i32::from(one) - i32::from(other);
            }
        }
        0
    }
}
