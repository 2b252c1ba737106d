//! The SSE and x87 registers over a call of the library, which uses SSE registers and leaves them
//! changed, as C allows.

/// Makes a call, and restores these registers after it.
#[cfg(feature = "save-sse")]
#[inline]
pub fn kept<T>(call: impl FnOnce() -> T) -> T {
    use core::arch::asm;
    use core::mem::MaybeUninit;

    /// What `fxsave64` writes, on the boundary that it asks for.
    #[repr(C, align(16))]
    struct Registers([u8; 512]);

    let mut registers = MaybeUninit::<Registers>::uninit();
    // SAFETY: the instruction writes these 512 bytes and nothing else.
    unsafe {
        asm!(
            "fxsave64 [{}]",
            in(reg) registers.as_mut_ptr(),
            options(nostack, preserves_flags),
        );
    }
    let answer = call();
    // SAFETY: the instruction reads what the one above wrote. The registers that it changes are
    // among those that a C call may change.
    unsafe {
        asm!(
            "fxrstor64 [{}]",
            in(reg) registers.as_ptr(),
            clobber_abi("C"),
            options(nostack, preserves_flags, readonly),
        );
    }
    answer
}

/// Makes a call.
#[cfg(not(feature = "save-sse"))]
#[inline(always)]
pub fn kept<T>(call: impl FnOnce() -> T) -> T {
    call()
}

#[cfg(all(feature = "save-sse", not(target_arch = "x86_64")))]
compile_error!("the feature `save-sse` is for x86-64, as the library is");
