//! Timer frequency, register image and user context from the Rust; nothing that touches hardware.

/// The one machine there is.
pub mod x86_64 {
    /// The timer.
    pub mod apic {
        include!(concat!(env!("OUT_DIR"), "/apic.rs"));

        /// The oracle's callers pass the time themselves.
        pub fn ticks() -> u64 {
            unreachable!("no timer runs under the oracle")
        }
    }

    /// Register image and user context.
    pub mod syscall {
        include!(concat!(env!("OUT_DIR"), "/syscall.rs"));

        impl FxState {
            /// The image's bytes.
            pub fn bytes(&self) -> [u8; 512] {
                self.0
            }
        }

        impl UserContext {
            /// A context of these seven words, in the order of its fields.
            pub fn from_words(words: [u64; 7]) -> Self {
                let [rip, rsp, rflags, rdi, rsi, cs, ss] = words;
                Self {
                    rip,
                    rsp,
                    rflags,
                    rdi,
                    rsi,
                    cs,
                    ss,
                }
            }

            /// The seven words, in the order of the fields.
            pub fn words(&self) -> [u64; 7] {
                let Self {
                    rip,
                    rsp,
                    rflags,
                    rdi,
                    rsi,
                    cs,
                    ss,
                } = *self;
                [rip, rsp, rflags, rdi, rsi, cs, ss]
            }
        }

        /// Leaves the stack alone: no thread ever runs on it.
        ///
        /// # Safety
        /// Safe; it is declared like the function that it stands in for.
        pub unsafe fn prepare_stack(top: u64, _: extern "C" fn(u64) -> !, _: u64) -> u64 {
            top
        }

        /// Never called.
        pub fn set_kernel_stack(_: u64) {
            unreachable!("no thread runs under the oracle")
        }

        /// Never called.
        ///
        /// # Safety
        /// Safe; it is declared like the function that it stands in for.
        pub unsafe fn switch_context(_: *mut u64, _: u64, _: *mut FxState, _: *const FxState) {
            unreachable!("no thread runs under the oracle")
        }

        /// Never called.
        ///
        /// # Safety
        /// Safe; it is declared like the function that it stands in for.
        pub unsafe fn enter_user(_: UserContext) -> ! {
            unreachable!("no thread runs under the oracle")
        }
    }
}
