//! Stand-ins, in our own words, for what the Rust's files lean on and the oracle doesn't have:
//! hardware, memory management and the capability store.

/// Whether frames, address spaces and kernel stacks can be had.
pub mod backing {
    use std::cell::Cell;

    thread_local! {
        static THERE: Cell<bool> = const { Cell::new(true) };
    }

    /// Makes `call` with backing there or not. Outside such a call it is there.
    pub fn during<T>(there: bool, call: impl FnOnce() -> T) -> T {
        THERE.set(there);
        let answer = call();
        THERE.set(true);
        answer
    }

    /// `value` if backing is there.
    pub(super) fn give<T>(value: T) -> Option<T> {
        THERE.get().then_some(value)
    }
}

/// The capability store, which the oracle doesn't use.
pub mod carv_caps {
    /// The number of a capability space.
    #[derive(Clone, Copy, Debug, PartialEq, Eq)]
    pub struct SpaceId(pub u64);

    /// The store of all capability spaces.
    pub struct CapSpaces;

    impl CapSpaces {
        /// An empty store.
        pub fn new() -> Self {
            Self
        }
    }
}

/// The frame allocator's one constant.
pub mod carv_frames {
    /// Bytes in a frame.
    pub const FRAME_SIZE: usize = 4096;
}

/// Locks and interrupts.
pub mod sync {
    use std::sync::{Mutex, MutexGuard};

    /// A lock for a static.
    pub struct SpinLock<T>(Mutex<T>);

    impl<T> SpinLock<T> {
        /// An open lock.
        pub const fn new(value: T) -> Self {
            Self(Mutex::new(value))
        }

        /// Waits for the lock.
        pub fn lock(&self) -> MutexGuard<'_, T> {
            self.0.lock().expect("no holder panicked")
        }
    }

    /// Makes `call`; there are no interrupts.
    pub fn without_interrupts<T>(call: impl FnOnce() -> T) -> T {
        call()
    }
}

/// Memory management.
pub mod mm {
    /// User address spaces.
    pub mod address_space {
        use crate::stubs::backing;

        /// An address space with nothing in it.
        pub struct AddressSpace;

        impl AddressSpace {
            /// An address space if backing is there.
            pub fn new() -> Option<Self> {
                backing::give(Self)
            }
        }
    }

    /// Physical frames.
    pub mod frame {
        use crate::stubs::backing;
        use crate::x86_64::PhysAddr;

        /// A frame. All are the same, at address 0, see [`super::paging::hhdm_offset`].
        #[derive(Clone, Copy, Debug)]
        pub struct Frame;

        impl Frame {
            /// Where the frame starts.
            pub fn start(self) -> PhysAddr {
                PhysAddr(0)
            }
        }

        /// A frame if backing is there.
        pub fn allocate() -> Option<Frame> {
            backing::give(Frame)
        }

        /// Nothing is kept, nothing is freed.
        pub fn free(_: Frame) {}

        /// Free and all frames: nobody counts them.
        pub fn stats() -> (usize, usize) {
            (0, 0)
        }
    }

    /// Kernel stacks.
    pub mod kstack {
        use crate::stubs::backing;

        include!(concat!(env!("OUT_DIR"), "/kstack.rs"));

        /// A kernel stack without memory.
        pub struct KernelStack;

        impl KernelStack {
            /// A stack if backing is there.
            pub fn new() -> Option<Self> {
                backing::give(Self)
            }

            /// Where the stack would end.
            pub fn top(&self) -> u64 {
                0
            }
        }
    }

    /// Page tables.
    pub mod paging {
        use crate::x86_64::structures::paging::PhysFrame;
        use std::cell::UnsafeCell;

        thread_local! {
            /// The memory of every frame that this thread allocates.
            static PAGE: UnsafeCell<[u8; 4096]> = const { UnsafeCell::new([0; 4096]) };
        }

        /// What is added to a frame's address to reach its memory: all frames share one real page,
        /// which is written and never read.
        pub fn hhdm_offset() -> u64 {
            PAGE.with(|page| page.get().expose_provenance() as u64)
        }

        /// The kernel's own root.
        pub fn kernel_root() -> PhysFrame {
            PhysFrame(None)
        }
    }
}

/// The processor.
pub mod x86_64 {
    /// A physical address.
    #[derive(Clone, Copy, Debug)]
    pub struct PhysAddr(pub u64);

    impl PhysAddr {
        /// The address as a number.
        pub fn as_u64(self) -> u64 {
            self.0
        }
    }

    /// Paging.
    pub mod structures {
        /// Page-table roots.
        pub mod paging {
            /// A page-table root: any number, or none for the kernel's.
            #[derive(Clone, Copy, Debug, PartialEq, Eq)]
            pub struct PhysFrame(pub Option<u64>);
        }
    }

    /// Registers.
    pub mod registers {
        /// Control registers.
        pub mod control {
            use crate::x86_64::structures::paging::PhysFrame;

            /// The register that holds the page-table root.
            pub struct Cr3;

            impl Cr3 {
                /// Never called.
                pub fn read() -> (PhysFrame, ()) {
                    unreachable!("no processor runs under the oracle")
                }

                /// Never called.
                ///
                /// # Safety
                /// Safe; it is declared like the function that it stands in for.
                pub unsafe fn write(_: PhysFrame, _: ()) {
                    unreachable!("no processor runs under the oracle")
                }
            }
        }
    }

    /// Instructions.
    pub mod instructions {
        /// Interrupts.
        pub mod interrupts {
            /// Never called.
            pub fn enable_and_hlt() {
                unreachable!("no processor runs under the oracle")
            }

            /// Never called.
            pub fn disable() {
                unreachable!("no processor runs under the oracle")
            }
        }
    }
}
