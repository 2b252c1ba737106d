//! A live budget of the book: the sums that its figures are worked from.

use crate::PERIOD;

/// A live budget, "with limits, start and figures": the sums that the figures are worked from.
#[derive(Clone, Copy, Debug, Default, PartialEq, Eq)]
pub struct Budget {
    /// CPU time in each period, in nanoseconds.
    pub cpu_allowance: u128,
    /// Memory that may be used and reserved, in bytes.
    pub memory_limit: u128,
    /// Start of the period that it was last renewed in.
    pub start: u128,
    /// Bytes charged to it.
    charged: u128,
    /// Bytes credited to it.
    credited: u128,
    /// Bytes carved out of it.
    carved_memory: u128,
    /// Bytes that removed children returned to it.
    returned_memory: u128,
    /// The same two for CPU time.
    carved_cpu: u128,
    returned_cpu: u128,
    /// CPU reserved at its last renewal.
    noted_cpu: u128,
    /// CPU time charged to it and carved out of it since.
    taken_cpu: u128,
}

/// The four figures of a live budget.
#[derive(Clone, Copy, Debug, Default, PartialEq, Eq)]
#[expect(missing_docs, reason = "document 01 has the figures")]
pub struct Figures {
    pub memory_used: u128,
    pub memory_reserved: u128,
    pub cpu_reserved: u128,
    pub cpu_left: u128,
}

impl Budget {
    /// "An opening or a carve-out counts as the new account's first renewal, with nothing reserved."
    pub fn new(cpu: u64, memory: u64, start: u128) -> Self {
        Self {
            cpu_allowance: cpu.into(),
            memory_limit: memory.into(),
            start,
            ..Self::default()
        }
    }

    /// All four.
    pub fn figures(&self) -> Figures {
        Figures {
            memory_used: self.memory_used(),
            memory_reserved: self.memory_reserved(),
            cpu_reserved: self.cpu_reserved(),
            cpu_left: self.cpu_left(),
        }
    }

    /// The first figure.
    pub fn memory_used(&self) -> u128 {
        self.charged.saturating_sub(self.credited)
    }

    /// The second.
    pub fn memory_reserved(&self) -> u128 {
        self.carved_memory.saturating_sub(self.returned_memory)
    }

    /// The third.
    pub fn cpu_reserved(&self) -> u128 {
        self.carved_cpu.saturating_sub(self.returned_cpu)
    }

    /// The fourth.
    pub fn cpu_left(&self) -> u128 {
        let renewed = self.cpu_allowance.saturating_sub(self.noted_cpu);
        renewed.saturating_sub(self.taken_cpu)
    }

    /// Memory free by the book.
    pub fn memory_free(&self) -> u128 {
        let unreserved = self.memory_limit.saturating_sub(self.memory_reserved());
        unreserved.saturating_sub(self.memory_used())
    }

    /// Whether a renewal is due: "nothing if t < start or t − start < period".
    pub fn is_due(&self, time: u128) -> bool {
        time >= self.start && time - self.start >= PERIOD
    }

    /// "A renewal due by the book's start notes CPU reserved and clears what was charged and carved."
    pub(super) fn renew(&mut self, time: u128) {
        if self.is_due(time) {
            self.start = time - (time - self.start) % PERIOD;
            self.noted_cpu = self.cpu_reserved();
            self.taken_cpu = 0;
        }
    }

    /// As it is after a renewal at this time.
    pub fn renewed(&self, time: u128) -> Self {
        let mut renewed = *self;
        renewed.renew(time);
        renewed
    }

    pub(super) fn charge(&mut self, bytes: u128) {
        self.charged += bytes;
    }

    pub(super) fn credit(&mut self, bytes: u128) {
        self.credited += bytes;
    }

    pub(super) fn take_cpu(&mut self, ns: u128) {
        self.taken_cpu += ns;
    }

    /// Carves out a child of these limits: carved CPU is taken, and is no charge.
    pub(super) fn carve(&mut self, cpu: u128, memory: u128) {
        self.carved_cpu += cpu;
        self.taken_cpu += cpu;
        self.carved_memory += memory;
    }

    /// A child's limits come back. "The parent's CPU left does not move until its next renewal."
    pub(super) fn take_back(&mut self, child: &Self) {
        self.returned_cpu += child.cpu_allowance;
        self.returned_memory += child.memory_limit;
    }
}
