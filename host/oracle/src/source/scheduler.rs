//! Threads, ready queue and exit log.

use crate::{carv_abi, carv_caps, x86_64};

include!(concat!(env!("OUT_DIR"), "/scheduler.rs"));

impl Tcb {
    /// The register image that the thread was made with.
    pub fn image(&self) -> [u8; 512] {
        self.fx_state.bytes()
    }
}

impl Scheduler {
    /// Plans, and answers the page-table root of the switch to make.
    pub fn plan_root(&mut self, objects: &mut ObjectRegistry, now_ticks: u64) -> Option<PhysFrame> {
        self.plan(objects, now_ticks).map(|switch| switch.root)
    }

    /// The ready queue, front first.
    pub fn ready(&self) -> impl Iterator<Item = ThreadId> {
        self.ready.iter().copied()
    }

    /// The exit log, oldest first.
    pub fn exits(&self) -> impl Iterator<Item = (ThreadId, Exit)> {
        self.exits.iter().copied()
    }

    /// Sets the switch count.
    pub fn set_switches(&mut self, count: u64) {
        self.switches = count;
    }
}
