//! Whom the calls are made on: port and Rust side by side, or one of them alone.

use crate::area;
use crate::pair::{Difference, Pair};
use crate::port::Port;
use crate::snapshot;
use carv_compare::board::call::Call;
use carv_compare::board::reference::Reference;
use carv_oracle::Snapshot;

/// A board that calls are made on.
pub trait Side {
    /// Makes a call and answers its number.
    ///
    /// # Errors
    /// What differs, if there is something to compare.
    fn make(&mut self, call: Call) -> Result<u64, Difference>;

    /// The state that it is in.
    fn state(&self) -> &Snapshot;
}

impl Side for Pair {
    fn make(&mut self, call: Call) -> Result<u64, Difference> {
        self.call(call)
    }

    fn state(&self) -> &Snapshot {
        Pair::state(self)
    }
}

/// The Rust alone.
impl Side for Reference {
    fn make(&mut self, call: Call) -> Result<u64, Difference> {
        Ok(self.call(call).number)
    }

    fn state(&self) -> &Snapshot {
        Reference::state(self)
    }
}

/// The port alone: its state is what its area says.
pub struct PortAlone {
    port: Port,
    state: Snapshot,
}

impl PortAlone {
    /// A board before its opening.
    pub fn new() -> Self {
        Self {
            port: Port::new(vec![0x5a; area::BYTES]),
            state: Snapshot::default(),
        }
    }
}

impl Default for PortAlone {
    fn default() -> Self {
        Self::new()
    }
}

impl Side for PortAlone {
    fn make(&mut self, call: Call) -> Result<u64, Difference> {
        let number = self.port.make(call);
        let state = snapshot::read(&self.port.area);
        self.state = state.ok_or("the area can't be read")?;
        Ok(number)
    }

    fn state(&self) -> &Snapshot {
        &self.state
    }
}
