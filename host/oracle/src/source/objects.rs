//! The object registry.

use crate::{carv_abi, carv_budget, carv_caps, carv_frames};

include!(concat!(env!("OUT_DIR"), "/objects.rs"));

impl Object {
    /// A fresh object to insert. A budget has no share of anything.
    pub fn fresh(kind: ObjectType) -> Self {
        match kind {
            ObjectType::Thread => Self::Thread,
            ObjectType::AddressSpace => {
                Self::AddressSpace(AddressSpace::new().expect("backing is there"))
            }
            ObjectType::Frame => Self::Frame(FrameObject {
                frame: frame::allocate().expect("backing is there"),
            }),
            ObjectType::Endpoint => Self::Endpoint(Endpoint::new()),
            ObjectType::Notification => Self::Notification(Notification::new()),
            ObjectType::Budget => {
                Self::Budget(Budget::new(0, CPU_PERIOD_NS, 0, 0).expect("0 fits the period"))
            }
            ObjectType::Reply => Self::Reply,
            ObjectType::Irq => Self::Irq(IrqLine {
                gsi: 0,
                notification: None,
            }),
            ObjectType::IrqControl => Self::IrqControl,
        }
    }
}

impl ObjectRegistry {
    /// The id that the next object gets.
    pub fn next_id(&self) -> ObjectId {
        self.next_id
    }

    /// Sets the id that the next object gets.
    pub fn set_next_id(&mut self, id: ObjectId) {
        self.next_id = id;
    }

    /// Every live object by rising id: id, object, payer, charge.
    pub fn rows(&self) -> impl Iterator<Item = (ObjectId, &Object, ObjectId, u64)> {
        self.entries
            .iter()
            .map(|(id, e)| (*id, &e.object, e.payer, e.charged))
    }
}
