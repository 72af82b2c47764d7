//! Stand-in for the crate's transports: the guest's own has reset the device already, and notifies it by itself.
use crate::device::common::Feature;
use crate::{Error, Result, Shared};

pub trait Transport {
    fn begin_init(&mut self, supported: Feature) -> Feature;
    fn finish_init(&mut self);
    fn notify(&mut self, queue: u16);
    fn ack_interrupt(&mut self) -> InterruptStatus;
    fn config_u32(&self, offset: usize) -> Result<u32>;
    fn queues(&self) -> Shared;
}

#[derive(Copy, Clone, Debug, Default, Eq, PartialEq)]
pub struct InterruptStatus;

pub struct Guest(pub Shared);

impl Transport for Guest {
    fn begin_init(&mut self, supported: Feature) -> Feature {
        let indirect = self.0.borrow().indirect();
        let more = if indirect {
            Feature::RING_INDIRECT_DESC
        } else {
            Feature::empty()
        };
        supported.intersection(Feature::VERSION_1.union(more))
    }
    fn finish_init(&mut self) {}
    fn notify(&mut self, _queue: u16) {}
    fn ack_interrupt(&mut self) -> InterruptStatus {
        InterruptStatus
    }
    fn config_u32(&self, offset: usize) -> Result<u32> {
        self.0.borrow().counts().get(offset / 4).copied().ok_or(Error::NotReady)
    }
    fn queues(&self) -> Shared {
        self.0.clone()
    }
}
