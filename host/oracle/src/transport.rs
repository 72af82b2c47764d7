//! Stand-in for the crate's transports. Assumed: the device offers VERSION_1, and indirect descriptors where a host is to have them;
//! set-up of the transport succeeds; notifying a queue changes nothing that the driver sees.
use crate::device::common::Feature;
use crate::queue::Shared;
use crate::{Error, Result};

pub trait Transport {
    fn begin_init(&mut self, supported: Feature) -> Feature;
    fn finish_init(&mut self);
    fn notify(&mut self, queue: u16);
    fn ack_interrupt(&mut self) -> InterruptStatus;
    fn config_u32(&self, offset: usize) -> Result<u32>;
    fn shared(&self) -> Shared;
}

#[derive(Copy, Clone, Debug, Default, Eq, PartialEq)]
pub struct InterruptStatus;

#[derive(Copy, Clone, Debug, Eq, PartialEq)]
pub enum DeviceType {
    Socket,
}

pub struct ScriptTransport {
    pub counts: [u32; 3],
    pub indirect: bool,
    pub shared: Shared,
}

impl Transport for ScriptTransport {
    fn begin_init(&mut self, supported: Feature) -> Feature {
        let more = if self.indirect { Feature::RING_INDIRECT_DESC } else { Feature::empty() };
        supported.intersection(Feature::VERSION_1.union(more))
    }
    fn finish_init(&mut self) {}
    fn notify(&mut self, _queue: u16) {}
    fn ack_interrupt(&mut self) -> InterruptStatus {
        InterruptStatus
    }
    fn config_u32(&self, offset: usize) -> Result<u32> {
        self.counts.get(offset / 4).copied().ok_or(Error::NotReady)
    }
    fn shared(&self) -> Shared {
        self.shared.clone()
    }
}

pub mod fake {
    //! What fake.rs names. Assumed: a model device takes one request at a time from a queue and hands one answer back, with no
    //! memory of a virtqueue between. Its thread ends once nothing is pending.
    use super::DeviceType;
    use std::collections::VecDeque;
    use std::fmt;
    use std::sync::atomic::{AtomicBool, Ordering};
    use std::sync::{Arc, Mutex};

    #[derive(Debug, Default)]
    pub struct QueueStatus {
        pub pending: VecDeque<Vec<u8>>,
    }

    #[allow(dead_code)]
    pub struct State<C> {
        pub queues: Vec<QueueStatus>,
        pub config_space: C,
        pub answered: Vec<Vec<u8>>,
        pub stop: Option<Arc<AtomicBool>>,
    }

    impl<C> fmt::Debug for State<C> {
        fn fmt(&self, f: &mut fmt::Formatter) -> fmt::Result {
            self.queues.fmt(f)
        }
    }

    impl<C> State<C> {
        pub fn new(queues: Vec<QueueStatus>, config_space: C) -> Self {
            Self { queues, config_space, answered: vec![], stop: None }
        }
        pub fn poll_queue_notified(state: &Arc<Mutex<Self>>, queue: u16) -> bool {
            !state.lock().unwrap().queues[queue as usize].pending.is_empty()
        }
        pub fn read_write_queue<const N: usize>(
            &mut self,
            queue: u16,
            handler: impl FnOnce(Vec<u8>) -> Vec<u8>,
        ) -> bool {
            let Some(request) = self.queues[queue as usize].pending.pop_front() else {
                self.stop.as_ref().unwrap().store(true, Ordering::Release);
                return false;
            };
            let answer = handler(request);
            self.answered.push(answer);
            true
        }
    }

    #[allow(dead_code)]
    pub struct FakeTransport<C> {
        pub device_type: DeviceType,
        pub max_queue_size: u32,
        pub device_features: u64,
        pub state: Arc<Mutex<State<C>>>,
    }
}
