//! A child of sound.rs (through its `mod fake;`): shows the driver's private state, reaches the model device, and holds the text's
//! own types to document 01's table of records and codes.
use super::super::*;
use super::model::FakeSoundDevice;
use crate::api::{Inside, Model};
use crate::driver::{MakeModel, Maker, Probe, panic_text};
use std::sync::atomic::Ordering;

impl<H: Hal, T: Transport> Probe for VirtIOSound<H, T> {
    fn inside(&self) -> Inside {
        fn rows<R: IntoBytes + Immutable>(table: &Option<Vec<R>>) -> Vec<Vec<u8>> {
            table.iter().flatten().map(|record| record.as_bytes().to_vec()).collect()
        }
        let seven = |p: &PcmParameters| {
            let small = [p.channels, p.format.into(), p.rate.into()].map(u32::from);
            [p.setup.into(), p.buffer_bytes, p.period_bytes, p.features.bits(), small[0], small[1], small[2]]
        };
        let tables = match self.set_up {
            true => [rows(&self.jack_infos), rows(&self.pcm_infos), rows(&self.chmap_infos)],
            false => Default::default(),
        };
        Inside { set_up: self.set_up, params: self.pcm_parameters.iter().map(seven).collect(), tables }
    }
    fn tokens(&self) -> Vec<u16> {
        assert!(self.token_buf.keys().eq(self.token_rsp.keys()), "the two maps of tokens go together");
        self.token_buf.keys().copied().collect()
    }
}

struct Device(FakeSoundDevice);

impl MakeModel for Maker {
    fn make([jacks, streams, maps]: [Vec<Vec<u8>>; 3]) -> Box<dyn Model> {
        fn read<R: FromBytes>(rows: Vec<Vec<u8>>) -> Vec<R> {
            rows.iter().map(|row| R::read_from_bytes(row).expect("a record's length")).collect()
        }
        let (device, _transport) = FakeSoundDevice::new(read(jacks), read(streams), read(maps));
        device.state.lock().unwrap().stop = Some(device.terminate.clone());
        Box::new(Device(device))
    }
}

impl Device {
    /// The handlers are private to fake.rs: the request waits in the queue, a device thread serves it and ends.
    fn ask(&mut self, queue: u16, request: &[u8]) -> core::result::Result<Vec<u8>, String> {
        let device = &self.0;
        device.terminate.store(false, Ordering::Release);
        device.state.lock().unwrap().queues[queue as usize].pending.push_back(request.to_vec());
        let end = device.spawn().join();
        // a panic leaves the locks poisoned; the values behind them stay
        device.state.clear_poison();
        device.params.clear_poison();
        device.played_bytes.clear_poison();
        let answer = device.state.lock().unwrap().answered.pop();
        match end {
            Ok(()) => Ok(answer.expect("an answer")),
            Err(payload) => Err(panic_text(&*payload)),
        }
    }
}

impl Model for Device {
    fn control(&mut self, request: &[u8]) -> core::result::Result<Vec<u8>, String> {
        self.ask(CONTROL_QUEUE_IDX, request)
    }
    fn transfer(&mut self, request: &[u8]) -> core::result::Result<Vec<u8>, String> {
        self.ask(TX_QUEUE_IDX, request)
    }
    fn params(&self) -> Vec<Option<Vec<u8>>> {
        let params = self.0.params.lock().unwrap();
        params.iter().map(|set| set.as_ref().map(|set| set.as_bytes().to_vec())).collect()
    }
    fn played(&self) -> Vec<Vec<u8>> {
        self.0.played_bytes.lock().unwrap().clone()
    }
}

/// A difference from document 01's table of records stops the build: also for fields that no call shows.
mod same_as_document_01 {
    use super::super::super::*;
    use core::mem::offset_of as at;
    macro_rules! record {
        ($name:ident is $size:literal: $($field:ident $at:literal),*) => {
            const _: () = assert!(size_of::<$name>() == $size $(&& at!($name, $field) == $at)*);
        };
    }
    record!(VirtIOSndQueryInfo is 16: hdr 0, start_id 4, count 8, size 12);
    record!(VirtIOSndJackHdr is 8: hdr 0, jack_id 4);
    record!(VirtIOSndJackRemap is 16: hdr 0, association 8, sequence 12);
    record!(VirtIOSndPcmHdr is 8: hdr 0, stream_id 4);
    record!(VirtIOSndPcmSetParams is 24: hdr 0, buffer_bytes 8, period_bytes 12, features 16, channels 20, format 21, rate 22, _padding 23);
    record!(VirtIOSndJackInfo is 24: hdr 0, features 4, hda_reg_defconf 8, hda_reg_caps 12, connected 16, _padding 17);
    record!(VirtIOSndPcmInfo is 32: hdr 0, features 4, formats 8, rates 16, direction 24, channels_min 25, channels_max 26, _padding 27);
    record!(VirtIOSndChmapInfo is 24: hdr 0, direction 4, channels 5, positions 6);
    record!(VirtIOSndPcmXfer is 4: stream_id 0);
    record!(VirtIOSndPcmStatus is 8: status 0, latency_bytes 4);
    record!(VirtIOSndEvent is 8: hdr 0, data 4);
}
