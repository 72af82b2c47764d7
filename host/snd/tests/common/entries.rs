//! Every entry of the header, as a function of what is lent, with the slices whose length it tests.
use super::lent::Lent;
use super::lent::Part::{self, *};
use snd::ffi::*;

pub struct Entry {
    pub name: &'static str,
    pub call: fn(&mut Lent) -> u64,
    /// Refused with 10 when one byte shorter than [`Lent::good`] has it.
    pub tested: &'static [Part],
}

macro_rules! entries {
    ($($name:ident [$($tested:ident)*] |$lent:ident| ($($given:expr),*);)*) => {
        &[$(Entry { name: stringify!($name), call: |$lent| $name($($given),*), tested: &[$($tested),*] }),*]
    };
}

/// The 70 entries, in the header's order.
pub const ENTRIES: &[Entry] = entries! {
    snd_state_size [] |_l| ();
    snd_ring_size [] |_l| ();
    snd_message_size [] |_l| ();
    snd_result_size [] |_l| ();
    snd_page_size [] |_l| ();
    snd_model_size [] |_l| ();
    snd_new [State] |l| (&mut l.state, l.numbers[0], l.numbers[1], l.numbers[2]);
    snd_new_guarded [State] |l| (&mut l.state, l.numbers[0], l.numbers[1], l.numbers[2]);
    snd_ring_new [Ring] |l| (&mut l.ring);
    snd_ring_new_indirect [Ring] |l| (&mut l.ring);
    snd_jacks [State Result] |l| (&l.state, &mut l.result);
    snd_streams [State Result] |l| (&l.state, &mut l.result);
    snd_chmaps [State Result] |l| (&l.state, &mut l.result);
    snd_jack_remap [State Ring Message Result]
        |l| (&mut l.state, &l.ring, l.numbers[0], l.numbers[1], l.numbers[2], &mut l.message, &mut l.result);
    snd_pcm_set_params [State Ring Message Result]
        |l| (&mut l.state, &l.ring, l.numbers[0], l.numbers[1], l.numbers[2], l.numbers[3],
             l.narrow[0], l.narrow[1], l.narrow[2], &mut l.message, &mut l.result);
    snd_pcm_prepare [State Ring Message Result] |l| (&mut l.state, &l.ring, l.numbers[0], &mut l.message, &mut l.result);
    snd_pcm_release [State Ring Message Result] |l| (&mut l.state, &l.ring, l.numbers[0], &mut l.message, &mut l.result);
    snd_pcm_start [State Ring Message Result] |l| (&mut l.state, &l.ring, l.numbers[0], &mut l.message, &mut l.result);
    snd_pcm_stop [State Ring Message Result] |l| (&mut l.state, &l.ring, l.numbers[0], &mut l.message, &mut l.result);
    snd_output_streams [State Ring Message Result] |l| (&mut l.state, &l.ring, &mut l.message, &mut l.result);
    snd_input_streams [State Ring Message Result] |l| (&mut l.state, &l.ring, &mut l.message, &mut l.result);
    snd_rates_supported [State Ring Message Result] |l| (&mut l.state, &l.ring, l.numbers[0], &mut l.message, &mut l.result);
    snd_formats_supported [State Ring Message Result] |l| (&mut l.state, &l.ring, l.numbers[0], &mut l.message, &mut l.result);
    snd_channel_range_supported [State Ring Message Result]
        |l| (&mut l.state, &l.ring, l.numbers[0], &mut l.message, &mut l.result);
    snd_features_supported [State Ring Message Result] |l| (&mut l.state, &l.ring, l.numbers[0], &mut l.message, &mut l.result);
    snd_feed [State Page Message Result] |l| (&mut l.state, &l.page, &mut l.message, &mut l.result);
    snd_feed_written [State Page Message Result] |l| (&mut l.state, &l.page, l.written, &mut l.message, &mut l.result);
    snd_feed_failure [State Message Result] |l| (&mut l.state, &mut l.message, &mut l.result);
    snd_pcm_xfer_start [State Ring Message]
        |l| (&mut l.state, &mut l.ring, l.numbers[0], &l.frames, l.budget, &mut l.message);
    snd_offered [Ring Frames Result] |l| (&l.ring, &l.frames, &mut l.result);
    snd_turn [Ring Frames] |l| (&mut l.ring, &l.frames, l.numbers[3], l.numbers[0], l.numbers[1]);
    snd_drain_turn [Ring] |l| (&mut l.ring, l.numbers[3], l.numbers[0], l.numbers[1]);
    snd_pcm_xfer_start_traced [State Ring Message]
        |l| (&mut l.state, &mut l.ring, l.numbers[0], &l.frames, l.budget, &l.room, &mut l.message);
    snd_turn_traced [Ring Frames]
        |l| (&mut l.ring, &l.frames, &mut l.room, l.numbers[3], l.numbers[0], l.numbers[1]);
    snd_trace_length [Ring Result] |l| (&l.ring, &mut l.result);
    snd_trace_scan [] |l| (&l.trace);
    snd_trace_scan_at [] |l| (&l.trace);
    snd_judge [] |l| (l.mode, &l.trace);
    snd_judge_at [] |l| (l.mode, &l.trace);
    snd_entry_size [] |_l| ();
    snd_differences [] |l| (&l.trace, &l.second);
    snd_compare [] |l| (&l.trace, &l.second, &mut l.list);
    snd_pcm_capture_start [State Ring Message]
        |l| (&mut l.state, &mut l.ring, l.numbers[0], l.periods, &l.recording, l.budget, &mut l.message);
    snd_capture_offered [Ring Recording Result] |l| (&l.ring, &l.recording, &mut l.result);
    snd_capture_turn [Ring Recording]
        |l| (&mut l.ring, &mut l.recording, l.numbers[3], l.numbers[0], l.numbers[1], &l.bytes);
    snd_ring_running [Ring Result] |l| (&l.ring, &mut l.result);
    snd_ring_in_flight [Ring Result] |l| (&l.ring, &mut l.result);
    snd_ring_free_descriptors [Ring Result] |l| (&l.ring, &mut l.result);
    snd_ring_turns_run [Ring Result] |l| (&l.ring, &mut l.result);
    snd_ring_stream [Ring Result] |l| (&l.ring, &mut l.result);
    snd_ring_carried [Ring Result] |l| (&l.ring, l.numbers[0] as usize, &mut l.result);
    snd_ring_oldest [Ring Result] |l| (&l.ring, &mut l.result);
    snd_ring_kept [Ring Result] |l| (&l.ring, &mut l.result);
    snd_ring_accepted [Ring Result] |l| (&l.ring, &mut l.result);
    snd_pcm_xfer_nb [State Ring Message Result]
        |l| (&mut l.state, &l.ring, l.numbers[0], &l.payload, &mut l.places, &mut l.message, &mut l.result);
    snd_pcm_xfer_mark [State] |l| (&mut l.state, l.numbers[3], l.numbers[0], l.numbers[1]);
    snd_pcm_xfer_ok [State] |l| (&mut l.state, l.numbers[0]);
    snd_pending_count [State Result] |l| (&l.state, &mut l.result);
    snd_pending_token [State Result] |l| (&l.state, l.numbers[0] as usize, &mut l.result);
    snd_latest_notification [Result] |l| (&l.event, &mut l.result);
    snd_config [Config Result] |l| (&l.config, l.version, l.features, &mut l.result);
    snd_latest_notification_in [Result] |l| (&l.event, l.version, l.features, &mut l.result);
    snd_wav_read [Result] |l| (&l.file, &mut l.result);
    snd_wav_write [File] |l| (l.narrow[0], l.narrow[1], l.narrow[2], &l.samples, &mut l.file);
    snd_model_new [Model Jacks Pcms Maps] |l| (&mut l.model, &l.jacks, &l.pcms, &l.maps);
    snd_model_control [Model Page Result] |l| (&mut l.model, &l.request, &mut l.page, &mut l.result);
    snd_model_transfer [Model Answer] |l| (&mut l.model, &l.request, &mut l.answer);
    snd_model_payload [Model Result] |l| (&l.model, &l.request, &mut l.result);
    snd_model_params [Model Result] |l| (&l.model, l.numbers[0], &mut l.result);
    snd_model_played [Model Result] |l| (&l.model, l.numbers[0], &mut l.result);
};

/// The entry of a name.
pub fn entry(name: &str) -> &'static Entry {
    ENTRIES
        .iter()
        .find(|entry| entry.name == name)
        .expect("the header has it")
}
