//! The entries as the header `host/include/snd.h` has them, each as a safe function over slices.
//!
//! The types of this crate call these. They are public for hosts that keep their stores otherwise, and for tests that lend slices of a
//! wrong length. Every one answers the entry's own number; `docs/BOUNDARY.md` says what it means and what is written.
//!
//! ```
//! let mut ring = [0; snd::RING_SIZE];
//! assert_eq!(snd::ffi::snd_ring_new(&mut ring), 0);
//! assert_eq!(snd::ffi::snd_ring_new(&mut ring[1..]), 10);
//! ```
#![allow(unsafe_code, clippy::too_many_arguments)]

/// Declares the entries and a safe function of the same name over each: a slice is passed as a pointer and a length, a number as it is.
macro_rules! entries {
    ($($(#[$doc:meta])* fn $name:ident($($parameters:tt)*);)*) => {
        $(entries!(@take [$(#[$doc])*] $name [] [] [] $($parameters)*);)*
    };
    (@take $docs:tt $name:ident [$($entry:tt)*] [$($safe:tt)*] [$($given:tt)*] $slice:ident: &[u8], $($rest:tt)*) => {
        entries!(@take $docs $name [$($entry)* _: *const u8, _: usize,] [$($safe)* $slice: &[u8],]
            [$($given)* $slice.as_ptr(), $slice.len(),] $($rest)*);
    };
    (@take $docs:tt $name:ident [$($entry:tt)*] [$($safe:tt)*] [$($given:tt)*] $slice:ident: &mut [u8], $($rest:tt)*) => {
        entries!(@take $docs $name [$($entry)* _: *mut u8, _: usize,] [$($safe)* $slice: &mut [u8],]
            [$($given)* $slice.as_mut_ptr(), $slice.len(),] $($rest)*);
    };
    (@take $docs:tt $name:ident [$($entry:tt)*] [$($safe:tt)*] [$($given:tt)*] $number:ident: $width:ty, $($rest:tt)*) => {
        entries!(@take $docs $name [$($entry)* _: $width,] [$($safe)* $number: $width,] [$($given)* $number,] $($rest)*);
    };
    (@take [$(#[$doc:meta])*] $name:ident [$($entry:tt)*] [$($safe:tt)*] [$($given:tt)*]) => {
        $(#[$doc])*
        #[inline]
        #[must_use]
        pub fn $name($($safe)*) -> u64 {
            unsafe extern "C" {
                fn $name($($entry)*) -> u64;
            }
            // SAFETY: each kind of parameter is sound for the length of the call, and the entry keeps none of them.
            // Numbers: every value of every width is permitted. Slices that are read: pointer and length come from one borrow, so the
            // bytes are there and do not change. Slices that are written: pointer and length come from one exclusive borrow, so they
            // overlap no other slice of the call. Content: the entry is proved to return on any bytes and any lengths, and to
            // write inside the slices lent to it only.
            unsafe { $name($($given)*) }
        }
    };
}

entries! {
    /// The size of a state's store.
    fn snd_state_size();
    /// The size of a ring's store.
    fn snd_ring_size();
    /// The size of a message buffer.
    fn snd_message_size();
    /// The size of a result.
    fn snd_result_size();
    /// The size of an answer page.
    fn snd_page_size();
    /// The size of a model device's store.
    fn snd_model_size();

    /// Fills a store with a new state.
    fn snd_new(state: &mut [u8], jacks: u32, streams: u32, chmaps: u32,);
    /// Fills a store with a new state that keeps to the lifecycle of its streams.
    fn snd_new_guarded(state: &mut [u8], jacks: u32, streams: u32, chmaps: u32,);
    /// Fills a store with a new ring.
    fn snd_ring_new(ring: &mut [u8],);
    /// Fills a store with a new ring for indirect descriptors.
    fn snd_ring_new_indirect(ring: &mut [u8],);

    /// The configured number of jacks.
    fn snd_jacks(state: &[u8], result: &mut [u8],);
    /// The configured number of streams.
    fn snd_streams(state: &[u8], result: &mut [u8],);
    /// The configured number of channel maps.
    fn snd_chmaps(state: &[u8], result: &mut [u8],);

    /// Call: remap a jack.
    fn snd_jack_remap(state: &mut [u8], ring: &[u8], jack: u32, association: u32, sequence: u32, message: &mut [u8], result: &mut [u8],);
    /// Call: set a stream's parameters.
    fn snd_pcm_set_params(state: &mut [u8], ring: &[u8], stream: u32, buffer: u32, period: u32, features: u32,
        channels: u8, format: u8, rate: u8, message: &mut [u8], result: &mut [u8],);
    /// Call: prepare a stream.
    fn snd_pcm_prepare(state: &mut [u8], ring: &[u8], stream: u32, message: &mut [u8], result: &mut [u8],);
    /// Call: release a stream.
    fn snd_pcm_release(state: &mut [u8], ring: &[u8], stream: u32, message: &mut [u8], result: &mut [u8],);
    /// Call: start a stream.
    fn snd_pcm_start(state: &mut [u8], ring: &[u8], stream: u32, message: &mut [u8], result: &mut [u8],);
    /// Call: stop a stream.
    fn snd_pcm_stop(state: &mut [u8], ring: &[u8], stream: u32, message: &mut [u8], result: &mut [u8],);
    /// Call: the ids of the output streams.
    fn snd_output_streams(state: &mut [u8], ring: &[u8], message: &mut [u8], result: &mut [u8],);
    /// Call: the ids of the input streams.
    fn snd_input_streams(state: &mut [u8], ring: &[u8], message: &mut [u8], result: &mut [u8],);
    /// Call: the rates of a stream.
    fn snd_rates_supported(state: &mut [u8], ring: &[u8], stream: u32, message: &mut [u8], result: &mut [u8],);
    /// Call: the formats of a stream.
    fn snd_formats_supported(state: &mut [u8], ring: &[u8], stream: u32, message: &mut [u8], result: &mut [u8],);
    /// Call: the channel range of a stream.
    fn snd_channel_range_supported(state: &mut [u8], ring: &[u8], stream: u32, message: &mut [u8], result: &mut [u8],);
    /// Call: the features of a stream.
    fn snd_features_supported(state: &mut [u8], ring: &[u8], stream: u32, message: &mut [u8], result: &mut [u8],);

    /// The answer page of the request that is out.
    fn snd_feed(state: &mut [u8], page: &[u8], message: &mut [u8], result: &mut [u8],);
    /// The same in strict mode: of the page so many bytes were written.
    fn snd_feed_written(state: &mut [u8], page: &[u8], written: u64, message: &mut [u8], result: &mut [u8],);
    /// The queue failed the request that is out.
    fn snd_feed_failure(state: &mut [u8], message: &mut [u8], result: &mut [u8],);

    /// The start of a transfer.
    fn snd_pcm_xfer_start(state: &mut [u8], ring: &mut [u8], stream: u32, frames: &[u8], budget: u64, message: &mut [u8],);
    /// What the next turn submits.
    fn snd_offered(ring: &[u8], frames: &[u8], result: &mut [u8],);
    /// One turn.
    fn snd_turn(ring: &mut [u8], frames: &[u8], kind: u32, slot: u32, status: u32,);
    /// One drain turn.
    fn snd_drain_turn(ring: &mut [u8], kind: u32, slot: u32, status: u32,);

    /// The start of a transfer that writes a trace.
    fn snd_pcm_xfer_start_traced(state: &mut [u8], ring: &mut [u8], stream: u32, frames: &[u8], budget: u64, room: &[u8],
        message: &mut [u8],);
    /// One turn of it.
    fn snd_turn_traced(ring: &mut [u8], frames: &[u8], room: &mut [u8], kind: u32, slot: u32, status: u32,);
    /// How long the trace is.
    fn snd_trace_length(ring: &[u8], result: &mut [u8],);
    /// Whether a trace is whole fields.
    fn snd_trace_scan(trace: &[u8],);
    /// The offset at which it is not.
    fn snd_trace_scan_at(trace: &[u8],);
    /// Whether a run writes a trace.
    fn snd_judge(mode: u32, trace: &[u8],);
    /// The offset at which none does.
    fn snd_judge_at(mode: u32, trace: &[u8],);
    /// The size of an entry of a list of differences.
    fn snd_entry_size();
    /// How many differences two traces have.
    fn snd_differences(first: &[u8], second: &[u8],);
    /// Lists them.
    fn snd_compare(first: &[u8], second: &[u8], list: &mut [u8],);

    /// The start of a capture.
    fn snd_pcm_capture_start(state: &mut [u8], ring: &mut [u8], stream: u32, periods: u64, recording: &[u8], budget: u64,
        message: &mut [u8],);
    /// What its next turn submits.
    fn snd_capture_offered(ring: &[u8], recording: &[u8], result: &mut [u8],);
    /// One turn of it.
    fn snd_capture_turn(ring: &mut [u8], recording: &mut [u8], kind: u32, slot: u32, written: u32, bytes: &[u8],);

    /// Whether a transfer runs.
    fn snd_ring_running(ring: &[u8], result: &mut [u8],);
    /// How many slots are in flight.
    fn snd_ring_in_flight(ring: &[u8], result: &mut [u8],);
    /// How many descriptors are free.
    fn snd_ring_free_descriptors(ring: &[u8], result: &mut [u8],);
    /// How many turns the transfer has run.
    fn snd_ring_turns_run(ring: &[u8], result: &mut [u8],);
    /// The stream of the transfer.
    fn snd_ring_stream(ring: &[u8], result: &mut [u8],);
    /// What a slot carries, or carried last.
    fn snd_ring_carried(ring: &[u8], slot: usize, result: &mut [u8],);
    /// The oldest slot in flight.
    fn snd_ring_oldest(ring: &[u8], result: &mut [u8],);
    /// How many bytes of the recording a capture has kept.
    fn snd_ring_kept(ring: &[u8], result: &mut [u8],);
    /// How many good completions the transfer has had.
    fn snd_ring_accepted(ring: &[u8], result: &mut [u8],);

    /// A submission that does not wait.
    fn snd_pcm_xfer_nb(state: &mut [u8], ring: &[u8], stream: u32, payload: &[u8], places: &mut [u8],
        message: &mut [u8], result: &mut [u8],);
    /// A completion reading of it.
    fn snd_pcm_xfer_mark(state: &mut [u8], kind: u32, token: u32, status: u32,);
    /// Its finish.
    fn snd_pcm_xfer_ok(state: &mut [u8], token: u32,);
    /// How many tokens are pending.
    fn snd_pending_count(state: &[u8], result: &mut [u8],);
    /// What stands under a token.
    fn snd_pending_token(state: &[u8], token: usize, result: &mut [u8],);

    /// What an event says.
    fn snd_latest_notification(event: &[u8], result: &mut [u8],);

    /// What a device has, by the version and the negotiated features.
    fn snd_config(config: &[u8], version: u32, features: u64, result: &mut [u8],);
    /// What an event says, by the version and the negotiated features.
    fn snd_latest_notification_in(event: &[u8], version: u32, features: u64, result: &mut [u8],);

    /// What a WAVE file holds, and where.
    fn snd_wav_read(file: &[u8], result: &mut [u8],);
    /// Writes a WAVE file.
    fn snd_wav_write(channels: u8, format: u8, rate: u8, frames: &[u8], file: &mut [u8],);

    /// Fills a store with a model device.
    fn snd_model_new(model: &mut [u8], jacks: &[u8], pcms: &[u8], maps: &[u8],);
    /// The model's answer to a control request.
    fn snd_model_control(model: &mut [u8], request: &[u8], page: &mut [u8], result: &mut [u8],);
    /// The model's answer to a transfer request.
    fn snd_model_transfer(model: &mut [u8], request: &[u8], answer: &mut [u8],);
    /// Where a transfer request's payload stands in it.
    fn snd_model_payload(model: &[u8], request: &[u8], result: &mut [u8],);
    /// The parameters that the model was given for a stream.
    fn snd_model_params(model: &[u8], stream: u32, result: &mut [u8],);
    /// How many bytes the model has played on a stream.
    fn snd_model_played(model: &[u8], stream: u32, result: &mut [u8],);
}
