//! The port's C entries, as host/include/snd.h declares them.

unsafe extern "C" {
    pub fn snd_state_size() -> u64;
    pub fn snd_ring_size() -> u64;
    pub fn snd_message_size() -> u64;
    pub fn snd_result_size() -> u64;
    pub fn snd_page_size() -> u64;
    pub fn snd_model_size() -> u64;
    pub fn snd_new(state: *mut u8, state_len: usize, jacks: u32, streams: u32, chmaps: u32) -> u64;
    pub fn snd_new_guarded(state: *mut u8, state_len: usize, jacks: u32, streams: u32, chmaps: u32) -> u64;
    pub fn snd_ring_new(ring: *mut u8, ring_len: usize) -> u64;
    pub fn snd_ring_new_indirect(ring: *mut u8, ring_len: usize) -> u64;
    pub fn snd_jacks(state: *const u8, state_len: usize, result: *mut u8, result_len: usize) -> u64;
    pub fn snd_streams(state: *const u8, state_len: usize, result: *mut u8, result_len: usize) -> u64;
    pub fn snd_chmaps(state: *const u8, state_len: usize, result: *mut u8, result_len: usize) -> u64;
    pub fn snd_jack_remap(
        state: *mut u8,
        state_len: usize,
        ring: *const u8,
        ring_len: usize,
        jack: u32,
        association: u32,
        sequence: u32,
        message: *mut u8,
        message_len: usize,
        result: *mut u8,
        result_len: usize,
    ) -> u64;
    pub fn snd_pcm_set_params(
        state: *mut u8,
        state_len: usize,
        ring: *const u8,
        ring_len: usize,
        stream: u32,
        buffer: u32,
        period: u32,
        features: u32,
        channels: u8,
        format: u8,
        rate: u8,
        message: *mut u8,
        message_len: usize,
        result: *mut u8,
        result_len: usize,
    ) -> u64;
    pub fn snd_pcm_prepare(
        state: *mut u8,
        state_len: usize,
        ring: *const u8,
        ring_len: usize,
        stream: u32,
        message: *mut u8,
        message_len: usize,
        result: *mut u8,
        result_len: usize,
    ) -> u64;
    pub fn snd_pcm_release(
        state: *mut u8,
        state_len: usize,
        ring: *const u8,
        ring_len: usize,
        stream: u32,
        message: *mut u8,
        message_len: usize,
        result: *mut u8,
        result_len: usize,
    ) -> u64;
    pub fn snd_pcm_start(
        state: *mut u8,
        state_len: usize,
        ring: *const u8,
        ring_len: usize,
        stream: u32,
        message: *mut u8,
        message_len: usize,
        result: *mut u8,
        result_len: usize,
    ) -> u64;
    pub fn snd_pcm_stop(
        state: *mut u8,
        state_len: usize,
        ring: *const u8,
        ring_len: usize,
        stream: u32,
        message: *mut u8,
        message_len: usize,
        result: *mut u8,
        result_len: usize,
    ) -> u64;
    pub fn snd_output_streams(
        state: *mut u8,
        state_len: usize,
        ring: *const u8,
        ring_len: usize,
        message: *mut u8,
        message_len: usize,
        result: *mut u8,
        result_len: usize,
    ) -> u64;
    pub fn snd_input_streams(
        state: *mut u8,
        state_len: usize,
        ring: *const u8,
        ring_len: usize,
        message: *mut u8,
        message_len: usize,
        result: *mut u8,
        result_len: usize,
    ) -> u64;
    pub fn snd_rates_supported(
        state: *mut u8,
        state_len: usize,
        ring: *const u8,
        ring_len: usize,
        stream: u32,
        message: *mut u8,
        message_len: usize,
        result: *mut u8,
        result_len: usize,
    ) -> u64;
    pub fn snd_formats_supported(
        state: *mut u8,
        state_len: usize,
        ring: *const u8,
        ring_len: usize,
        stream: u32,
        message: *mut u8,
        message_len: usize,
        result: *mut u8,
        result_len: usize,
    ) -> u64;
    pub fn snd_channel_range_supported(
        state: *mut u8,
        state_len: usize,
        ring: *const u8,
        ring_len: usize,
        stream: u32,
        message: *mut u8,
        message_len: usize,
        result: *mut u8,
        result_len: usize,
    ) -> u64;
    pub fn snd_features_supported(
        state: *mut u8,
        state_len: usize,
        ring: *const u8,
        ring_len: usize,
        stream: u32,
        message: *mut u8,
        message_len: usize,
        result: *mut u8,
        result_len: usize,
    ) -> u64;
    pub fn snd_feed(
        state: *mut u8,
        state_len: usize,
        page: *const u8,
        page_len: usize,
        message: *mut u8,
        message_len: usize,
        result: *mut u8,
        result_len: usize,
    ) -> u64;
    pub fn snd_feed_written(
        state: *mut u8,
        state_len: usize,
        page: *const u8,
        page_len: usize,
        written: u64,
        message: *mut u8,
        message_len: usize,
        result: *mut u8,
        result_len: usize,
    ) -> u64;
    pub fn snd_feed_failure(
        state: *mut u8,
        state_len: usize,
        message: *mut u8,
        message_len: usize,
        result: *mut u8,
        result_len: usize,
    ) -> u64;
    pub fn snd_pcm_xfer_start(
        state: *mut u8,
        state_len: usize,
        ring: *mut u8,
        ring_len: usize,
        stream: u32,
        frames: *const u8,
        frames_len: usize,
        budget: u64,
        message: *mut u8,
        message_len: usize,
    ) -> u64;
    pub fn snd_offered(
        ring: *const u8,
        ring_len: usize,
        frames: *const u8,
        frames_len: usize,
        result: *mut u8,
        result_len: usize,
    ) -> u64;
    pub fn snd_turn(
        ring: *mut u8,
        ring_len: usize,
        frames: *const u8,
        frames_len: usize,
        kind: u32,
        slot: u32,
        status: u32,
    ) -> u64;
    pub fn snd_drain_turn(ring: *mut u8, ring_len: usize, kind: u32, slot: u32, status: u32) -> u64;
    pub fn snd_pcm_xfer_start_traced(
        state: *mut u8,
        state_len: usize,
        ring: *mut u8,
        ring_len: usize,
        stream: u32,
        frames: *const u8,
        frames_len: usize,
        budget: u64,
        room: *const u8,
        room_len: usize,
        message: *mut u8,
        message_len: usize,
    ) -> u64;
    pub fn snd_turn_traced(
        ring: *mut u8,
        ring_len: usize,
        frames: *const u8,
        frames_len: usize,
        room: *mut u8,
        room_len: usize,
        kind: u32,
        slot: u32,
        status: u32,
    ) -> u64;
    pub fn snd_trace_length(ring: *const u8, ring_len: usize, result: *mut u8, result_len: usize) -> u64;
    pub fn snd_trace_scan(trace: *const u8, trace_len: usize) -> u64;
    pub fn snd_trace_scan_at(trace: *const u8, trace_len: usize) -> u64;
    pub fn snd_judge(mode: u32, trace: *const u8, trace_len: usize) -> u64;
    pub fn snd_judge_at(mode: u32, trace: *const u8, trace_len: usize) -> u64;
    pub fn snd_entry_size() -> u64;
    pub fn snd_differences(first: *const u8, first_len: usize, second: *const u8, second_len: usize) -> u64;
    pub fn snd_compare(
        first: *const u8,
        first_len: usize,
        second: *const u8,
        second_len: usize,
        list: *mut u8,
        list_len: usize,
    ) -> u64;
    pub fn snd_pcm_capture_start(
        state: *mut u8,
        state_len: usize,
        ring: *mut u8,
        ring_len: usize,
        stream: u32,
        periods: u64,
        recording: *const u8,
        recording_len: usize,
        budget: u64,
        message: *mut u8,
        message_len: usize,
    ) -> u64;
    pub fn snd_capture_offered(
        ring: *const u8,
        ring_len: usize,
        recording: *const u8,
        recording_len: usize,
        result: *mut u8,
        result_len: usize,
    ) -> u64;
    pub fn snd_capture_turn(
        ring: *mut u8,
        ring_len: usize,
        recording: *mut u8,
        recording_len: usize,
        kind: u32,
        slot: u32,
        written: u32,
        bytes: *const u8,
        bytes_len: usize,
    ) -> u64;
    pub fn snd_ring_running(ring: *const u8, ring_len: usize, result: *mut u8, result_len: usize) -> u64;
    pub fn snd_ring_in_flight(ring: *const u8, ring_len: usize, result: *mut u8, result_len: usize) -> u64;
    pub fn snd_ring_free_descriptors(ring: *const u8, ring_len: usize, result: *mut u8, result_len: usize) -> u64;
    pub fn snd_ring_turns_run(ring: *const u8, ring_len: usize, result: *mut u8, result_len: usize) -> u64;
    pub fn snd_ring_stream(ring: *const u8, ring_len: usize, result: *mut u8, result_len: usize) -> u64;
    pub fn snd_ring_carried(ring: *const u8, ring_len: usize, slot: usize, result: *mut u8, result_len: usize) -> u64;
    pub fn snd_ring_oldest(ring: *const u8, ring_len: usize, result: *mut u8, result_len: usize) -> u64;
    pub fn snd_ring_kept(ring: *const u8, ring_len: usize, result: *mut u8, result_len: usize) -> u64;
    pub fn snd_ring_accepted(ring: *const u8, ring_len: usize, result: *mut u8, result_len: usize) -> u64;
    pub fn snd_pcm_xfer_nb(
        state: *mut u8,
        state_len: usize,
        ring: *const u8,
        ring_len: usize,
        stream: u32,
        payload: *const u8,
        payload_len: usize,
        places: *mut u8,
        places_len: usize,
        message: *mut u8,
        message_len: usize,
        result: *mut u8,
        result_len: usize,
    ) -> u64;
    pub fn snd_pcm_xfer_mark(state: *mut u8, state_len: usize, kind: u32, token: u32, status: u32) -> u64;
    pub fn snd_pcm_xfer_ok(state: *mut u8, state_len: usize, token: u32) -> u64;
    pub fn snd_pending_count(state: *const u8, state_len: usize, result: *mut u8, result_len: usize) -> u64;
    pub fn snd_pending_token(
        state: *const u8,
        state_len: usize,
        token: usize,
        result: *mut u8,
        result_len: usize,
    ) -> u64;
    pub fn snd_latest_notification(event: *const u8, event_len: usize, result: *mut u8, result_len: usize) -> u64;
    pub fn snd_config(
        config: *const u8,
        config_len: usize,
        version: u32,
        features: u64,
        result: *mut u8,
        result_len: usize,
    ) -> u64;
    pub fn snd_latest_notification_in(
        event: *const u8,
        event_len: usize,
        version: u32,
        features: u64,
        result: *mut u8,
        result_len: usize,
    ) -> u64;
    pub fn snd_wav_read(file: *const u8, file_len: usize, result: *mut u8, result_len: usize) -> u64;
    pub fn snd_wav_write(
        channels: u8,
        format: u8,
        rate: u8,
        frames: *const u8,
        frames_len: usize,
        file: *mut u8,
        file_len: usize,
    ) -> u64;
    pub fn snd_model_new(
        model: *mut u8,
        model_len: usize,
        jacks: *const u8,
        jacks_len: usize,
        pcms: *const u8,
        pcms_len: usize,
        maps: *const u8,
        maps_len: usize,
    ) -> u64;
    pub fn snd_model_control(
        model: *mut u8,
        model_len: usize,
        request: *const u8,
        request_len: usize,
        page: *mut u8,
        page_len: usize,
        result: *mut u8,
        result_len: usize,
    ) -> u64;
    pub fn snd_model_transfer(
        model: *mut u8,
        model_len: usize,
        request: *const u8,
        request_len: usize,
        answer: *mut u8,
        answer_len: usize,
    ) -> u64;
    pub fn snd_model_payload(
        model: *const u8,
        model_len: usize,
        request: *const u8,
        request_len: usize,
        result: *mut u8,
        result_len: usize,
    ) -> u64;
    pub fn snd_model_params(model: *const u8, model_len: usize, stream: u32, result: *mut u8, result_len: usize)
    -> u64;
    pub fn snd_model_played(model: *const u8, model_len: usize, stream: u32, result: *mut u8, result_len: usize)
    -> u64;
}
