/* A session of calls of all entries of snd.h, as a console makes them: every kind of answer is among them. Who includes it brings memcpy, memset and CALL,
 * which makes a call and gives its answer; all that calls may change stands in `s`. A call's arguments may be evaluated more than once. */
#include "snd.h"

enum { JACKS = 3, STREAMS = 2, MAPS = 1, FRAMES = 40000, PERIOD = 48, RECORDED = 12, TRACED = 150 };

/* Everything that a call may change. */
struct stores {
    uint64_t answer;
    uint8_t state[SND_STATE_SIZE], ring[SND_RING_SIZE], message[SND_MESSAGE_SIZE], result[SND_RESULT_SIZE];
    uint8_t page[SND_PAGE_SIZE], model[SND_MODEL_SIZE], status[8], file[64];
    uint8_t places[SND_PLACES_INDIRECT * (4 + PERIOD) + 5];
    uint8_t recording[RECORDED * PERIOD + 3];
    uint8_t room[19 + 20 * 4 + 3]; /* for the trace of four periods */
    uint8_t list[3 * SND_ENTRY_SIZE + 1];
};

static struct stores s;
static uint8_t frames[FRAMES];

#define STATE s.state, sizeof s.state
#define RING s.ring, sizeof s.ring
#define MESSAGE s.message, sizeof s.message
#define RESULT s.result, sizeof s.result
#define PAGE s.page, sizeof s.page
#define MODEL s.model, sizeof s.model
#define WAVE s.file, sizeof s.file
#define PLACES s.places, sizeof s.places
#define RECORDING s.recording, sizeof s.recording
#define ROOM s.room, sizeof s.room
#define LIST s.list, sizeof s.list

/* Hands each request to the model device and feeds its answer, until the call says something else. */
static uint64_t answered(uint64_t said) {
    while (SND_NUMBER(said) >= SND_SEND && SND_NUMBER(said) < SND_GOING) {
        CALL(snd_model_control, MODEL, s.message, SND_NUMBER(said) - SND_SEND, PAGE, RESULT);
        said = CALL(snd_feed, STATE, PAGE, MESSAGE, RESULT);
    }
    return said;
}

/* The same in strict mode, with the length that the model device tells; but no more than so many bytes were written. */
static uint64_t answered_in(uint64_t most, uint64_t said) {
    while (SND_NUMBER(said) >= SND_SEND && SND_NUMBER(said) < SND_GOING) {
        uint64_t written;
        CALL(snd_model_control, MODEL, s.message, SND_NUMBER(said) - SND_SEND, PAGE, RESULT);
        memcpy(&written, s.result, 8);
        said = CALL(snd_feed_written, STATE, PAGE, written < most ? written : most, MESSAGE, RESULT);
    }
    return said;
}

static void sizes(void) {
    CALL(snd_state_size);
    CALL(snd_ring_size);
    CALL(snd_message_size);
    CALL(snd_result_size);
    CALL(snd_page_size);
    CALL(snd_model_size);
}

static void make(void) {
    uint8_t jacks[JACKS * 24] = {0}, pcms[STREAMS * 32] = {0}, maps[MAPS * 24] = {0};
    jacks[4] = 1; /* the first jack has REMAP */
    for (int i = 0; i < STREAMS; i++) {
        memset(pcms + 32 * i + 8, 0xff, 2);  /* formats */
        memset(pcms + 32 * i + 16, 0xff, 2); /* rates */
        pcms[32 * i + 24] = i;               /* direction */
        pcms[32 * i + 25] = 1;
        pcms[32 * i + 26] = 2;
    }
    CALL(snd_model_new, MODEL, jacks, sizeof jacks, pcms, sizeof pcms, maps, sizeof maps);
    CALL(snd_new, STATE, JACKS, STREAMS, MAPS);
    CALL(snd_ring_new, RING);
}

static void control(void) {
    answered(CALL(snd_output_streams, STATE, RING, MESSAGE, RESULT));
    answered(CALL(snd_input_streams, STATE, RING, MESSAGE, RESULT));
    answered(CALL(snd_rates_supported, STATE, RING, 1, MESSAGE, RESULT));
    answered(CALL(snd_formats_supported, STATE, RING, 1, MESSAGE, RESULT));
    answered(CALL(snd_channel_range_supported, STATE, RING, 0, MESSAGE, RESULT));
    answered(CALL(snd_features_supported, STATE, RING, 0, MESSAGE, RESULT));
    answered(CALL(snd_features_supported, STATE, RING, STREAMS, MESSAGE, RESULT));
    answered(CALL(snd_jack_remap, STATE, RING, 0, 1, 2, MESSAGE, RESULT));
    answered(CALL(snd_jack_remap, STATE, RING, 1, 1, 2, MESSAGE, RESULT));
    answered(CALL(snd_pcm_set_params, STATE, RING, 0, 8192, 2048, 0, 2, 5, 7, MESSAGE, RESULT));
    answered(CALL(snd_pcm_set_params, STATE, RING, 0, 8192, 3000, 0, 2, 5, 7, MESSAGE, RESULT));
    answered(CALL(snd_pcm_prepare, STATE, RING, 0, MESSAGE, RESULT));
    CALL(snd_pcm_start, STATE, RING, 0, MESSAGE, RESULT);
    CALL(snd_pcm_start, STATE, RING, 0, MESSAGE, RESULT); /* Busy */
    CALL(snd_feed_failure, STATE, MESSAGE, RESULT);
    answered(CALL(snd_pcm_start, STATE, RING, 0, MESSAGE, RESULT));
    CALL(snd_jacks, STATE, RESULT);
    CALL(snd_streams, STATE, RESULT);
    CALL(snd_chmaps, STATE, RESULT);
    CALL(snd_model_params, MODEL, 0, RESULT);
}

/* One transfer: what is offered goes to the model device, the oldest comes back, quietly every third turn. */
static void transfer(uint64_t budget, uint32_t failing) {
    static uint8_t request[4 + FRAMES];
    uint64_t said = CALL(snd_pcm_xfer_start, STATE, RING, 0, frames, sizeof frames, budget, MESSAGE);
    for (uint32_t turn = 0, back = 0; SND_NUMBER(said) == SND_GOING; turn++) {
        CALL(snd_offered, RING, frames, sizeof frames, RESULT);
        uint64_t there, at, length;
        memcpy(&there, s.result, 8);
        memcpy(&at, s.result + 16, 8);
        memcpy(&length, s.result + 24, 8);
        if (there) {
            memcpy(request + 4, frames + at, length);
            CALL(snd_model_payload, MODEL, request, 4 + length, RESULT);
            CALL(snd_model_transfer, MODEL, request, 4 + length, s.status, sizeof s.status);
        }
        int quiet = turn % 3 == 2;
        said = CALL(snd_turn, RING, frames, sizeof frames, !quiet, back % 32, back == failing ? 0x8003 : 0x8000);
        back += !quiet;
    }
    CALL(snd_ring_running, RING, RESULT);
    CALL(snd_ring_in_flight, RING, RESULT);
    CALL(snd_ring_free_descriptors, RING, RESULT);
    CALL(snd_ring_turns_run, RING, RESULT);
    CALL(snd_ring_stream, RING, RESULT);
    CALL(snd_ring_carried, RING, 1, RESULT);
    CALL(snd_ring_oldest, RING, RESULT);
    for (int i = 0; i < 10; i++) {
        uint64_t oldest;
        CALL(snd_ring_oldest, RING, RESULT);
        memcpy(&oldest, s.result + 8, 8);
        CALL(snd_drain_turn, RING, 1, oldest, 0x8000);
    }
}

/* A period that does not wait, and goes out to the model device. */
static uint64_t submitted(uint32_t from) {
    return CALL(snd_pcm_xfer_nb, STATE, RING, 0, frames + from, PERIOD, PLACES, MESSAGE, RESULT);
}

/* Submissions that do not wait: every token, completions out of order, control calls meanwhile, and each way to be refused. */
static void go_on(void) {
    answered(CALL(snd_pcm_set_params, STATE, RING, 0, 2 * PERIOD, PERIOD, 0, 2, 5, 7, MESSAGE, RESULT));
    for (uint32_t i = 0; i < SND_PLACES; i++)
        submitted(i);
    submitted(0); /* Full */
    CALL(snd_pending_count, STATE, RESULT);
    CALL(snd_model_transfer, MODEL, s.places, 4 + PERIOD, s.status, sizeof s.status);
    CALL(snd_pcm_xfer_mark, STATE, 0, 3, 0x8000); /* quiet */
    CALL(snd_pcm_xfer_mark, STATE, 1, 3, 0x8000);
    CALL(snd_pcm_xfer_mark, STATE, 1, 3, 0x8003);           /* twice */
    CALL(snd_pcm_xfer_mark, STATE, 1, SND_PLACES, 0x8000);  /* no such token */
    CALL(snd_pcm_xfer_mark, STATE, 1, 1, 0x8003);
    CALL(snd_pending_token, STATE, 1, RESULT);
    CALL(snd_pending_token, STATE, 32, RESULT); /* no such token */
    CALL(snd_pcm_xfer_ok, STATE, 2);            /* NotYet */
    CALL(snd_pcm_xfer_ok, STATE, 3);
    CALL(snd_pcm_xfer_ok, STATE, 1); /* the device failed it */
    CALL(snd_pcm_xfer_ok, STATE, 1); /* not pending */
    answered(CALL(snd_pcm_start, STATE, RING, 0, MESSAGE, RESULT));
    CALL(snd_pcm_xfer_start, STATE, RING, 0, frames, sizeof frames, 9, MESSAGE); /* Busy */
    submitted(7);                                                               /* the lowest again */
    CALL(snd_pcm_xfer_nb, STATE, RING, 0, frames, PERIOD - 1, PLACES, MESSAGE, RESULT);                                   /* no period */
    CALL(snd_pcm_xfer_nb, STATE, RING, 0, frames, PERIOD, s.places, SND_PLACES * (3 + PERIOD), MESSAGE, RESULT);          /* no room */
    CALL(snd_pcm_xfer_nb, STATE, RING, 1, frames, PERIOD, PLACES, MESSAGE, RESULT);                                       /* no parameters */
    for (uint32_t i = 0; i < SND_PLACES; i++) {
        CALL(snd_pcm_xfer_mark, STATE, 1, i, 0x8000);
        CALL(snd_pcm_xfer_ok, STATE, i);
    }
}

/* A turn of a capture, whose device wrote so much with this status behind it; where it can, the bytes of the frames from a place on. */
static uint64_t heard(uint32_t slot, uint32_t written, uint32_t status) {
    static uint8_t buffer[PERIOD + 8];
    for (uint32_t i = 0; i < sizeof buffer; i++)
        buffer[i] = frames[9 * slot + i];
    if (written >= 8 && written <= sizeof buffer)
        memcpy(buffer + written - 8, &status, 4);
    CALL(snd_capture_offered, RING, RECORDING, RESULT);
    return CALL(snd_capture_turn, RING, RECORDING, 1, slot, written, buffer, sizeof buffer);
}

static void begun(uint64_t budget) {
    CALL(snd_pcm_capture_start, STATE, RING, 1, RECORDED, RECORDING, budget, MESSAGE);
}

/* Captures: whole and short periods to the end, and each way to be refused. */
static void record(void) {
    begun(9); /* no parameters */
    answered(CALL(snd_pcm_set_params, STATE, RING, 1, 2 * PERIOD, PERIOD, 0, 2, 5, 7, MESSAGE, RESULT));
    CALL(snd_pcm_capture_start, STATE, RING, 0, RECORDED, RECORDING, 9, MESSAGE);     /* an output */
    CALL(snd_pcm_capture_start, STATE, RING, 1, RECORDED + 1, RECORDING, 9, MESSAGE); /* no room */
    begun(0);
    begun(99);
    CALL(snd_capture_turn, RING, s.recording, PERIOD, 0, 0, 0, frames, 0);    /* another length */
    CALL(snd_capture_turn, RING, RECORDING, 1, 0, PERIOD + 8, frames, PERIOD); /* too few bytes */
    CALL(snd_turn, RING, frames, sizeof s.recording, 0, 0, 0);                 /* no playback */
    CALL(snd_capture_turn, RING, RECORDING, 0, 0, 0, frames, 0);               /* quiet */
    for (uint32_t i = 0; i < RECORDED; i++)
        heard(i, i % 3 == 1 ? 8 + i : PERIOD + 8, 0x8000);
    CALL(snd_capture_turn, RING, RECORDING, 0, 0, 0, frames, 0); /* done */
    CALL(snd_ring_kept, RING, RESULT);
    CALL(snd_ring_accepted, RING, RESULT);
    begun(99);
    heard(0, PERIOD + 9, 0x8000); /* BadCapture */
    begun(99);
    heard(0, 8, 0x8003); /* the device failed it */
    begun(99);
    heard(1, PERIOD + 8, 0x8000); /* another slot */
    CALL(snd_drain_turn, RING, 1, 0, 0);
    CALL(snd_capture_turn, RING, RECORDING, 0, 0, 0, frames, 0); /* nothing runs */
}

/* What is said of the trace in so many bytes of the room. */
static void judged(uint64_t length) {
    CALL(snd_trace_scan, s.room, length);
    CALL(snd_trace_scan_at, s.room, length);
    CALL(snd_judge, SND_DIRECT, s.room, length);
    CALL(snd_judge_at, SND_DIRECT, s.room, length);
    CALL(snd_judge, SND_INDIRECT, s.room, length);
    CALL(snd_judge_at, SND_INDIRECT, s.room, length);
}

/* A transfer of four periods that writes a trace, quiet in its first turn. */
static void traced(uint64_t budget, uint32_t slot, uint32_t status) {
    uint64_t length, said = CALL(snd_pcm_xfer_start_traced, STATE, RING, 0, frames, TRACED, budget, ROOM, MESSAGE);
    for (uint32_t turn = 0; SND_NUMBER(said) == SND_GOING; turn++)
        said = CALL(snd_turn_traced, RING, frames, TRACED, ROOM, turn > 0, turn > 2 ? slot : turn - 1, turn > 2 ? status : 0x8000);
    CALL(snd_trace_length, RING, RESULT);
    memcpy(&length, s.result, 8);
    judged(length);
    for (int i = 0; i < 4; i++) {
        uint64_t oldest;
        CALL(snd_ring_oldest, RING, RESULT);
        memcpy(&oldest, s.result + 8, 8);
        CALL(snd_drain_turn, RING, 1, oldest, 0x8000);
    }
}

/* Traces of each end, and each way to be refused. The parameters are those of what does not wait. */
static void traces(void) {
    traced(0, 2, 0x8000);
    traced(4, 2, 0x8000); /* OutOfTurns */
    traced(9, 2, 0x8003); /* the device failed it */
    traced(9, 9, 0x8000); /* another slot */
    judged(15);                     /* it ends early */
    judged(17);                     /* cut */
    CALL(snd_judge, 2, s.room, 15); /* no mode */
    CALL(snd_pcm_xfer_start_traced, STATE, RING, 0, frames, TRACED, 9, s.room, 19 + 20 * 4 - 1, MESSAGE); /* no room */
    CALL(snd_pcm_xfer_start_traced, STATE, RING, 0, frames, 0, 9, ROOM, MESSAGE);
    CALL(snd_turn, RING, frames, 0, 0, 0, 0);                   /* another room */
    CALL(snd_turn_traced, RING, frames, 0, s.room, 9, 0, 0, 0); /* another room */
    CALL(snd_turn_traced, RING, frames, 0, ROOM, 0, 0, 0);      /* done */
    CALL(snd_turn_traced, RING, frames, 0, ROOM, 0, 0, 0);      /* nothing runs */
    s.room[18] = 6;
    judged(19); /* no run has this answer */
}

/* A ring for indirect descriptors: more than ten in flight, the first of 32 places, and a transfer that ends with slots owed. */
static void indirect(void) {
    CALL(snd_ring_new_indirect, RING);
    CALL(snd_pcm_xfer_nb, STATE, RING, 0, frames, PERIOD, s.places, sizeof s.places - 5 - 1, MESSAGE, RESULT); /* no room */
    submitted(1);
    CALL(snd_pcm_xfer_mark, STATE, 1, 0, 0x8000);
    CALL(snd_pcm_xfer_ok, STATE, 0);
    CALL(snd_pcm_xfer_start, STATE, RING, 0, frames, 12 * PERIOD, 13, MESSAGE);
    for (int i = 0; i < 12; i++) {
        CALL(snd_offered, RING, frames, 12 * PERIOD, RESULT);
        CALL(snd_turn, RING, frames, 12 * PERIOD, 0, 0, 0);
    }
    CALL(snd_ring_free_descriptors, RING, RESULT);
    CALL(snd_turn, RING, frames, 12 * PERIOD, 1, 0, 0x8003); /* the device failed it */
    for (int i = 1; i < 12; i++)
        CALL(snd_drain_turn, RING, 1, i, 0x8000);
    CALL(snd_ring_accepted, RING, RESULT);
    CALL(snd_ring_new, RING);
}

/* Two traces compared: every kind of difference, and each way to be refused. */
static void compared(void) {
    uint8_t first[] = {3, 1, 0, 0, 2, 5, 0, 1, 0, 0x80, 0, 0}, second[] = {3, 1, 0, 2, 3, 1, 0, 9};
    CALL(snd_entry_size);
    CALL(snd_differences, first, sizeof first, second, sizeof second);
    CALL(snd_compare, first, sizeof first, second, sizeof second, LIST);
    CALL(snd_compare, first, sizeof first, first, sizeof first, LIST);                             /* equal */
    CALL(snd_compare, first, sizeof first, second, sizeof second, s.list, 3 * SND_ENTRY_SIZE - 1); /* ListFull */
    CALL(snd_compare, first, sizeof first, second, 7, LIST);                                       /* the second is cut */
    CALL(snd_compare, first, 11, second, sizeof second, LIST);                                     /* the first is */
    CALL(snd_differences, first, 11, second, sizeof second);
}

static void strict(void) {
    CALL(snd_new, STATE, JACKS, STREAMS, MAPS);
    answered_in(4, CALL(snd_jack_remap, STATE, RING, 0, 1, 2, MESSAGE, RESULT)); /* headers alone: no jacks, and Short for the streams */
    answered_in(SND_PAGE_SIZE, CALL(snd_pcm_set_params, STATE, RING, 0, 8192, 2048, 0, 2, 5, 7, MESSAGE, RESULT));
    CALL(snd_new, STATE, JACKS, STREAMS, MAPS);
    answered_in(SND_PAGE_SIZE, CALL(snd_pcm_xfer_nb, STATE, RING, 0, frames, PERIOD, PLACES, MESSAGE, RESULT)); /* set-up, and no parameters */
    CALL(snd_new, STATE, JACKS, STREAMS, MAPS);
    answered_in(SND_PAGE_SIZE, CALL(snd_pcm_capture_start, STATE, RING, 1, RECORDED, RECORDING, 9, MESSAGE)); /* the same of a capture */
    answered_in(3, CALL(snd_pcm_prepare, STATE, RING, 0, MESSAGE, RESULT)); /* Short */
    CALL(snd_pcm_prepare, STATE, RING, 0, MESSAGE, RESULT);
    CALL(snd_feed_written, STATE, PAGE, SND_PAGE_SIZE + 1, MESSAGE, RESULT); /* no page has so many bytes */
    CALL(snd_feed_written, STATE, PAGE, SND_PAGE_SIZE, MESSAGE, RESULT);
    CALL(snd_feed_written, STATE, PAGE, 4, MESSAGE, RESULT); /* nothing is open */
}

/* Under the guard: what the lifecycle does not permit, and what it does. */
static void guarded(void) {
    CALL(snd_new_guarded, STATE, JACKS, STREAMS, MAPS);
    answered(CALL(snd_pcm_start, STATE, RING, 0, MESSAGE, RESULT)); /* never prepared: set-up, and BadState */
    answered(CALL(snd_pcm_set_params, STATE, RING, 0, 8192, 2048, 0, 2, 5, 7, MESSAGE, RESULT));
    CALL(snd_pcm_xfer_start, STATE, RING, 0, frames, sizeof frames, 9, MESSAGE); /* BadState */
    answered(CALL(snd_pcm_prepare, STATE, RING, STREAMS, MESSAGE, RESULT));      /* no such stream */
    answered(CALL(snd_pcm_prepare, STATE, RING, 0, MESSAGE, RESULT));
    answered(CALL(snd_pcm_stop, STATE, RING, 0, MESSAGE, RESULT)); /* BadState */
    answered(CALL(snd_pcm_start, STATE, RING, 0, MESSAGE, RESULT));
    CALL(snd_pcm_xfer_start, STATE, RING, 0, frames, sizeof frames, 0, MESSAGE);                 /* taken, but for its budget */
    answered(CALL(snd_pcm_set_params, STATE, RING, 0, 8192, 2048, 0, 2, 5, 7, MESSAGE, RESULT)); /* BadState */
    answered(CALL(snd_pcm_release, STATE, RING, 0, MESSAGE, RESULT));                            /* BadState */
    answered(CALL(snd_pcm_stop, STATE, RING, 0, MESSAGE, RESULT));
    answered(CALL(snd_pcm_release, STATE, RING, 0, MESSAGE, RESULT));
}

static void refusals(void) {
    CALL(snd_feed, STATE, PAGE, MESSAGE, RESULT);                      /* nothing is open */
    CALL(snd_turn, RING, frames, sizeof frames, 0, 0, 0);              /* nothing runs */
    CALL(snd_jacks, MODEL, RESULT);                                    /* no state */
    CALL(snd_pcm_stop, s.state, 9, RING, 0, MESSAGE, RESULT);          /* too short */
    CALL(snd_pcm_xfer_start, STATE, RING, 0, frames, 9, 1, MESSAGE);
    CALL(snd_turn, RING, frames, 9, 1, 32, 0x8000);                    /* no such slot */
}

/* A configuration and an event in each mode, and refused for the length and for the version. */
static void versions(void) {
    uint8_t config[16] = {1, 0, 0, 0, 2, 0, 0, 0, 3, 0, 0, 0, 4, 0, 0, 0};
    uint8_t change[8] = {0, 0x12, 0, 0, 3, 0, 1, 0};
    for (uint32_t version = 0x0102; version <= 0x0104; version++) {
        for (uint64_t features = 0; features <= 1; features++) {
            CALL(snd_config, config, 12, version, features, RESULT);
            CALL(snd_config, config, 16, version, features, RESULT);
            CALL(snd_latest_notification_in, change, sizeof change, version, features, RESULT);
        }
    }
    CALL(snd_latest_notification_in, change, 7, 0x0103, 1, RESULT);
}

static void others(void) {
    uint8_t event[8] = {0, 0x10, 0, 0, 7, 0, 0, 0};
    CALL(snd_latest_notification, event, sizeof event, RESULT);
    event[0] = 2;
    CALL(snd_latest_notification, event, sizeof event, RESULT);
    versions();
    CALL(snd_model_played, MODEL, 0, RESULT);
    answered(CALL(snd_pcm_stop, STATE, RING, 0, MESSAGE, RESULT));
    answered(CALL(snd_pcm_release, STATE, RING, 0, MESSAGE, RESULT));
}

/* A WAVE file is written and read, and refused for its structure, its sound and its room. */
static void waves(void) {
    CALL(snd_wav_write, 1, 11, 6, frames, 9, WAVE);
    CALL(snd_wav_read, WAVE, RESULT);
    CALL(snd_wav_read, s.file, 53, RESULT);          /* the pad is cut off */
    CALL(snd_wav_write, 1, 11, 6, frames, 10, WAVE); /* no whole frame */
    CALL(snd_wav_write, 1, 11, 6, frames, 21, WAVE); /* no room */
    s.file[20] = 3;
    CALL(snd_wav_read, WAVE, RESULT);                /* floats */
}

static void session(void) {
    for (size_t i = 0; i < sizeof frames; i++)
        frames[i] = i * 7;
    sizes();
    make();
    control();
    transfer(100, ~0u);
    transfer(100, 7);
    transfer(5, ~0u);
    go_on();
    traces();
    indirect();
    compared();
    record();
    others();
    guarded();
    waves();
    strict();
    refusals();
}
