/* The driver's C entries. docs/BOUNDARY.md says what each answers and writes.
 *
 * Every entry answers one number: the answer's own in its low 32 bits, SND_NUMBER. 0 to 10 are
 * document 01's answers, 11 to 20 are document 02's; a request of n bytes to send is SND_SEND + n; a turn
 * that goes on is SND_GOING; an event that says nothing is SND_NOTHING. Of 2 and 3 the high 32 bits,
 * SND_STATUS, are the status by which the device refused, or SND_NO_STATUS; of every other answer 0.
 *
 * A slice is a pointer and a length; an empty one may have any pointer but NULL. Slices that are
 * written must not overlap any other. Any bytes at all are safe to pass: a store that is too short
 * is refused with 10, one that is inconsistent with 1, and a refusal leaves every lent byte as it
 * was, but for what the documents name: 2, 6 and 9 end a transfer, which keeps its trace, as 17 does a
 * capture, which keeps what it had accepted before; and a feed ends its exchange.
 * Numbers in results are least byte first.
 *
 * The caller's duties, which no entry can test: as many bytes as a length says are there, at most
 * PTRDIFF_MAX; a store, and a buffer that is written, is used by one call at a time, whether of a
 * thread or of an interrupt. Calls on different stores may run at the same time.
 *
 * In a guest: nothing below the stack pointer is in use (no red zone), so interrupts may run on the
 * stack that they meet. On x86-64 SSE must be on, and an interrupt that uses its registers saves
 * them; tools/staticlib --no-sse makes an archive that uses none. */
#ifndef SND_H
#define SND_H

#include <stddef.h>
#include <stdint.h>

#ifdef __cplusplus
extern "C" {
#endif

/* The version of this header and of the archive beside it: docs/BOUNDARY.md says when it changes.
 * As one number it can be compared by #if. */
#define SND_VERSION_MAJOR 0u
#define SND_VERSION_MINOR 12u
#define SND_VERSION_PATCH 0u
#define SND_VERSION (SND_VERSION_MAJOR * 1000000u + SND_VERSION_MINOR * 1000u + SND_VERSION_PATCH)

#define SND_OK 0u
#define SND_INVALID_PARAM 1u
#define SND_IO_ERROR 2u
#define SND_UNSUPPORTED 3u
#define SND_NO_INFO 4u
#define SND_TOO_MANY 5u
#define SND_WRONG_TOKEN 6u
#define SND_QUEUE_FAILED 7u
#define SND_BUSY 8u
#define SND_OUT_OF_TURNS 9u
#define SND_BAD_LENGTH 10u
#define SND_SHORT 11u
#define SND_BAD_STATE 12u
#define SND_NOT_WAVE 13u
#define SND_BAD_SOUND 14u
#define SND_FULL 15u
#define SND_NOT_YET 16u
#define SND_BAD_CAPTURE 17u
#define SND_BAD_TRACE 18u
#define SND_NOT_A_RUN 19u
#define SND_LIST_FULL 20u
#define SND_SEND 256u
#define SND_GOING 512u
#define SND_NOTHING 513u

/* An answer's number, and of 2 and 3 the device's own word: 0x8001 bad message, 0x8002 not supported,
 * 0x8003 I/O error, or a number that the standard does not name, 0 among them: a page of zeros that no
 * device wrote. SND_NO_STATUS, which is the standard's ok, causes no refusal and stands where no status
 * did: the stream has no parameters, an event has an unknown code, the jack lacks REMAP. Compare
 * SND_NUMBER(answer) with the numbers above, never the whole answer with 2 or 3. */
#define SND_NUMBER(answer) ((uint32_t)(answer))
#define SND_STATUS(answer) ((uint32_t)((uint64_t)(answer) >> 32))
#define SND_NO_STATUS 0x8000u

/* Sizes of the stores and buffers, the same as the entries below hand out. */
#define SND_STATE_SIZE 14703u
#define SND_RING_SIZE 636u
#define SND_MESSAGE_SIZE 24u
#define SND_RESULT_SIZE 512u
#define SND_PAGE_SIZE 4096u
#define SND_MODEL_SIZE 16427u
#define SND_ENTRY_SIZE 34u
/* Equal places of a store of submissions that do not wait, and with a ring for indirect descriptors. */
#define SND_PLACES 16u
#define SND_PLACES_INDIRECT 32u
/* The modes of a ring: descriptors of a submission, direct ones and, where VIRTIO_F_INDIRECT_DESC (bit 28
 * of the features) was negotiated, indirect ones. */
#define SND_DIRECT 3u
#define SND_INDIRECT 1u

/* Versions of VirtIO, as a host names them, and the bit of a device's features by which it has control
 * elements. */
#define SND_VIRTIO_1_2 0x0102u
#define SND_VIRTIO_1_3 0x0103u
#define SND_F_CTLS 1u

uint64_t snd_state_size(void);
uint64_t snd_ring_size(void);
uint64_t snd_message_size(void);
uint64_t snd_result_size(void);
uint64_t snd_page_size(void);
uint64_t snd_model_size(void);

/* A new state from the configured counts; a new ring.
 *
 * A state made by snd_new_guarded keeps to the standard's lifecycle of a PCM stream, for good: a
 * command that the stream's last ok command does not permit is not sent, a transfer is taken of a
 * prepared or started stream alone, and what is not permitted is 12. docs/BOUNDARY.md has the table.
 *
 * A ring made by snd_ring_new_indirect is for a queue with indirect descriptors, for good: a submission
 * takes one descriptor and goes out whenever a slot is free, so that 32 may be in flight, and as many
 * places are there for what does not wait. Every other call is the same with both. Make the ring from the
 * features that were negotiated, and keep to one ring a state. */
uint64_t snd_new(uint8_t *state, size_t state_len, uint32_t jacks, uint32_t streams, uint32_t chmaps);
uint64_t snd_new_guarded(uint8_t *state, size_t state_len, uint32_t jacks, uint32_t streams, uint32_t chmaps);
uint64_t snd_ring_new(uint8_t *ring, size_t ring_len);
uint64_t snd_ring_new_indirect(uint8_t *ring, size_t ring_len);

/* The configured counts: 8 bytes of result. */
uint64_t snd_jacks(const uint8_t *state, size_t state_len, uint8_t *result, size_t result_len);
uint64_t snd_streams(const uint8_t *state, size_t state_len, uint8_t *result, size_t result_len);
uint64_t snd_chmaps(const uint8_t *state, size_t state_len, uint8_t *result, size_t result_len);

/* Calls. Each yields a request (SND_SEND + n, n bytes of message), or a result. */
uint64_t snd_jack_remap(uint8_t *state, size_t state_len, const uint8_t *ring, size_t ring_len,
                        uint32_t jack, uint32_t association, uint32_t sequence,
                        uint8_t *message, size_t message_len, uint8_t *result, size_t result_len);
uint64_t snd_pcm_set_params(uint8_t *state, size_t state_len, const uint8_t *ring, size_t ring_len,
                            uint32_t stream, uint32_t buffer, uint32_t period, uint32_t features,
                            uint8_t channels, uint8_t format, uint8_t rate,
                            uint8_t *message, size_t message_len, uint8_t *result, size_t result_len);
uint64_t snd_pcm_prepare(uint8_t *state, size_t state_len, const uint8_t *ring, size_t ring_len, uint32_t stream,
                         uint8_t *message, size_t message_len, uint8_t *result, size_t result_len);
uint64_t snd_pcm_release(uint8_t *state, size_t state_len, const uint8_t *ring, size_t ring_len, uint32_t stream,
                         uint8_t *message, size_t message_len, uint8_t *result, size_t result_len);
uint64_t snd_pcm_start(uint8_t *state, size_t state_len, const uint8_t *ring, size_t ring_len, uint32_t stream,
                       uint8_t *message, size_t message_len, uint8_t *result, size_t result_len);
uint64_t snd_pcm_stop(uint8_t *state, size_t state_len, const uint8_t *ring, size_t ring_len, uint32_t stream,
                      uint8_t *message, size_t message_len, uint8_t *result, size_t result_len);
/* Result: count 4, then each id 4. */
uint64_t snd_output_streams(uint8_t *state, size_t state_len, const uint8_t *ring, size_t ring_len,
                            uint8_t *message, size_t message_len, uint8_t *result, size_t result_len);
uint64_t snd_input_streams(uint8_t *state, size_t state_len, const uint8_t *ring, size_t ring_len,
                           uint8_t *message, size_t message_len, uint8_t *result, size_t result_len);
/* Result: the stored bits, 8; of a channel range min 1, max 1. */
uint64_t snd_rates_supported(uint8_t *state, size_t state_len, const uint8_t *ring, size_t ring_len, uint32_t stream,
                             uint8_t *message, size_t message_len, uint8_t *result, size_t result_len);
uint64_t snd_formats_supported(uint8_t *state, size_t state_len, const uint8_t *ring, size_t ring_len, uint32_t stream,
                               uint8_t *message, size_t message_len, uint8_t *result, size_t result_len);
uint64_t snd_channel_range_supported(uint8_t *state, size_t state_len, const uint8_t *ring, size_t ring_len, uint32_t stream,
                                     uint8_t *message, size_t message_len, uint8_t *result, size_t result_len);
uint64_t snd_features_supported(uint8_t *state, size_t state_len, const uint8_t *ring, size_t ring_len, uint32_t stream,
                                uint8_t *message, size_t message_len, uint8_t *result, size_t result_len);

/* The answer to the request that is out: its page of 4,096 bytes, or the queue's failure.
 *
 * Strict mode is to feed by snd_feed_written: the page, and how many bytes of it the device wrote, as
 * the queue reports it. No byte past them is looked at. More than 4,096 is refused with 10, and the
 * exchange stays open; fewer than the answer needs are 11, which for a query of jacks or channel maps
 * is an empty table. Each feed is judged by itself. */
uint64_t snd_feed(uint8_t *state, size_t state_len, const uint8_t *page, size_t page_len,
                  uint8_t *message, size_t message_len, uint8_t *result, size_t result_len);
uint64_t snd_feed_written(uint8_t *state, size_t state_len, const uint8_t *page, size_t page_len, uint64_t written,
                          uint8_t *message, size_t message_len, uint8_t *result, size_t result_len);
uint64_t snd_feed_failure(uint8_t *state, size_t state_len,
                          uint8_t *message, size_t message_len, uint8_t *result, size_t result_len);

/* A transfer: its start (SND_GOING, a request of set-up, or a refusal); what the next turn submits
 * (result: there 8, slot 8, offset 8, length 8); a turn; a drain turn. Kind 0 is a quiet reading,
 * any other a completed slot with its status.
 *
 * A submission is 4 bytes of stream id, least first, and the period, both for the device to read,
 * then 8 bytes for it to write: the status to pass on, 4, and a latency, 4, least first. They stay
 * where they are until the slot is freed. Submit before the turn, which takes it as submitted: where
 * the queue did not take it, run no turn. The queue's token is not the slot; one that is not known
 * is passed on as slot UINT32_MAX. docs/BOUNDARY.md and docs/HOST.md say more. */
uint64_t snd_pcm_xfer_start(uint8_t *state, size_t state_len, uint8_t *ring, size_t ring_len, uint32_t stream,
                            const uint8_t *frames, size_t frames_len, uint64_t budget,
                            uint8_t *message, size_t message_len);
uint64_t snd_offered(const uint8_t *ring, size_t ring_len, const uint8_t *frames, size_t frames_len,
                     uint8_t *result, size_t result_len);
uint64_t snd_turn(uint8_t *ring, size_t ring_len, const uint8_t *frames, size_t frames_len,
                  uint32_t kind, uint32_t slot, uint32_t status);
uint64_t snd_drain_turn(uint8_t *ring, size_t ring_len, uint32_t kind, uint32_t slot, uint32_t status);

/* A transfer that writes a trace: what was submitted, what came back, how it ended, as tagged fields.
 * docs/TRACE.md has their form.
 *
 * The start takes of the room only its length, which is then that of every turn, and writes nothing
 * there. It answers as snd_pcm_xfer_start, and after all that, 9 for a budget of 0 among it, 10: frames
 * of 2^32 bytes or more, or a room under 19 + 20n bytes for n periods.
 *
 * A turn is as snd_turn, and writes its fields behind those of the turns before; the first one writes
 * the start before its own. 10 frames or a room that are not as long as at the start; 1 no playback
 * runs, or no traced start left this ring: its numbers do not fit the fields, or no room is left behind
 * what is written; neither counts, and neither writes. snd_turn is the turn with an empty room: it is 10
 * on a transfer that was started so, as this one with a room is on any other. No byte of the room behind
 * the trace changes; a drain turn writes nothing.
 *
 * How long the trace is, also after the end: result, 8 bytes; 0 where no turn ran or none is written. */
uint64_t snd_pcm_xfer_start_traced(uint8_t *state, size_t state_len, uint8_t *ring, size_t ring_len, uint32_t stream,
                                   const uint8_t *frames, size_t frames_len, uint64_t budget,
                                   const uint8_t *room, size_t room_len, uint8_t *message, size_t message_len);
uint64_t snd_turn_traced(uint8_t *ring, size_t ring_len, const uint8_t *frames, size_t frames_len,
                         uint8_t *room, size_t room_len, uint32_t kind, uint32_t slot, uint32_t status);
uint64_t snd_trace_length(const uint8_t *ring, size_t ring_len, uint8_t *result, size_t result_len);

/* A trace, anyone's, of any length. They use no store and write nothing.
 *
 * snd_trace_scan: 0, or 18 where it is empty, or a field of it has an unknown tag, a wrong length or is
 * cut. snd_judge: 0 exactly where some readings and some budget make the turns write that very trace;
 * 1 a mode that is none: the mode is how many descriptors a submission takes, SND_DIRECT or SND_INDIRECT;
 * then 18, over the whole trace; then 19.
 *
 * The two that end in _at answer the offset of the other's refusal, and 0 where it has none, as it is:
 * of 18 that of the field, 0 of an empty trace; of 19 that of the first byte through which no run's
 * trace agrees, or the length where the trace only ends early. */
uint64_t snd_trace_scan(const uint8_t *trace, size_t trace_len);
uint64_t snd_trace_scan_at(const uint8_t *trace, size_t trace_len);
uint64_t snd_judge(uint32_t mode, const uint8_t *trace, size_t trace_len);
uint64_t snd_judge_at(uint32_t mode, const uint8_t *trace, size_t trace_len);

/* Two traces compared, field by field; they need be no runs. They use no store.
 *
 * snd_compare writes every difference, in order, as an entry of snd_entry_size bytes at the front of
 * the list: position 8, kind 1 (0 only in the first, 1 only in the second, 2 the same tag with other
 * contents), tag 1, three numbers of the first's field, 4 each, and three of the second's; zeros where
 * there is none. What stands behind the entries stays. 18 the first is no whole fields, as
 * snd_trace_scan says; 18 the second is none; 20 exactly where the differences outnumber the whole
 * entries that the list has room for. A refusal leaves the list as it was. snd_differences answers how
 * many there are, as it is, and 0 where a trace is refused. */
uint64_t snd_entry_size(void);
uint64_t snd_differences(const uint8_t *first, size_t first_len, const uint8_t *second, size_t second_len);
uint64_t snd_compare(const uint8_t *first, size_t first_len, const uint8_t *second, size_t second_len,
                     uint8_t *list, size_t list_len);

/* A capture: a transfer that goes the other way, on a stream of direction 1. Its ring, turn order and
 * budget are a playback's, and drain turns and reads are the same; a playback's turn or offer on a
 * ring that runs a capture, and the other way round, is 1.
 *
 * The start takes how many whole periods are submitted, and of the recording only its length, which is
 * then that of every turn. SND_GOING, a request of set-up, or a refusal, in this order: 10 of message,
 * state or ring; 1 an inconsistent store; 8 also where a token is pending; set-up; 1 stream too high;
 * 12 under the guard; 1 a stream that is no input; 2 no parameters; 9 budget 0; 10 a recording that is
 * shorter than the periods.
 *
 * What the next turn submits (result: there 8, slot 8, length 8): 4 bytes of stream id for the device to
 * read, then a period of that length and 8 bytes of status for it to write, in a buffer of the host's
 * own, never in the recording. The buffer is the device's until the slot is freed.
 *
 * A turn takes what was seen. Kind 0 is a quiet reading, any other a completed slot with the length that
 * the queue reports as written, as it stands there, and the buffer's bytes: the payload, which is the
 * first written - 8, and then the status. 10 a recording that is not as long as at the start, or fewer
 * bytes lent than were written, as far as a period and 8 go; 1 no capture runs; neither counts. Then 6
 * another slot than the oldest; 17 written under 8 or above period + 8; 2 a status that is not ok; 9.
 * 17 and 2 free the slot and accept nothing. An accepted payload is copied behind what was kept before,
 * and no other byte of the recording changes, however it ends. */
uint64_t snd_pcm_capture_start(uint8_t *state, size_t state_len, uint8_t *ring, size_t ring_len, uint32_t stream,
                               uint64_t periods, const uint8_t *recording, size_t recording_len, uint64_t budget,
                               uint8_t *message, size_t message_len);
uint64_t snd_capture_offered(const uint8_t *ring, size_t ring_len, const uint8_t *recording, size_t recording_len,
                             uint8_t *result, size_t result_len);
uint64_t snd_capture_turn(uint8_t *ring, size_t ring_len, uint8_t *recording, size_t recording_len,
                          uint32_t kind, uint32_t slot, uint32_t written, const uint8_t *bytes, size_t bytes_len);

/* Reads of the ring. Result: a number, 8; of a slot its offset 8 and length 8; of the oldest there 8, slot 8.
 * Kept are the bytes that a capture has accepted: the recording's first. Accepted are the good completions,
 * k, of the transfer or capture that runs or ran last: the completions of its oldest slots with ok, of a
 * capture also with a good length. So k of a playback that failed is how much was spoken, also after drain
 * turns: its first k periods, of 2 the next is the one that failed, and those in flight at its end follow. */
uint64_t snd_ring_running(const uint8_t *ring, size_t ring_len, uint8_t *result, size_t result_len);
uint64_t snd_ring_in_flight(const uint8_t *ring, size_t ring_len, uint8_t *result, size_t result_len);
uint64_t snd_ring_free_descriptors(const uint8_t *ring, size_t ring_len, uint8_t *result, size_t result_len);
uint64_t snd_ring_turns_run(const uint8_t *ring, size_t ring_len, uint8_t *result, size_t result_len);
uint64_t snd_ring_stream(const uint8_t *ring, size_t ring_len, uint8_t *result, size_t result_len);
uint64_t snd_ring_carried(const uint8_t *ring, size_t ring_len, size_t slot, uint8_t *result, size_t result_len);
uint64_t snd_ring_oldest(const uint8_t *ring, size_t ring_len, uint8_t *result, size_t result_len);
uint64_t snd_ring_kept(const uint8_t *ring, size_t ring_len, uint8_t *result, size_t result_len);
uint64_t snd_ring_accepted(const uint8_t *ring, size_t ring_len, uint8_t *result, size_t result_len);

/* Submissions that do not wait: a period goes out, and the console goes on.
 *
 * snd_pcm_xfer_nb copies stream id, 4 bytes least first, and the payload, which is one whole period, to
 * the front of the lowest free place of `places`: SND_PLACES of places_len / SND_PLACES bytes each, or
 * SND_PLACES_INDIRECT of them, as the ring is. No other byte of it changes. 15 where all of them are
 * taken. Result: the place's number, 8, which is the token. These 4 + period bytes are for the device to
 * read, in one descriptor, then 8 bytes for it to write, as above. Lend the same store each time: what is
 * pending stands there and stays until it is finished.
 *
 * snd_pcm_xfer_mark takes what was seen on the queue: kind 0 is a quiet reading, any other a completed
 * token with its status. snd_pcm_xfer_ok takes a token that was marked, in any order, frees its place
 * and answers 0, or 2 with a status that is not ok. What is not pending, or is completed twice, is 6;
 * what is not marked yet 16. Both need no set-up and are never Busy; while a token is pending control
 * calls go on, and the start of a transfer is Busy. */
uint64_t snd_pcm_xfer_nb(uint8_t *state, size_t state_len, const uint8_t *ring, size_t ring_len, uint32_t stream,
                         const uint8_t *payload, size_t payload_len, uint8_t *places, size_t places_len,
                         uint8_t *message, size_t message_len, uint8_t *result, size_t result_len);
uint64_t snd_pcm_xfer_mark(uint8_t *state, size_t state_len, uint32_t kind, uint32_t token, uint32_t status);
uint64_t snd_pcm_xfer_ok(uint8_t *state, size_t state_len, uint32_t token);

/* Reads of what is pending. Result: how many tokens are, marked or not, 8; of a token, 0 to 31, its
 * state 8 (0 free, 1 waits, 2 marked) and 8 of the status with which it was marked. A token of 32 or
 * more is 1. */
uint64_t snd_pending_count(const uint8_t *state, size_t state_len, uint8_t *result, size_t result_len);
uint64_t snd_pending_token(const uint8_t *state, size_t state_len, size_t token, uint8_t *result, size_t result_len);

/* An event. Result: code 4, data 4. */
uint64_t snd_latest_notification(const uint8_t *event, size_t event_len, uint8_t *result, size_t result_len);

/* By the version of VirtIO (SND_VIRTIO_1_2 or 1_3; 1 for another number) and the negotiated features of
 * the device. With SND_F_CTLS in 1.3 it has control elements; 1.3 without is as 1.2. Its configuration
 * is just 12 bytes, 16 with control elements (else 10: lend the first 12 of a longer one). Result:
 * jacks 4, streams 4, chmaps 4 and, with them, controls 4. An event is as above; with them, code 0x1200
 * gives code 4, control 4, mask 4. 10 comes first, then 1. */
uint64_t snd_config(const uint8_t *config, size_t config_len, uint32_t version, uint64_t features,
                    uint8_t *result, size_t result_len);
uint64_t snd_latest_notification_in(const uint8_t *event, size_t event_len, uint32_t version, uint64_t features,
                                    uint8_t *result, size_t result_len);

/* A WAVE file: what it holds (result: offset 8 and length 8 of its data chunk in the file, then
 * channels 1, format 1, rate 1 as snd_pcm_set_params takes them), or 13 where it is no WAVE file, 14
 * where its sound is not taken; and a file written at the front of a slice, 44 bytes and the frames,
 * padded to even: 14 first, then 10 where the slice is too short. They use no store. */
uint64_t snd_wav_read(const uint8_t *file, size_t file_len, uint8_t *result, size_t result_len);
uint64_t snd_wav_write(uint8_t channels, uint8_t format, uint8_t rate, const uint8_t *frames, size_t frames_len,
                       uint8_t *file, size_t file_len);

/* The model device, for tests and demonstrations: made from three tables of records as they stand in
 * an answer. control: result has the answer's length, 8. payload: result has its offset 8 and length 8
 * in the request. params: there 8, then the 24 bytes. played: 8. */
uint64_t snd_model_new(uint8_t *model, size_t model_len, const uint8_t *jacks, size_t jacks_len,
                       const uint8_t *pcms, size_t pcms_len, const uint8_t *maps, size_t maps_len);
uint64_t snd_model_control(uint8_t *model, size_t model_len, const uint8_t *request, size_t request_len,
                           uint8_t *page, size_t page_len, uint8_t *result, size_t result_len);
uint64_t snd_model_transfer(uint8_t *model, size_t model_len, const uint8_t *request, size_t request_len,
                            uint8_t *answer, size_t answer_len);
uint64_t snd_model_payload(const uint8_t *model, size_t model_len, const uint8_t *request, size_t request_len,
                           uint8_t *result, size_t result_len);
uint64_t snd_model_params(const uint8_t *model, size_t model_len, uint32_t stream, uint8_t *result, size_t result_len);
uint64_t snd_model_played(const uint8_t *model, size_t model_len, uint32_t stream, uint8_t *result, size_t result_len);

#ifdef __cplusplus
}
#endif
#endif
