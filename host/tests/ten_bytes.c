/*
 * A host in C: sets the driver up against the model device and plays an announcement of ten bytes in periods of four; then the device
 * refuses; then a microphone is recorded; then an announcement that fails writes a trace, which is judged. Prints what it was sent, what it accepted and what it said; the test beside host/snd compares that with the text it expects.
 */
#include <stdio.h>
#include <stdlib.h>
#include <string.h>

#include "snd.h"

static uint8_t state[SND_STATE_SIZE];
static uint8_t ring[SND_RING_SIZE];
static uint8_t model[SND_MODEL_SIZE];
static uint8_t page[SND_PAGE_SIZE];
static uint8_t message[SND_MESSAGE_SIZE];
static uint8_t result[SND_RESULT_SIZE];

static const uint8_t frames[10] = "ten bytes.";
enum { STREAM = 0, INPUT = 1, PERIOD = 4, BUDGET = 4 };

/* The number of 8 bytes at a place of the result. */
static uint64_t number_at(size_t at)
{
	uint64_t number = 0;
	size_t i;

	for (i = 8; i > 0; i--)
		number = number << 8 | result[at + i - 1];
	return number;
}

static void want(const char *what, uint64_t answer, uint64_t wanted)
{
	if (answer == wanted)
		return;
	printf("%s: answered %llu, not %llu\n", what, (unsigned long long)answer, (unsigned long long)wanted);
	exit(1);
}

/* An answer as a log has it: its number and, of 2 and 3, what the device said. */
static const char *named(uint64_t answer)
{
	static char text[64];
	uint32_t number = SND_NUMBER(answer), status = SND_STATUS(answer);

	if (number != SND_IO_ERROR && number != SND_UNSUPPORTED)
		snprintf(text, sizeof text, "%lu", (unsigned long)number);
	else if (status == SND_NO_STATUS)
		snprintf(text, sizeof text, "%lu, by no status", (unsigned long)number);
	else
		snprintf(text, sizeof text, "%lu, the device said 0x%04lx", (unsigned long)number, (unsigned long)status);
	return text;
}

/* Sends what a call yielded, and feeds the answers until its result. */
static void finish(const char *call, uint64_t answer)
{
	printf("%s:", call);
	while (SND_NUMBER(answer) >= SND_SEND && SND_NUMBER(answer) < SND_GOING) {
		size_t length = SND_NUMBER(answer) - SND_SEND;

		printf(" %02x%02x/%zu", message[1], message[0], length);
		want("model", snd_model_control(model, sizeof model, message, length, page, sizeof page, result, sizeof result), SND_OK);
		answer = snd_feed(state, sizeof state, page, sizeof page, message, sizeof message, result, sizeof result);
	}
	printf(" -> %s\n", named(answer));
}

/* Hands the device the offered period; it completes it at once. Returns its status. */
static uint32_t submit(const uint8_t *period, size_t length)
{
	uint8_t request[4 + sizeof frames] = { STREAM };
	uint8_t answer[8];

	memcpy(request + 4, period, length);
	want("transfer", snd_model_transfer(model, sizeof model, request, 4 + length, answer, sizeof answer), SND_OK);
	want("payload", snd_model_payload(model, sizeof model, request, 4 + length, result, sizeof result), SND_OK);
	printf("accepted: %.*s\n", (int)number_at(8), (const char *)request + number_at(0));
	return answer[0] | (uint32_t)answer[1] << 8 | (uint32_t)answer[2] << 16 | (uint32_t)answer[3] << 24;
}

/* One turn: submit what is offered, then tell what was completed. */
static uint64_t turn(void)
{
	uint32_t kind = 0, slot = 0, status = 0;

	want("offered", snd_offered(ring, sizeof ring, frames, sizeof frames, result, sizeof result), SND_OK);
	if (number_at(0)) {
		kind = 1;
		slot = (uint32_t)number_at(8);
		status = submit(frames + number_at(16), (size_t)number_at(24));
	}
	return snd_turn(ring, sizeof ring, frames, sizeof frames, kind, slot, status);
}

/* The device refuses a stop with a status; a page of zeros has one too; what no status caused says so. */
static void refused(uint32_t status)
{
	uint64_t answer = snd_pcm_stop(state, sizeof state, ring, sizeof ring, STREAM, message, sizeof message, result, sizeof result);

	want("stop", answer, SND_SEND + 8);
	memset(page, 0, sizeof page);
	page[0] = (uint8_t)status;
	page[1] = (uint8_t)(status >> 8);
	answer = snd_feed(state, sizeof state, page, sizeof page, message, sizeof message, result, sizeof result);
	printf("stop: -> %s\n", named(answer));
	want("status", SND_STATUS(answer), status);
}

static void set_up(void)
{
	/* an output and an input stream of one or two channels */
	static const uint8_t pcm[64] = { [25] = 1, [26] = 2, [32 + 24] = 1, [32 + 25] = 1, [32 + 26] = 2 };

	want("model", snd_model_new(model, sizeof model, pcm, 0, pcm, sizeof pcm, pcm, 0), SND_OK);
	want("new", snd_new(state, sizeof state, 0, 2, 0), SND_OK);
	want("ring", snd_ring_new(ring, sizeof ring), SND_OK);
	finish("set parameters", snd_pcm_set_params(state, sizeof state, ring, sizeof ring, STREAM, 2 * PERIOD, PERIOD, 0, 2, 5, 7,
						    message, sizeof message, result, sizeof result));
	finish("start", snd_pcm_start(state, sizeof state, ring, sizeof ring, STREAM, message, sizeof message, result, sizeof result));
}

/* A turn of a capture: the microphone has heard this, and right behind it stands the status. Without room nothing comes back. */
static uint64_t heard(uint8_t *recording, size_t size, const char *payload, uint32_t written)
{
	uint8_t buffer[PERIOD + 8] = { 0 };
	size_t length = strlen(payload);

	memcpy(buffer, payload, length);
	buffer[length + 1] = 0x80;
	want("offered", snd_capture_offered(ring, sizeof ring, recording, size, result, sizeof result), SND_OK);
	if (!number_at(0))
		return snd_capture_turn(ring, sizeof ring, recording, size, 0, 0, 0, buffer, 0);
	want("room", number_at(16), PERIOD);
	return snd_capture_turn(ring, sizeof ring, recording, size, 1, (uint32_t)number_at(8), written, buffer, sizeof buffer);
}

static void recorded(const uint8_t *recording, size_t size, uint64_t answer)
{
	want("kept", snd_ring_kept(ring, sizeof ring, result, sizeof result), SND_OK);
	printf("recorded: %.*s, kept %llu -> %s\n", (int)size, (const char *)recording, (unsigned long long)number_at(0), named(answer));
}

/* Three periods, of which one is short; then a length that cannot be. */
static void record(void)
{
	uint8_t recording[3 * PERIOD];
	uint64_t answer;

	finish("set parameters", snd_pcm_set_params(state, sizeof state, ring, sizeof ring, INPUT, 2 * PERIOD, PERIOD, 0, 2, 5, 7,
						    message, sizeof message, result, sizeof result));
	memset(recording, '-', sizeof recording);
	answer = snd_pcm_capture_start(state, sizeof state, ring, sizeof ring, STREAM, 3, recording, sizeof recording, BUDGET, message, sizeof message);
	printf("capture of an output: -> %s\n", named(answer));
	answer = snd_pcm_capture_start(state, sizeof state, ring, sizeof ring, INPUT, 3, recording, sizeof recording, BUDGET, message, sizeof message);
	want("capture", answer, SND_GOING);
	want("turn", heard(recording, sizeof recording, "gate", 12), SND_GOING);
	want("turn", heard(recording, sizeof recording, " t", 10), SND_GOING);
	want("turn", heard(recording, sizeof recording, "wo", 10), SND_GOING);
	recorded(recording, sizeof recording, heard(recording, sizeof recording, "", 0));
	answer = snd_pcm_capture_start(state, sizeof state, ring, sizeof ring, INPUT, 3, recording, sizeof recording, BUDGET, message, sizeof message);
	want("capture", answer, SND_GOING);
	want("turn", heard(recording, sizeof recording, "door", 12), SND_GOING);
	recorded(recording, sizeof recording, heard(recording, sizeof recording, "five", PERIOD + 9));
}

/* The same announcement, whose second period fails, writes a trace; with another answer at its end no run would. */
static void traced(void)
{
	uint8_t room[19 + 20 * 3];
	uint64_t answer;
	size_t length;

	answer = snd_pcm_xfer_start_traced(state, sizeof state, ring, sizeof ring, STREAM, frames, sizeof frames, BUDGET, room, sizeof room,
					   message, sizeof message);
	want("traced start", answer, SND_GOING);
	answer = snd_turn_traced(ring, sizeof ring, frames, sizeof frames, room, sizeof room, 1, 0, 0x8000);
	want("traced turn", answer, SND_GOING);
	answer = snd_turn_traced(ring, sizeof ring, frames, sizeof frames, room, sizeof room, 1, 1, 0x8003);
	printf("traced: -> %s\n", named(answer));
	want("trace", snd_trace_length(ring, sizeof ring, result, sizeof result), SND_OK);
	length = (size_t)number_at(0);
	want("judge", snd_judge(3, room, length), SND_OK);
	room[length - 1] = SND_OK;
	printf("judged: %s at %llu of %zu bytes\n", named(snd_judge(3, room, length)), (unsigned long long)snd_judge_at(3, room, length), length);
	want("scan", snd_trace_scan(room, length - 1), SND_BAD_TRACE);
	printf("scanned: %llu\n", (unsigned long long)snd_trace_scan_at(room, length - 1));
}

int main(void)
{
	static const uint8_t event[8] = { 2, 16 };
	uint64_t answer;

	want("size", snd_state_size(), SND_STATE_SIZE);
	want("size", snd_ring_size(), SND_RING_SIZE);
	want("size", snd_message_size(), SND_MESSAGE_SIZE);
	want("size", snd_result_size(), SND_RESULT_SIZE);
	want("size", snd_page_size(), SND_PAGE_SIZE);
	want("size", snd_model_size(), SND_MODEL_SIZE);
	set_up();
	answer = snd_pcm_xfer_start(state, sizeof state, ring, sizeof ring, STREAM, frames, sizeof frames, BUDGET, message, sizeof message);
	want("transfer", answer, SND_GOING);
	while (SND_NUMBER(answer = turn()) == SND_GOING)
		;
	want("turn", answer, SND_OK);
	want("turns", snd_ring_turns_run(ring, sizeof ring, result, sizeof result), SND_OK);
	printf("turns: %llu of %d\n", (unsigned long long)number_at(0), BUDGET);
	finish("stop", snd_pcm_stop(state, sizeof state, ring, sizeof ring, STREAM, message, sizeof message, result, sizeof result));
	refused(0x8001);
	refused(0x8002);
	refused(0x8003);
	refused(0);
	printf("event: -> %s\n", named(snd_latest_notification(event, sizeof event, result, sizeof result)));
	record();
	traced();
	return 0;
}
