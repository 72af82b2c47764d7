/*
 * Prints every size, offset and number of the wire as the system's header has them, in the lines
 * that the program `numbers` prints of ours.
 */
#include <stddef.h>
#include <stdio.h>
#include <linux/virtio_snd.h>

#define SIZE(s) printf("virtio_snd_" #s " %zu\n", sizeof(struct virtio_snd_##s))
#define FIELD(s, f) \
	printf("virtio_snd_" #s "." #f " %zu %zu\n", offsetof(struct virtio_snd_##s, f), \
	       sizeof(((struct virtio_snd_##s *)0)->f))
#define NUMBER(n) printf("VIRTIO_SND_" #n " %llu\n", (unsigned long long)VIRTIO_SND_##n)
#define BIT(n) printf("1 << VIRTIO_SND_" #n " %llu\n", 1ULL << VIRTIO_SND_##n)
#define MASKED(n) (NUMBER(n), printf("1 << %llu\n", 1ULL << VIRTIO_SND_##n))
#define RATE(hz) (MASKED(PCM_RATE_##hz), printf("Hz " #hz "\n"))

static void records(void)
{
	SIZE(query_info);
	FIELD(query_info, hdr.code);
	FIELD(query_info, start_id);
	FIELD(query_info, count);
	FIELD(query_info, size);
	SIZE(jack_remap);
	FIELD(jack_remap, hdr.hdr.code);
	FIELD(jack_remap, hdr.jack_id);
	FIELD(jack_remap, association);
	FIELD(jack_remap, sequence);
	SIZE(pcm_hdr);
	FIELD(pcm_hdr, hdr.code);
	FIELD(pcm_hdr, stream_id);
	SIZE(pcm_set_params);
	FIELD(pcm_set_params, hdr.hdr.code);
	FIELD(pcm_set_params, hdr.stream_id);
	FIELD(pcm_set_params, buffer_bytes);
	FIELD(pcm_set_params, period_bytes);
	FIELD(pcm_set_params, features);
	FIELD(pcm_set_params, channels);
	FIELD(pcm_set_params, format);
	FIELD(pcm_set_params, rate);
	FIELD(pcm_set_params, padding);
	SIZE(jack_info);
	FIELD(jack_info, hdr.hda_fn_nid);
	FIELD(jack_info, features);
	FIELD(jack_info, hda_reg_defconf);
	FIELD(jack_info, hda_reg_caps);
	FIELD(jack_info, connected);
	FIELD(jack_info, padding);
	SIZE(pcm_info);
	FIELD(pcm_info, hdr.hda_fn_nid);
	FIELD(pcm_info, features);
	FIELD(pcm_info, formats);
	FIELD(pcm_info, rates);
	FIELD(pcm_info, direction);
	FIELD(pcm_info, channels_min);
	FIELD(pcm_info, channels_max);
	FIELD(pcm_info, padding);
	SIZE(chmap_info);
	FIELD(chmap_info, hdr.hda_fn_nid);
	FIELD(chmap_info, direction);
	FIELD(chmap_info, channels);
	FIELD(chmap_info, positions);
	SIZE(pcm_xfer);
	FIELD(pcm_xfer, stream_id);
	SIZE(pcm_status);
	FIELD(pcm_status, status);
	FIELD(pcm_status, latency_bytes);
	SIZE(event);
	FIELD(event, hdr.code);
	FIELD(event, data);
	SIZE(config);
	FIELD(config, jacks);
	FIELD(config, streams);
	FIELD(config, chmaps);
}

static void codes(void)
{
	NUMBER(R_JACK_INFO);
	NUMBER(R_JACK_REMAP);
	NUMBER(R_PCM_INFO);
	NUMBER(R_PCM_SET_PARAMS);
	NUMBER(R_PCM_PREPARE);
	NUMBER(R_PCM_RELEASE);
	NUMBER(R_PCM_START);
	NUMBER(R_PCM_STOP);
	NUMBER(R_CHMAP_INFO);
	NUMBER(R_JACK_INFO);
	NUMBER(R_JACK_REMAP);
	NUMBER(R_PCM_INFO);
	NUMBER(R_PCM_SET_PARAMS);
	NUMBER(R_PCM_PREPARE);
	NUMBER(R_PCM_RELEASE);
	NUMBER(R_PCM_START);
	NUMBER(R_PCM_STOP);
	NUMBER(R_CHMAP_INFO);
	NUMBER(EVT_JACK_CONNECTED);
	NUMBER(EVT_JACK_DISCONNECTED);
	NUMBER(EVT_PCM_PERIOD_ELAPSED);
	NUMBER(EVT_PCM_XRUN);
	NUMBER(S_OK);
	NUMBER(S_BAD_MSG);
	NUMBER(S_NOT_SUPP);
	NUMBER(S_IO_ERR);
	NUMBER(S_OK);
	NUMBER(S_BAD_MSG);
	NUMBER(S_NOT_SUPP);
	NUMBER(S_IO_ERR);
	NUMBER(D_OUTPUT);
	NUMBER(D_INPUT);
}

static void formats(void)
{
	MASKED(PCM_FMT_IMA_ADPCM);
	MASKED(PCM_FMT_MU_LAW);
	MASKED(PCM_FMT_A_LAW);
	MASKED(PCM_FMT_S8);
	MASKED(PCM_FMT_U8);
	MASKED(PCM_FMT_S16);
	MASKED(PCM_FMT_U16);
	MASKED(PCM_FMT_S18_3);
	MASKED(PCM_FMT_U18_3);
	MASKED(PCM_FMT_S20_3);
	MASKED(PCM_FMT_U20_3);
	MASKED(PCM_FMT_S24_3);
	MASKED(PCM_FMT_U24_3);
	MASKED(PCM_FMT_S20);
	MASKED(PCM_FMT_U20);
	MASKED(PCM_FMT_S24);
	MASKED(PCM_FMT_U24);
	MASKED(PCM_FMT_S32);
	MASKED(PCM_FMT_U32);
	MASKED(PCM_FMT_FLOAT);
	MASKED(PCM_FMT_FLOAT64);
	MASKED(PCM_FMT_DSD_U8);
	MASKED(PCM_FMT_DSD_U16);
	MASKED(PCM_FMT_DSD_U32);
	MASKED(PCM_FMT_IEC958_SUBFRAME);
}

static void rates(void)
{
	RATE(5512);
	RATE(8000);
	RATE(11025);
	RATE(16000);
	RATE(22050);
	RATE(32000);
	RATE(44100);
	RATE(48000);
	RATE(64000);
	RATE(88200);
	RATE(96000);
	RATE(176400);
	RATE(192000);
	RATE(384000);
}

static void flags(void)
{
	BIT(JACK_F_REMAP);
	BIT(PCM_F_SHMEM_HOST);
	BIT(PCM_F_SHMEM_GUEST);
	BIT(PCM_F_MSG_POLLING);
	BIT(PCM_F_EVT_SHMEM_PERIODS);
	BIT(PCM_F_EVT_XRUNS);
}

static void positions(void)
{
	NUMBER(CHMAP_MAX_SIZE);
	NUMBER(CHMAP_NONE);
	NUMBER(CHMAP_NA);
	NUMBER(CHMAP_MONO);
	NUMBER(CHMAP_FL);
	NUMBER(CHMAP_FR);
	NUMBER(CHMAP_RL);
	NUMBER(CHMAP_RR);
	NUMBER(CHMAP_FC);
	NUMBER(CHMAP_LFE);
	NUMBER(CHMAP_SL);
	NUMBER(CHMAP_SR);
	NUMBER(CHMAP_RC);
	NUMBER(CHMAP_FLC);
	NUMBER(CHMAP_FRC);
	NUMBER(CHMAP_RLC);
	NUMBER(CHMAP_RRC);
	NUMBER(CHMAP_FLW);
	NUMBER(CHMAP_FRW);
	NUMBER(CHMAP_FLH);
	NUMBER(CHMAP_FCH);
	NUMBER(CHMAP_FRH);
	NUMBER(CHMAP_TC);
	NUMBER(CHMAP_TFL);
	NUMBER(CHMAP_TFR);
	NUMBER(CHMAP_TFC);
	NUMBER(CHMAP_TRL);
	NUMBER(CHMAP_TRR);
	NUMBER(CHMAP_TRC);
	NUMBER(CHMAP_TFLC);
	NUMBER(CHMAP_TFRC);
	NUMBER(CHMAP_TSL);
	NUMBER(CHMAP_TSR);
	NUMBER(CHMAP_LLFE);
	NUMBER(CHMAP_RLFE);
	NUMBER(CHMAP_BC);
	NUMBER(CHMAP_BLC);
	NUMBER(CHMAP_BRC);
}

int main(void)
{
	records();
	codes();
	formats();
	rates();
	flags();
	positions();
	return 0;
}
