/* Concealment of lost CELT frames, for C and C++.

   Build the library with `rt lib` in crates/vikkozhan and link crates/vikkozhan/out/libvikkozhan.a.
   It is for x86-64 (x86-64-v2: SSE4.2), keeps no memory between calls and allocates none, so any
   number of threads may call it at once, each on buffers of its own. A call takes up to 175 kB of
   stack: a thread of its own wants 256 kB. */
#ifndef VIKKOZHAN_H
#define VIKKOZHAN_H

#include <stddef.h>
#include <stdint.h>

#ifdef __cplusplus
extern "C" {
#endif

/* ---- Version ---- */

#define VIKKOZHAN_VERSION_MAJOR 1
#define VIKKOZHAN_VERSION_MINOR 0
#define VIKKOZHAN_VERSION_PATCH 0
#define VIKKOZHAN_VERSION_STRING "vikkozhan 1.0.0"

/* The version that this header describes, as vikkozhan_version returns it. */
#define VIKKOZHAN_VERSION \
    (VIKKOZHAN_VERSION_MAJOR * 65536u + VIKKOZHAN_VERSION_MINOR * 256u + VIKKOZHAN_VERSION_PATCH)

/* The version of the library that is linked: major * 65536 + minor * 256 + patch. Structs and
   functions of this header are those of the library while the major numbers are equal. */
uint32_t vikkozhan_version(void);

/* ---- Numbers: acceptance, or the first reason that applies ---- */

enum {
    VIKKOZHAN_OK = 0,
    VIKKOZHAN_BAD_LM = 1,
    VIKKOZHAN_BAD_CHANNELS = 2,
    VIKKOZHAN_BAD_START = 3,
    VIKKOZHAN_BAD_END = 4,
    VIKKOZHAN_BAD_DOWNSAMPLE = 5,
    VIKKOZHAN_COUNT_FULL = 6,
    VIKKOZHAN_BAD_LAG = 7,
    VIKKOZHAN_BAD_FILTER = 8,
    VIKKOZHAN_BAD_HISTORY = 9,
    VIKKOZHAN_SHORT_PCM = 10,
    VIKKOZHAN_CUT_RECORD = 11 /* the concealment program's alone */
};

/* What a number means, in English, for a log. Never null; a number that no call gives has a text too. */
static inline const char *vikkozhan_strerror(int number) {
    static const char *const texts[] = {
        "accepted",
        "lm above 3",
        "channels not 1 or 2",
        "start above 20",
        "end not above start, or above 21",
        "downsample not 1, 2, 3, 4 or 6",
        "loss count 4,294,967,295",
        "start 0, loss count 1 to 4, lag outside 102 to 720",
        "filter period outside 15 to 1,022, or tapset above 2",
        "history not 4,336 samples",
        "PCM buffer shorter than needed",
        "the file's last record is cut short"};
    if (number < 0 || number >= (int)(sizeof texts / sizeof texts[0])) {
        return "no number of this version";
    }
    return texts[number];
}

/* ---- A decoder's state ---- */

#define VIKKOZHAN_ENERGIES 50          /* 25 of each channel */
#define VIKKOZHAN_COEFFICIENTS 48      /* 24 of each channel */
#define VIKKOZHAN_HISTORY_SAMPLES 4336 /* 2,168 of each channel, in mono too */
#define VIKKOZHAN_PCM_SAMPLES 1920     /* room for the PCM of any frame */

/* What a decoder carries from frame to frame, but for the history, which lies beside it. Of each
   array channel 0's values come first; what belongs to an unused channel is carried along. 161 words
   of 32 bits with no padding, those of a record ahead of its history. */
typedef struct VikkozhanState {
    uint32_t lm;         /* the frame is N = 120 * 2^lm samples at 48 kHz: 0 to 3 */
    uint32_t channels;   /* 1 or 2 */
    uint32_t start;      /* first coded band: 0 for CELT alone */
    uint32_t end;        /* one past the last coded band: 1 to 21, above start */
    uint32_t downsample; /* 1, 2, 3, 4, 6 for 48, 24, 16, 12, 8 kHz */
    uint32_t loss_count; /* frames lost in a row so far: a decoded frame sets it to 0 */
    uint32_t seed;       /* of the noise */
    uint32_t lag;        /* pitch lag, from the first loss on */
    uint32_t filter_period; /* post-filter: 15 to 1,022; 15 where none was sent */
    float filter_gain;      /* 0 where none was sent */
    uint32_t filter_tapset; /* 0, 1 or 2 */
    float coarse[VIKKOZHAN_ENERGIES];         /* band energies, base-2 logarithms */
    float background[VIKKOZHAN_ENERGIES];     /* of the background noise */
    float memories[2];                        /* de-emphasis */
    float predictor[VIKKOZHAN_COEFFICIENTS];  /* from the first loss on */
} VikkozhanState;

/* By which path a frame was made. */
enum {
    VIKKOZHAN_NONE = 0, /* refused: none was made */
    VIKKOZHAN_PITCH = 1,
    VIKKOZHAN_NOISE = 2
};

typedef struct VikkozhanAnswer {
    uint32_t number;  /* VIKKOZHAN_OK, or why the call was refused */
    uint32_t kind;    /* VIKKOZHAN_PITCH or VIKKOZHAN_NOISE; VIKKOZHAN_NONE with any refusal */
    uint32_t samples; /* floats written to pcm: channels * N / downsample; 0 with any refusal */
} VikkozhanAnswer;

/* ---- Calls ---- */

/* Conceals one lost frame.

   Reads and writes `state`, and `history`, which is VIKKOZHAN_HISTORY_SAMPLES floats: of each channel
   2,048 samples ahead of de-emphasis, oldest first and scaled by 32,768, and then 120 of overlap.
   Writes the frame's samples, interleaved, to the front of `pcm`, full scale 1.0; the rest of a longer
   buffer is untouched. `pcm` need not be set beforehand. `answer` is written whole.

   Returns the answer's number. With any but VIKKOZHAN_OK state, history and pcm are as they were.
   VIKKOZHAN_BAD_HISTORY and VIKKOZHAN_SHORT_PCM are told from the lengths, counted in floats.

   What nothing can check across languages is the caller's: no pointer may be null, each is aligned as
   its type asks and good for its struct or its length, and no two of the four overlap. Any bits may
   stand in the state and in the history, NaN and infinity too. */
int vikkozhan_decode_lost(VikkozhanState *state, float *history, size_t history_len, float *pcm,
                          size_t pcm_len, VikkozhanAnswer *answer);

/* A record of the tent's file: a state and its history, 4,497 little-endian words of 32 bits. */
#define VIKKOZHAN_RECORD_BYTES 17988

/* Number, kind and sample count, 4 bytes each, and room for the samples of any frame. */
#define VIKKOZHAN_HEAD_BYTES 7692

/* Conceals one lost frame whose state is a record. `record` becomes the record after the loss; `head`
   starts with number, kind and sample count, 4 bytes each, and the samples, f32, all little-endian.
   Returns how many bytes of `head` those are; the rest of `head` is untouched. With any number but 0
   the record stays as it was, and kind and sample count are 0.

   Returns 0 and changes nothing unless `record_len` is VIKKOZHAN_RECORD_BYTES and `head_len` at least
   VIKKOZHAN_HEAD_BYTES. Neither pointer may be null, and the two buffers may not overlap. */
size_t vikkozhan_answer(uint8_t *record, size_t record_len, uint8_t *head, size_t head_len);

#ifdef __cplusplus
}
#endif

#endif
