/* A record of the tent's file as a state and its history, and back, on a little-endian machine. */
#ifndef VIKKOZHAN_RECORD_H
#define VIKKOZHAN_RECORD_H

#include <string.h>

#include "vikkozhan.h"

typedef struct VikkozhanDecoder {
    VikkozhanState state;
    float history[VIKKOZHAN_HISTORY_SAMPLES];
} VikkozhanDecoder;

/* The words of floats as the file has them: every NaN is 7FC00000. */
static inline void vikkozhan_put_floats(uint8_t *out, const float *x, size_t n) {
    for (size_t i = 0; i < n; i++) {
        uint32_t word = 0x7fc00000u;
        if (x[i] == x[i]) {
            memcpy(&word, &x[i], sizeof word);
        }
        memcpy(out + 4 * i, &word, sizeof word);
    }
}

/* The struct lies in memory as the record does. */
static inline void vikkozhan_read_record(VikkozhanDecoder *d, const uint8_t *record) {
    memcpy(&d->state, record, sizeof d->state);
    memcpy(d->history, record + sizeof d->state, sizeof d->history);
}

/* Words leave as they are, floats by their own function. */
static inline void vikkozhan_write_record(uint8_t *record, const VikkozhanDecoder *d) {
    const VikkozhanState *s = &d->state;
    memcpy(record, s, sizeof *s);
    vikkozhan_put_floats(record + offsetof(VikkozhanState, filter_gain), &s->filter_gain, 1);
    vikkozhan_put_floats(record + offsetof(VikkozhanState, coarse), s->coarse, VIKKOZHAN_ENERGIES);
    vikkozhan_put_floats(record + offsetof(VikkozhanState, background), s->background, VIKKOZHAN_ENERGIES);
    vikkozhan_put_floats(record + offsetof(VikkozhanState, memories), s->memories, 2);
    vikkozhan_put_floats(record + offsetof(VikkozhanState, predictor), s->predictor, VIKKOZHAN_COEFFICIENTS);
    vikkozhan_put_floats(record + sizeof *s, d->history, VIKKOZHAN_HISTORY_SAMPLES);
}

#endif
