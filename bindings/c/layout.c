/* The structs of vikkozhan.h lie in memory as document 01 orders a state's words: a record's first
   644 bytes, byte for byte. Compiling this file is the test. */
#include "vikkozhan.h"

#if defined(__cplusplus)
#define SAME(a, b) static_assert((a) == (b), #a " is not " #b)
#else
#define SAME(a, b) _Static_assert((a) == (b), #a " is not " #b)
#endif

#define PLACE(field, byte) SAME(offsetof(VikkozhanState, field), byte)

SAME(sizeof(float), 4);
SAME(sizeof(int), 4); /* the number that a call returns */

PLACE(lm, 0);
PLACE(channels, 4);
PLACE(start, 8);
PLACE(end, 12);
PLACE(downsample, 16);
PLACE(loss_count, 20);
PLACE(seed, 24);
PLACE(lag, 28);
PLACE(filter_period, 32);
PLACE(filter_gain, 36);
PLACE(filter_tapset, 40);
PLACE(coarse, 44);
PLACE(background, 244);
PLACE(memories, 444);
PLACE(predictor, 452);
SAME(sizeof(VikkozhanState), 644);
SAME(sizeof(VikkozhanState) + 4 * VIKKOZHAN_HISTORY_SAMPLES, VIKKOZHAN_RECORD_BYTES);

SAME(offsetof(VikkozhanAnswer, number), 0);
SAME(offsetof(VikkozhanAnswer, kind), 4);
SAME(offsetof(VikkozhanAnswer, samples), 8);
SAME(sizeof(VikkozhanAnswer), 12);
SAME(sizeof(VikkozhanAnswer) + 4 * VIKKOZHAN_PCM_SAMPLES, VIKKOZHAN_HEAD_BYTES);
