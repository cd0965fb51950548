/* test RECORDS ANSWERS: holds both calls to stored answers on every record of a file, and the direct
   call to its own promises: a refusal leaves everything, the rest of a longer buffer stays, threads do
   not meet. Prints what it did; exits with 1 at the first thing that is not so. */
#include <pthread.h>
#include <stdio.h>
#include <stdlib.h>
#include <string.h>

#include "record.h"
#include "vikkozhan.h"

#define THREADS 16
#define ROUNDS 4 /* how often each thread goes through its records */

typedef VikkozhanDecoder Decoder;

static void check(int so, const char *what) {
    if (!so) {
        fprintf(stderr, "not so: %s\n", what);
        exit(1);
    }
}

static int conceal(Decoder *d, float *pcm, size_t room, VikkozhanAnswer *answer) {
    return vikkozhan_decode_lost(&d->state, d->history, VIKKOZHAN_HISTORY_SAMPLES, pcm, room, answer);
}

/* One loss of a record by the direct call, written as the record's call writes it. */
static size_t answer_directly(uint8_t *record, uint8_t *head) {
    static __thread Decoder d;
    float pcm[VIKKOZHAN_PCM_SAMPLES];
    VikkozhanAnswer a;
    vikkozhan_read_record(&d, record);
    int number = conceal(&d, pcm, VIKKOZHAN_PCM_SAMPLES, &a);
    check(number == (int)a.number, "the number returned is the answer's");
    memcpy(head, &a, sizeof a);
    vikkozhan_put_floats(head + sizeof a, pcm, a.samples);
    if (number == VIKKOZHAN_OK) {
        vikkozhan_write_record(record, &d);
    } else {
        check(memcmp(&d, record, sizeof d) == 0, "a refused state and its history stay as they were");
    }
    return sizeof a + 4 * a.samples;
}

/* A call's answer to a record and the record after it, as the file of answers has them. */
static size_t answer_as(const char *call, const uint8_t *answers, size_t head_bytes, const uint8_t *head,
                        const uint8_t *record) {
    check(memcmp(answers, head, head_bytes) == 0, call);
    check(memcmp(answers + head_bytes, record, VIKKOZHAN_RECORD_BYTES) == 0, call);
    return head_bytes + VIKKOZHAN_RECORD_BYTES;
}

/* Both calls on one record give the next of the stored answers; returns how long that is. */
static size_t same_answer(const uint8_t *record, const uint8_t *answers, size_t *accepted) {
    uint8_t one[VIKKOZHAN_RECORD_BYTES], other[VIKKOZHAN_RECORD_BYTES];
    uint8_t head[VIKKOZHAN_HEAD_BYTES], direct[VIKKOZHAN_HEAD_BYTES];
    VikkozhanAnswer stored;
    memcpy(&stored, answers, sizeof stored);
    *accepted += stored.number == VIKKOZHAN_OK;
    memcpy(one, record, sizeof one);
    memcpy(other, record, sizeof other);
    size_t n = vikkozhan_answer(one, sizeof one, head, sizeof head);
    size_t m = answer_directly(other, direct);
    check(n == m && n == sizeof stored + 4 * stored.samples, "as many samples as stored");
    answer_as("the direct call's answer is the stored one", answers, n, direct, other);
    return answer_as("the record call's answer is the stored one", answers, n, head, one);
}

/* A mono decoder at 8,000 Hz that has heard nothing yet. */
static void silent(Decoder *d) {
    memset(d, 0, sizeof *d);
    d->state.channels = 1;
    d->state.end = 21;
    d->state.downsample = 6;
    d->state.filter_period = 15;
}

/* A call with one thing wrong: its number, and nothing else changed. */
static void refused(Decoder *d, size_t history_len, size_t room, int number) {
    Decoder before = *d;
    float pcm[VIKKOZHAN_PCM_SAMPLES];
    float untouched[VIKKOZHAN_PCM_SAMPLES];
    VikkozhanAnswer a = {99, 99, 99};
    for (size_t i = 0; i < VIKKOZHAN_PCM_SAMPLES; i++) {
        pcm[i] = untouched[i] = (float)i;
    }
    int got = vikkozhan_decode_lost(&d->state, d->history, history_len, pcm, room, &a);
    check(got == number && a.number == (uint32_t)number, vikkozhan_strerror(number));
    check(a.kind == VIKKOZHAN_NONE && a.samples == 0, "a refusal has no kind and no samples");
    check(memcmp(d, &before, sizeof before) == 0, "a refusal leaves state and history");
    check(memcmp(pcm, untouched, sizeof pcm) == 0, "a refusal leaves the PCM buffer");
}

static void each_refusal(void) {
    Decoder d;
    const size_t whole = VIKKOZHAN_HISTORY_SAMPLES;
    silent(&d), d.state.lm = 4, refused(&d, whole, 20, VIKKOZHAN_BAD_LM);
    silent(&d), d.state.channels = 3, refused(&d, whole, 20, VIKKOZHAN_BAD_CHANNELS);
    silent(&d), d.state.start = 21, refused(&d, whole, 20, VIKKOZHAN_BAD_START);
    silent(&d), d.state.end = 0, refused(&d, whole, 20, VIKKOZHAN_BAD_END);
    silent(&d), d.state.downsample = 5, refused(&d, whole, 20, VIKKOZHAN_BAD_DOWNSAMPLE);
    silent(&d), d.state.loss_count = UINT32_MAX, refused(&d, whole, 20, VIKKOZHAN_COUNT_FULL);
    silent(&d), d.state.loss_count = 1, d.state.lag = 101, refused(&d, whole, 20, VIKKOZHAN_BAD_LAG);
    silent(&d), d.state.filter_period = 14, refused(&d, whole, 20, VIKKOZHAN_BAD_FILTER);
    silent(&d), refused(&d, whole - 1, 20, VIKKOZHAN_BAD_HISTORY);
    silent(&d), refused(&d, 0, 20, VIKKOZHAN_BAD_HISTORY);
    silent(&d), refused(&d, whole, 19, VIKKOZHAN_SHORT_PCM);
    silent(&d), refused(&d, whole, 0, VIKKOZHAN_SHORT_PCM);
}

/* The worked example of the README, in a buffer that is longer than needed. */
static void first_loss(void) {
    Decoder d;
    float pcm[24];
    VikkozhanAnswer a;
    for (size_t i = 0; i < 24; i++) {
        pcm[i] = 7.0f;
    }
    silent(&d);
    check(conceal(&d, pcm, 24, &a) == VIKKOZHAN_OK, "a silent state is accepted");
    check(a.kind == VIKKOZHAN_PITCH && a.samples == 20, "its first loss is 20 samples by pitch");
    for (size_t i = 0; i < 24; i++) {
        const float wanted = i < 20 ? 0.0f : 7.0f;
        check(memcmp(&pcm[i], &wanted, sizeof wanted) == 0, "twenty samples of +0, and the rest as it was");
    }
    check(d.state.loss_count == 1 && d.state.lag == 720, "loss count 1, lag 720");
}

static void texts(void) {
    for (int n = -1; n <= VIKKOZHAN_CUT_RECORD + 1; n++) {
        check(vikkozhan_strerror(n)[0] != '\0', "every number has a text");
    }
    check(vikkozhan_version() == VIKKOZHAN_VERSION, "header and library are of one version");
}

/* ---- threads: each conceals its own share of the records, over and over ---- */

typedef struct Share {
    uint8_t *records; /* answered in place */
    uint8_t *heads;
    size_t count;
} Share;

static void *work(void *argument) {
    Share *s = argument;
    for (int round = 0; round < ROUNDS; round++) {
        for (size_t i = 0; i < s->count; i++) {
            answer_directly(s->records + i * VIKKOZHAN_RECORD_BYTES, s->heads + i * VIKKOZHAN_HEAD_BYTES);
        }
    }
    return NULL;
}

static Share share_of(const uint8_t *records, size_t count) {
    Share s = {malloc(count * VIKKOZHAN_RECORD_BYTES), calloc(count, VIKKOZHAN_HEAD_BYTES), count};
    check(s.records && s.heads, "memory");
    memcpy(s.records, records, count * VIKKOZHAN_RECORD_BYTES);
    return s;
}

static void free_share(Share *s) {
    free(s->records);
    free(s->heads);
}

static void threads(const uint8_t *records, size_t count) {
    Share alone = share_of(records, count), shares[THREADS];
    pthread_t threads[THREADS];
    work(&alone);
    for (int t = 0; t < THREADS; t++) {
        shares[t] = share_of(records, count);
    }
    for (int t = 0; t < THREADS; t++) {
        check(pthread_create(&threads[t], NULL, work, &shares[t]) == 0, "a thread starts");
    }
    for (int t = 0; t < THREADS; t++) {
        pthread_join(threads[t], NULL);
        check(memcmp(shares[t].records, alone.records, count * VIKKOZHAN_RECORD_BYTES) == 0,
              "a thread leaves the records that one alone leaves");
        check(memcmp(shares[t].heads, alone.heads, count * VIKKOZHAN_HEAD_BYTES) == 0,
              "a thread answers what one alone answers");
        free_share(&shares[t]);
    }
    free_share(&alone);
}

static uint8_t *read_all(const char *path, size_t *size) {
    FILE *in = fopen(path, "rb");
    check(in != NULL, "a file opens");
    fseek(in, 0, SEEK_END);
    *size = (size_t)ftell(in);
    rewind(in);
    uint8_t *bytes = malloc(*size);
    check(bytes != NULL, "memory");
    check(fread(bytes, 1, *size, in) == *size, "a file is read");
    fclose(in);
    return bytes;
}

int main(int argc, char **argv) {
    check(argc == 3, "two arguments, a file of records and one of their answers");
    size_t bytes, stored, at = 0, accepted = 0;
    uint8_t *records = read_all(argv[1], &bytes), *answers = read_all(argv[2], &stored);
    const size_t count = bytes / VIKKOZHAN_RECORD_BYTES;
    texts();
    each_refusal();
    first_loss();
    for (size_t i = 0; i < count; i++) {
        check(at + sizeof(VikkozhanAnswer) + VIKKOZHAN_RECORD_BYTES <= stored, "each record has a stored answer");
        at += same_answer(records + i * VIKKOZHAN_RECORD_BYTES, answers + at, &accepted);
    }
    /* What is left is the answer to a record that is cut short, if the file ends with one. */
    check(stored - at == (bytes % VIKKOZHAN_RECORD_BYTES ? sizeof(VikkozhanAnswer) : 0), "no answer is left over");
    threads(records, count < 20 ? count : 20);
    free(records);
    free(answers);
    printf("%zu records by both calls, %zu accepted: the stored bytes; 12 refusals; %d threads\n", count, accepted, THREADS);
    return 0;
}
