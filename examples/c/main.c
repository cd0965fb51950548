/* Conceals one lost frame: a record from standard input, the answer and the new record to standard
   output. */
#include <stdio.h>

#include "record.h"
#include "vikkozhan.h"

int main(void) {
    static uint8_t record[VIKKOZHAN_RECORD_BYTES], samples[4 * VIKKOZHAN_PCM_SAMPLES];
    static VikkozhanDecoder decoder;
    static float pcm[VIKKOZHAN_PCM_SAMPLES];
    VikkozhanAnswer answer;
    if (vikkozhan_version() / 65536 != VIKKOZHAN_VERSION_MAJOR) {
        fputs("the library that is linked is of another version\n", stderr);
        return 1;
    }
    if (fread(record, 1, sizeof record, stdin) != sizeof record) {
        fputs("no whole record\n", stderr);
        return 1;
    }
    vikkozhan_read_record(&decoder, record);
    int number = vikkozhan_decode_lost(&decoder.state, decoder.history, VIKKOZHAN_HISTORY_SAMPLES, pcm,
                                       VIKKOZHAN_PCM_SAMPLES, &answer);
    if (number == VIKKOZHAN_OK) {
        vikkozhan_write_record(record, &decoder);
    } else {
        fprintf(stderr, "refused: %s\n", vikkozhan_strerror(number));
    }
    vikkozhan_put_floats(samples, pcm, answer.samples);
    fwrite(&answer, sizeof answer, 1, stdout);
    fwrite(samples, 4, answer.samples, stdout);
    fwrite(record, 1, sizeof record, stdout);
    return fflush(stdout) == 0 && !ferror(stdout) ? 0 : 1;
}
