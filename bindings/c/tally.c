/* Reads a text from standard input and prints what a price list counts:
 *
 *     tools/staticlib
 *     cc -O2 -Iinclude -o target/tally bindings/c/tally.c target/staticlib/libabc.a
 *     target/tally < examples/two-voices.abc
 *
 * Status 0; 1 where the text is refused; 2 for an error: no memory, or input or output that fails. */
#include "abc.h"

#include <errno.h>
#include <stdio.h>
#include <stdlib.h>
#include <string.h>

static uint32_t number(const uint8_t *p) {
    return (uint32_t)p[0] | (uint32_t)p[1] << 8 | (uint32_t)p[2] << 16 | (uint32_t)p[3] << 24;
}

static int fails(const char *what) {
    fprintf(stderr, "tally: %s: %s\n", what, strerror(errno));
    return 2;
}

int main(void) {
    /* Of a text that is too long one byte more than the limit is read, which tells. */
    size_t length = 0, room = 1 << 16;
    uint8_t *text = malloc(room);
    if (!text) return fails("no memory for the text");
    for (size_t n; (n = fread(text + length, 1, room - length, stdin)) > 0;) {
        length += n;
        if (length > ABC_MOST_BYTES) break;
        if (length == room) {
            uint8_t *more = realloc(text, room *= 2);
            if (!more) return fails("no memory for the text");
            text = more;
        }
    }
    /* A read that fails is an error, not an end: what came before it is not the whole tune. */
    if (ferror(stdin)) return fails("standard input");
    size_t held = length > ABC_MOST_BYTES ? 0 : length;
    uint8_t *reading = malloc(ABC_READING_BYTES(held) + 1);
    uint8_t *scratch = malloc(ABC_SCRATCH_BYTES(held));
    if (!reading || !scratch) return fails("no memory for the stores");
    uint64_t answer = abc_parse(text, length, reading, ABC_READING_BYTES(held), scratch, ABC_SCRATCH_BYTES(held));
    if (ABC_IS_REFUSED(answer)) {
        printf("refused %u %u\n", ABC_REFUSAL(answer), (unsigned)ABC_LINE(answer));
    } else {
        uint32_t parts = number(reading);
        const uint8_t *at = reading + 4;
        printf("parts %u\n", (unsigned)parts);
        for (uint32_t part = 1; part <= parts; part++) {
            uint32_t measures = number(at);
            at += 4 + (size_t)measures * ABC_MEASURE_BYTES;
            uint32_t notes = number(at), rests = 0;
            at += 4;
            for (uint32_t i = 0; i < notes; i++, at += ABC_NOTE_BYTES) rests += at[0] != ABC_NOTE;
            at += 4 + (size_t)number(at) * ABC_PITCH_BYTES;
            uint32_t syllables = number(at);
            at += 4 + (size_t)syllables * ABC_LYRIC_BYTES;
            at += 4 + (size_t)number(at);
            printf("part %u measures %u sounded %u rests %u syllables %u\n", (unsigned)part, (unsigned)measures, (unsigned)(notes - rests),
                   (unsigned)rests, (unsigned)syllables);
        }
    }
    free(text);
    free(reading);
    free(scratch);
    if (fflush(stdout) != 0 || ferror(stdout)) return fails("standard output");
    return ABC_IS_REFUSED(answer) ? 1 : 0;
}
