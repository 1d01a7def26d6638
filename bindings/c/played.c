/* Reads a text from standard input and prints for each part the measures that a player walks, repeats and endings followed:
 *
 *     tools/staticlib
 *     cc -O2 -Iinclude -o target/played bindings/c/played.c target/staticlib/libabc.a
 *     printf 'K:C\n|:A|[1B:|[2c|]\n' | target/played
 *     part 1 plays 4 measures: 1 2 1 3
 *
 * Status 0; 1 where the text is refused, or a list of over MOST measures (20); 2 for an error: no memory, or input or output that fails. */
#include "abc.h"

#include <errno.h>
#include <stdio.h>
#include <stdlib.h>
#include <string.h>

/* The most measures of a part that are listed: a list may be very long. */
#define MOST 1000000

static uint32_t number(const uint8_t *p) {
    return (uint32_t)p[0] | (uint32_t)p[1] << 8 | (uint32_t)p[2] << 16 | (uint32_t)p[3] << 24;
}

static int fails(const char *what) {
    fprintf(stderr, "played: %s: %s\n", what, strerror(errno));
    return 2;
}

/* The list of a part of so many measures, in a store that is doubled until it fits or has room for MOST numbers; NULL where there is no memory. */
static uint8_t *list_of(const uint8_t *reading, size_t length, uint32_t part, uint32_t measures, uint64_t *answer) {
    size_t count = 2 * (size_t)measures;
    for (;;) {
        if (count > MOST) count = MOST;
        uint8_t *list = malloc(ABC_LIST_BYTES(count));
        if (!list) return NULL;
        *answer = abc_played(reading, length, part, list, ABC_LIST_BYTES(count));
        if (!ABC_IS_REFUSED(*answer) || ABC_REFUSAL(*answer) != ABC_LIST_SHORT || count == MOST) return list;
        free(list);
        count *= 2;
    }
}

int main(void) {
    /* Of a text that is too long one byte more than the limit is read, which tells. */
    size_t length = 0, room = 1 << 16;
    uint8_t *text = malloc(room);
    if (!text) return fails("no memory for the text");
    for (size_t n; (n = fread(text + length, 1, room - length, stdin)) > 0;) {
        length += n;
        if (length > ABC_MOST_BYTES) break;
        if (length == room) {
            uint8_t *more = realloc(text, room *= 2);
            if (!more) return fails("no memory for the text");
            text = more;
        }
    }
    /* A read that fails is an error, not an end: what came before it is not the whole tune. */
    if (ferror(stdin)) return fails("standard input");
    size_t held = length > ABC_MOST_BYTES ? 0 : length;
    uint8_t *reading = malloc(ABC_READING_BYTES(held) + 1);
    uint8_t *scratch = malloc(ABC_SCRATCH_BYTES(held));
    if (!reading || !scratch) return fails("no memory for the stores");
    int status = 0;
    uint64_t answer = abc_parse(text, length, reading, ABC_READING_BYTES(held), scratch, ABC_SCRATCH_BYTES(held));
    free(text);
    free(scratch);
    if (ABC_IS_REFUSED(answer)) {
        printf("refused %u %u\n", ABC_REFUSAL(answer), (unsigned)ABC_LINE(answer));
        status = 1;
    } else {
        size_t bytes = (size_t)answer;
        uint32_t parts = number(reading);
        const uint8_t *at = reading + 4;
        for (uint32_t part = 1; part <= parts; part++) {
            uint32_t measures = number(at);
            uint8_t *list = list_of(reading, bytes, part, measures, &answer);
            if (!list) return fails("no memory for the list");
            if (ABC_IS_REFUSED(answer)) {
                printf("part %u plays more than %d measures\n", (unsigned)part, MOST);
                fprintf(stderr, "played: part %u: refused (%u): more than %d measures are played. Build with a greater MOST\n", (unsigned)part, ABC_REFUSAL(answer), MOST);
                status = 1;
            } else {
                uint32_t count = number(list);
                printf("part %u plays %u measure%s%s", (unsigned)part, (unsigned)count, count == 1 ? "" : "s", count == 0 ? "" : ":");
                for (uint32_t i = 0; i < count; i++) printf(" %u", (unsigned)number(list + ABC_LIST_BYTES(i)));
                printf("\n");
            }
            free(list);
            at += 4 + (size_t)measures * ABC_MEASURE_BYTES;
            at += 4 + (size_t)number(at) * ABC_NOTE_BYTES;
            at += 4 + (size_t)number(at) * ABC_PITCH_BYTES;
            at += 4 + (size_t)number(at) * ABC_LYRIC_BYTES;
            at += 4 + (size_t)number(at);
        }
    }
    free(reading);
    if (fflush(stdout) != 0 || ferror(stdout)) return fails("standard output");
    return status;
}
