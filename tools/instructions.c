/* One call of abc_parse for each text of a file, for tools/instructions: program FILE; of abc_parse_2_1: program FILE 2.1. Where a file has zero bytes, each ends a text. Calls under callgrind are those of
 * `measured`; the calls before it find how long each reading is, so that reading stores are as long as their readings. */
#include "abc.h"
#include <stdio.h>
#include <stdlib.h>
#include <string.h>

static uint8_t file_bytes[1 << 22];
static int second;

static uint64_t parse(const uint8_t *text, size_t n, uint8_t *reading, size_t reading_bytes, uint8_t *scratch) {
    return (second ? abc_parse_2_1 : abc_parse)(text, n, reading, reading_bytes, scratch, ABC_SCRATCH_BYTES(n));
}

__attribute__((noinline)) uint64_t measured(const uint8_t *text, size_t n, uint8_t *reading, size_t reading_bytes, uint8_t *scratch) {
    uint64_t answer = parse(text, n, reading, reading_bytes, scratch);
    __asm__ volatile("" ::: "memory");
    return answer;
}

int main(int count, char **words) {
    FILE *file = count > 1 ? fopen(words[1], "rb") : NULL;
    if (file == NULL) return 2;
    second = count > 2 && strcmp(words[2], "2.1") == 0;
    size_t all = fread(file_bytes, 1, sizeof file_bytes - 1, file);
    uint8_t *reading = malloc(ABC_READING_BYTES(all) + 1), *scratch = malloc(ABC_SCRATCH_BYTES(all));
    if (reading == NULL || scratch == NULL) return 2;
    for (size_t at = 0, n; at < all; at += n + 1) {
        const uint8_t *end = memchr(file_bytes + at, 0, all - at);
        n = end == NULL ? all - at : (size_t)(end - (file_bytes + at));
        uint64_t length = parse(file_bytes + at, n, reading, ABC_READING_BYTES(n), scratch);
        if (ABC_IS_REFUSED(length)) return 1;
        if (measured(file_bytes + at, n, reading, length, scratch) != length) return 1;
    }
    return 0;
}
