/* The floor of a reader under document 01's contract on this machine, for tools/floor: program FILE... Nanoseconds for each byte of text, processor time of the thread, low decile of 300:
 * clearing scratch; one pass that looks at every byte by a table, writes a note's record and a pitch for each letter and a measure's record for each bar; copying these records out.
 * A reader of music, which looks at one byte after the other, can hardly do less: lyrics, lengths, accidentals, chords and refusals are left out. Comments and titles can be passed
 * over many bytes at a time, so their floor is the clearing alone. Where a file has zero bytes, each ends a text. */
#define _POSIX_C_SOURCE 200809L
#include "abc.h"
#include <stdio.h>
#include <stdlib.h>
#include <string.h>
#include <time.h>

enum { RUNS = 300, TEXTS = 10000, LETTER = 1, SPACE = 2, BAR = 3 };

static uint8_t class_of[256], file_bytes[1 << 22];

static double now(void) {
    struct timespec time;
    clock_gettime(CLOCK_THREAD_CPUTIME_ID, &time);
    return (double)time.tv_sec * 1e9 + (double)time.tv_nsec;
}

static int ascending(const void *a, const void *b) {
    double x = *(const double *)a, y = *(const double *)b;
    return (x > y) - (x < y);
}

/* Keeps the compiler from leaving out what is measured. */
static void used(const void *store) { __asm__ volatile("" ::"r"(store) : "memory"); }

/* The bytes of all records written: notes at `notes`, pitches and measures behind room for as many as the text has bytes. */
static size_t one_pass(const uint8_t *text, size_t n, uint8_t *notes) {
    uint8_t *pitches = notes + ABC_NOTE_BYTES * n, *measures = pitches + ABC_PITCH_BYTES * n;
    uint8_t *note = notes, *pitch = pitches, *measure = measures;
    uint32_t count = 0, beamed = 0;
    for (size_t i = 0; i < n; i++) {
        uint8_t byte = text[i];
        switch (class_of[byte]) {
        case LETTER: {
            uint32_t words[3] = {ABC_8TH << 8, beamed, 1}, place = (byte & 7u) | 0x400u;
            memcpy(note, words, ABC_NOTE_BYTES);
            memcpy(pitch, &place, 4);
            pitch[4] = 0;
            note += ABC_NOTE_BYTES, pitch += ABC_PITCH_BYTES, count++, beamed = ABC_BEAM_CONTINUE;
            break;
        }
        case SPACE: beamed = 0; break;
        case BAR:
            /* A text of bars alone would need more room than scratch has: 28 bytes a byte, where the other records stand before them. */
            if ((size_t)(measure - measures) + ABC_MEASURE_BYTES > 15 * n) measure = measures;
            memset(measure, 0, ABC_MEASURE_BYTES);
            memcpy(measure, &count, 4);
            measure += ABC_MEASURE_BYTES, count = 0, beamed = 0;
            break;
        }
    }
    return (size_t)(note - notes) + (size_t)(pitch - pitches) + (size_t)(measure - measures);
}

int main(int count, char **words) {
    for (const char *letter = "ABCDEFGabcdefg"; *letter; letter++) class_of[(uint8_t)*letter] = LETTER;
    class_of[' '] = SPACE, class_of['|'] = BAR;
    printf("%-12s %8s %10s %10s %10s %10s\n", "text", "bytes", "clear", "one pass", "copy out", "sum ns/B");
    for (int k = 1; k < count; k++) {
        FILE *file = fopen(words[k], "rb");
        if (file == NULL) return 2;
        size_t all = fread(file_bytes, 1, sizeof file_bytes - 1, file), size = 0;
        fclose(file);
        size_t store = ABC_SCRATCH_BYTES(all);
        uint8_t *scratch = malloc(store), *reading = malloc(store);
        if (scratch == NULL || reading == NULL) return 2;
        memset(scratch, 1, store), memset(reading, 1, store);
        static size_t begins[TEXTS], lengths[TEXTS], written[TEXTS];
        static double clear[RUNS], pass[RUNS], copy[RUNS];
        int texts = 0;
        for (size_t at = 0; at < all && texts < TEXTS; at += lengths[texts++] + 1) {
            const uint8_t *end = memchr(file_bytes + at, 0, all - at);
            begins[texts] = at;
            lengths[texts] = end == NULL ? all - at : (size_t)(end - (file_bytes + at));
            size += lengths[texts];
        }
        /* A small text several times to a sample. */
        int calls = 1 + (int)(2000 / (all + 1));
        for (int run = 0; run < RUNS; run++) {
            double start = now();
            for (int i = 0; i < calls; i++)
                for (int t = 0; t < texts; t++) used(scratch), written[t] = one_pass(file_bytes + begins[t], lengths[t], scratch), used(scratch);
            double passed = now();
            for (int i = 0; i < calls; i++)
                for (int t = 0; t < texts; t++) used(scratch), memcpy(reading, scratch, written[t]), used(reading);
            double copied = now();
            for (int i = 0; i < calls; i++)
                for (int t = 0; t < texts; t++) memset(scratch, 0, ABC_SCRATCH_BYTES(lengths[t])), used(scratch);
            double cleared = now();
            pass[run] = passed - start, copy[run] = copied - passed, clear[run] = cleared - copied;
        }
        double figures[3], sum = 0;
        double *samples[3] = {clear, pass, copy};
        for (int i = 0; i < 3; i++) {
            qsort(samples[i], RUNS, sizeof(double), ascending);
            sum += figures[i] = samples[i][RUNS / 10] / calls / (double)size;
        }
        const char *name = strrchr(words[k], '/');
        printf("%-12s %8zu %10.2f %10.2f %10.2f %10.2f\n", name ? name + 1 : words[k], size, figures[0], figures[1], figures[2], sum);
        fflush(stdout);
        free(scratch), free(reading);
    }
    return 0;
}
