/* The tune reader, for C. Link target/staticlib/libabc.a, which `tools/staticlib` writes.
 *
 * abc_parse reads a text into a store of the caller's, abc_parse_2_1 does so in the second edition, which is ABC 2.1's in some things; abc_played lists the measures of one part of either reading as they are played;
 * abc_is_whole tests bytes that were kept. Each call allocates nothing, keeps nothing, never fails otherwise than by its answer, and may be made from several threads at once with stores
 * of their own. Whatever the stores held before does not matter. */
#ifndef ABC_H
#define ABC_H

#include <stdbool.h>
#include <stddef.h>
#include <stdint.h>

#ifdef __cplusplus
extern "C" {
#endif

/* The version of this header, 1,000,000 * major + 1,000 * minor + patch. abc_version answers that of the linked library: where the two are unlike, one of them is
 * stale. The version changes with what the calls promise; the commit to put under a quote is the repository's (in Rust, sindvaelo::COMMIT). */
#define ABC_VERSION_MAJOR 0
#define ABC_VERSION_MINOR 6
#define ABC_VERSION_PATCH 0
#define ABC_VERSION ((uint64_t)(1000000 * ABC_VERSION_MAJOR + 1000 * ABC_VERSION_MINOR + ABC_VERSION_PATCH))
uint64_t abc_version(void);

/* The most bytes of a text: a longer one is refused with ABC_TOO_LONG. */
#define ABC_MOST_BYTES ((size_t)67108864)

/* How long the stores have to be for a text of n bytes. A reading never has more than 23 bytes for each byte of its text, so a reading store of
 * ABC_READING_BYTES(n) is never too short; a shorter one will do if the reading fits: 12 * n bytes do for every tune of the benchmark, and most readings
 * take a quarter of that. Scratch has to have ABC_SCRATCH_BYTES(n). A call clears all that it is lent, so lend no more than the text needs. A call that is lent nothing
 * answers ABC_TOO_LONG, ABC_NOT_UTF8 and a blank text's ABC_NO_MUSIC, which come first, and else ABC_SCRATCH_SHORT: worth asking before memory is taken for a text from outside. */
#define ABC_READING_BYTES(n) ((size_t)23 * (size_t)(n))
#define ABC_SCRATCH_BYTES(n) ((size_t)32 * ((size_t)(n) + 256))

/* Reads a text, in the first edition. The answer is the reading's length in bytes; or it has ABC_REFUSED set, and is taken apart by the two macros below.
 *
 * Afterwards scratch is all zeros. The reading store holds the reading and then zeros, or, after a refusal, zeros. The three stores must not
 * overlap; a pointer to a store of 0 bytes may be any pointer that is not null. */
uint64_t abc_parse(const uint8_t *text, size_t text_len, uint8_t *reading, size_t reading_len, uint8_t *scratch, size_t scratch_len);

/* THE SECOND EDITION. The same, but by ABC 2.1 in this: the header's key holds for every voice; modes are read (K:Ador), and a key of more than seven sharps or flats is refused with
 * ABC_KEY_BEYOND; tuplets of 5, 7 and 9 go in the time of 3 in 6/8, 9/8 and 12/8, in all other meters of 2, 6 goes in 2 and 8 in 3; an empty part behind a : of a tuplet takes its default; two or more slashes
 * in a row behind a note, a chord or a rest halve its length once each, whatever digits stand behind them, so that A// is a quarter of the unit, and more than 31 are refused with ABC_MANY_SLASHES; grace notes take
 * no syllable; a | in a lyric line, as a word of its own, goes on to the first note of a later measure, and where there is none the rest of that line lapses. The key mark is 2 for min, aeo and m, 1 for every other mode.
 * Stores, answers and limits are abc_parse's, and so are its other refusals. */
uint64_t abc_parse_2_1(const uint8_t *text, size_t text_len, uint8_t *reading, size_t reading_len, uint8_t *scratch, size_t scratch_len);

#define ABC_REFUSED ((uint64_t)1 << 63)
#define ABC_IS_REFUSED(answer) (((answer) & ABC_REFUSED) != 0)
/* The refusal's number, one of those below, and the line of the text that brought it about, from 1; line 0: no line did. */
#define ABC_REFUSAL(answer) ((unsigned)(((answer) >> 32) & 0xff))
#define ABC_LINE(answer) ((uint32_t)(answer))

/* REFUSALS that the sender of the tune can mend */
#define ABC_NO_MUSIC 1        /* blank text, or no measure at the end: send music after a K: line */
#define ABC_TOO_LONG 2        /* over 67,108,864 bytes: send the tunes one by one */
#define ABC_NOT_UTF8 3        /* not UTF-8: convert the file */
#define ABC_TOO_MANY_LINES 4  /* a line after the 10,000th: send the tunes one by one */
#define ABC_LINE_TOO_LONG 5   /* a line over 1,048,576 bytes once cut and trimmed: break it */
#define ABC_NOT_ASCII 6       /* a byte above 127 in a K, L, M or V line or in music: write it in ASCII, or behind a % */
#define ABC_SECOND_TUNE 7     /* an X: line after the first K: line: one tune in a text */
#define ABC_NO_VOICE_ID 8     /* V: without an identifier: name the voice */
#define ABC_TOO_MANY_VOICES 9 /* a 33rd voice; unnamed opening music counts as one */
#define ABC_MIDDLE 10         /* a middle= word in a K or V field: leave it out */
#define ABC_TOO_MANY_NOTES 11 /* the 100,001st note, rest or non-empty chord */
#define ABC_OCTAVE 12         /* octave marks that leave -128 to 127 */
#define ABC_BROKEN_RHYTHM 13  /* more than 255 equal > or < together */
/* those of the pass list behind a [ and a digit, tested as a whole and in this order */
#define ABC_PASSES 14         /* its shape: numbers without a leading zero, or two with one hyphen between, single commas between them: 1 for 01, 1,2 for 1,,2 */
#define ABC_PASS_RANGE 17     /* a number that is 0 or above 32: number the passes 1 to 32 */
#define ABC_PASS_ORDER 18     /* numbers that do not rise: write 1-3 for 3-1, 1,2 for 2,1 */
/* those of abc_parse_2_1 alone */
#define ABC_KEY_BEYOND 21     /* a key of more than seven sharps or flats, as K:G#: name the one that sounds the same, K:Ab */
#define ABC_MANY_SLASHES 22   /* more than 31 slashes in a row behind a note, chord or rest, where each halves its length: take some away, or put a space before slashes that are no length */
/* and those that the calling program can mend */
#define ABC_SCRATCH_SHORT 15  /* scratch below ABC_SCRATCH_BYTES(text_len) */
#define ABC_READING_SHORT 16  /* the reading store is shorter than the reading */
/* those of abc_played, tested in this order */
#define ABC_NO_SUCH_PART 19   /* the bytes are no whole reading, or it has no part of that number: hand over a reading as abc_parse or abc_parse_2_1 left it, and a part from 1 to its count of parts */
#define ABC_LIST_SHORT 20     /* the list's store is below ABC_LIST_BYTES(numbers in the list), or the list has over 4,294,967,295 numbers: lend a store twice as long, up to what you can spare */

/* AS IT IS PLAYED. Lists the measures of one part in the order in which a player walks them: repeats, endings by their passes. The reading is a whole one, with its
 * store's zeros behind it or without them; parts are numbered from 1, and so are the measures in the list.
 *
 * The answer is the list's length in bytes, ABC_LIST_BYTES(count), and the store then holds the count, the numbers, four bytes each, and zeros; or it has
 * ABC_REFUSED set, with ABC_NO_SUCH_PART or ABC_LIST_SHORT and line 0, and the store holds zeros. The two stores must not overlap; a pointer to a store of
 * 0 bytes may be any pointer that is not null.
 *
 * ABC_LIST_BYTES(2 * n) do for a part of n measures none of which is played more than twice; the list never has more than 16 * n * (n + 1) numbers, and a text of 133 kB can
 * bring over 4,294,967,295. So try ABC_LIST_BYTES(2 * n) first and, while the answer is ABC_LIST_SHORT, twice as long a store, up to a limit of your own. The time is that of what fits. */
#define ABC_LIST_BYTES(count) ((size_t)4 + (size_t)4 * (size_t)(count))
uint64_t abc_played(const uint8_t *reading, size_t reading_len, uint32_t part, uint8_t *list, size_t list_len);

/* Whether bytes are a whole reading: counts that match their length and each other, codes in their ranges, every ending that begins ended, zeros behind it. What abc_parse or abc_parse_2_1 leaves in a
 * store of four bytes or more is one, a refusal's zeros among them (no parts). Lyric texts may be any bytes, and no text need have this reading. */
bool abc_is_whole(const uint8_t *reading, size_t reading_len);

/* THE READING: a count of parts, then for each part five sections, each its count and then its records. Numbers are little-endian, four bytes where
 * nothing else is said; signed ones are marked so. */
#define ABC_MEASURE_BYTES 28
#define ABC_NOTE_BYTES 12
#define ABC_PITCH_BYTES 5
#define ABC_LYRIC_BYTES 11

/* Measure: how many notes each of its four voices has (4 x 4); left and right barline; meter, top and bottom; key mark (0 none, 1 major, 2 minor);
 * fifths (signed); volta (0 none, 1 begin, 2 end, 3 both); first pass; passes (4, bit p-1 for pass p). */
enum { ABC_BAR_NORMAL, ABC_BAR_REPEAT_START, ABC_BAR_REPEAT_END, ABC_BAR_REPEAT_BOTH, ABC_BAR_DOUBLE, ABC_BAR_FINAL };

/* Note: kind; value; dots; flags; beam; tuplet actual, normal (0, 0 if none); boundary (0 none, 1 start, 2 stop, 3 both); pitch count (4).
 * Notes run by measure, then by voice 0 to 3, then as written. */
enum { ABC_NOTE, ABC_REST_Z, ABC_REST_X, ABC_BAR_REST_Z, ABC_BAR_REST_X };
enum { ABC_LONGA, ABC_BREVE, ABC_WHOLE, ABC_HALF, ABC_QUARTER, ABC_8TH, ABC_16TH, ABC_32ND, ABC_64TH, ABC_128TH, ABC_WHOLE_BAR };
enum { ABC_TIE_START = 1, ABC_TIE_END = 2, ABC_SLUR_START = 4, ABC_SLUR_END = 8, ABC_GRACE = 16, ABC_UNBEAMED = 32 };
enum { ABC_BEAM_NONE, ABC_BEAM_BEGIN, ABC_BEAM_CONTINUE, ABC_BEAM_END };

/* Pitch: step, 0 (C) to 6 (B); octave, alter (signed bytes); cents (signed, 2). In the order of their notes. */

/* Lyric: its note's number in this part, from 0 (4); verse, 1 to 32; syllabic; extend, 0 or 1; text length (4). By note, then verse. Their texts stand in
 * the fifth section, one after the other. */
enum { ABC_SINGLE, ABC_BEGIN, ABC_END, ABC_MIDDLE_OF_WORD };

#ifdef __cplusplus
}
#endif

#endif
