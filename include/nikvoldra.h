/*
 * The calls of Nikvoldra, for C and C++ on x86-64 Linux.
 *
 * Link target/staticlib/libnikvoldra.a, which has them all; the command `tools/libraries` proves the calls and writes it.
 *
 * A slice is passed as a pointer to its first element, then its length in elements, not in bytes. The callee keeps no pointer.
 * The caller sees to it that
 *
 *   - each pointer is not null, also of an empty slice, is aligned, and has that many elements behind it, which may be
 *     written where it isn't const;
 *   - no two of a call's slices overlap;
 *   - nobody else writes to them, or reads those that aren't const, while the call runs.
 *
 * No slice has to be cleared before a call, and none is ever too short for memory safety: question 1 asks the lengths.
 * The session calls go down a tree by recursion, at most 1,024 deep; the tests run that with a stack of 256 KiB.
 */
#ifndef NIKVOLDRA_H
#define NIKVOLDRA_H

#include <stddef.h>
#include <stdint.h>

#ifdef __cplusplus
extern "C" {
#endif

/* The least lengths of question 1, in elements. Each of at most 1,024 steps has three words. */
#define NIKVOLDRA_WORK_LENGTH 524288
#define NIKVOLDRA_WORDS_LENGTH 3072
#define NIKVOLDRA_CHECKPOINTS_LENGTH 16
#define NIKVOLDRA_PAIRS_LENGTH 262144
#define NIKVOLDRA_ATOMS_LENGTH 131072
#define NIKVOLDRA_BYTES_LENGTH 65536

/* The most bytes of an input (question 2), and the most bytes of an output that are used (question 13). */
#define NIKVOLDRA_INPUT_MOST 65535
#define NIKVOLDRA_OUTPUT_MOST 65535

/* The number of an answer: 0, or the first question that got no. */
enum nikvoldra_number {
    /* every question got yes */
    NIKVOLDRA_DONE = 0,
    /* Are the slices long enough? */
    NIKVOLDRA_SHORT_SLICE = 1,
    /* Is the input at most 65,535 bytes? */
    NIKVOLDRA_LONG_INPUT = 2,
    /* Does the file begin with the mark and version 1? */
    NIKVOLDRA_NO_MARK = 3,
    /* Does the field end inside the file? */
    NIKVOLDRA_CUT_FIELD = 4,
    /* At most 1,024 atoms, 1,024 pairs, 32,768 atom bytes so far, 1,024 steps? */
    NIKVOLDRA_TOO_MANY = 5,
    /* Is this atom one that fits_in_small_atom turns down? */
    NIKVOLDRA_LISTED_SMALL_ATOM = 6,
    /* Does the handle name a listed atom, a small atom, or a pair listed earlier (for the sentinel and steps: any listed
       pair; the sentinel may be ffffffff)? */
    NIKVOLDRA_UNKNOWN_HANDLE = 7,
    /* Is the step code known? */
    NIKVOLDRA_UNKNOWN_STEP = 8,
    /* At an add, is the session unfinished? */
    NIKVOLDRA_ALREADY_FINISHED = 9,
    /* Are there fewer than 16 adds on the present history? */
    NIKVOLDRA_TOO_MANY_ADDS = 10,
    /* Is the restore number below the count of adds on the present history? */
    NIKVOLDRA_UNKNOWN_RESTORE = 11,
    /* Before a pair's ff, are fewer than 4,096 pairs open? */
    NIKVOLDRA_TOO_DEEP = 12,
    /* Does the next item fit the output, of which at most 65,535 bytes are used? */
    NIKVOLDRA_OUTPUT_FULL = 13,
    /* Are bytes whole, prefixes at most six bytes, sizes below 2^34, nothing left over? */
    NIKVOLDRA_BROKEN_BYTES = 14,
    /* Is each prefix shortest? */
    NIKVOLDRA_LONG_PREFIX = 15,
    /* Does every path stay out of atoms? */
    NIKVOLDRA_PATH_INTO_ATOM = 16,
    /* At a 05, is a quote open? */
    NIKVOLDRA_NO_QUOTE = 17
};

/*
 * A handle is 32 bits: a kind in bits 26 up, and below it the index of a pair or of a listed atom, or a small atom's value.
 * A small atom's bytes are its value in as few bytes as that takes with the top bit clear, the highest first; none for 0.
 */
#define NIKVOLDRA_KIND(handle) ((uint32_t)(handle) >> 26)
#define NIKVOLDRA_INDEX(handle) ((uint32_t)(handle) & 0x3ffffffu)
enum nikvoldra_kind {
    NIKVOLDRA_PAIR = 0,
    NIKVOLDRA_LISTED_ATOM = 1,
    NIKVOLDRA_SMALL_ATOM = 2
};

/* The sentinel of a session file that has none. */
#define NIKVOLDRA_NO_SENTINEL 0xffffffffu

/* A checkpoint record. It is the call's own: a caller only lends the room, and finds it zero after the run. */
struct nikvoldra_checkpoint {
    uint32_t opens;
    uint32_t depth;
    uint32_t size;
    uint32_t references;
    uint32_t prefix_bytes;
    uint32_t sentinel;
};

/* The number, 0 for none; the count of finished steps; and the bytes written. */
struct nikvoldra_session_answer {
    uint32_t number;
    uint32_t steps;
    uint32_t size;
};

/* The number, 0 for none; the root, and how many pairs, listed atoms, atom bytes and ghost pairs there are. */
struct nikvoldra_read_answer {
    uint32_t number;
    uint32_t root;
    uint32_t pairs;
    uint32_t atoms;
    uint32_t bytes;
    uint32_t ghosts;
};

/*
 * Runs a session file, which docs/FORMAT.md has field by field: numbers 0 to 13 and 17.
 *
 * A step is 01 and a handle, which adds a tree; or 02 or 03 and a number k, which goes back to the state before add k. With 02
 * the writer keeps what it knows of the trees taken back, as in the Rust; with 03 it forgets them. Question 11 is asked at both.
 *
 * 04 and a handle quotes an add: its words are the add's, the questions are the add's, and session and output stay as they were.
 * 05, right after it, makes that add; any other step drops the quote. Question 17 is the only one at a 05.
 *
 * A finished step i, counted from 0, has three words, of the output as it is after the step:
 *
 *   words[3 * i]      its size * 2, plus 1 if the session is finished
 *   words[3 * i + 1]  the references in it
 *   words[3 * i + 2]  the bytes of prefixes in it, of atoms and of paths: 0 for a single byte below 80, 1 for nil; ff and fe
 *                     are no prefixes
 *
 * output[0 .. size] is what was written. A quote's words say what would be: unless the number is 12 or 13, the session is finished
 * if the last step's first word is size * 2 + 1.
 * With 1 to 8 no slice is touched, and steps and size are 0. With 0, 9 to 13 and 17 the words past the finished steps, the
 * output past the size, work and the checkpoint records are zero; 9 to 13 and 17 keep the finished steps' words and the whole
 * items written, of a refused quote none.
 */
struct nikvoldra_session_answer nikvoldra_session(
    const uint8_t *file, size_t file_length,
    uint32_t *work, size_t work_length,
    uint32_t *words, size_t words_length,
    struct nikvoldra_checkpoint *checkpoints, size_t checkpoints_length,
    uint8_t *output, size_t output_length);

/*
 * The same, with one difference: where a path was found, the reference is written if it is no longer than what it stands for in full,
 * by the prefix lengths of the CLVM serialization documentation. nikvoldra_session has the Rust's, which count a byte too many for
 * a path of 512 to 8,191 bytes. So the two differ only where a found path has n bytes, 512 or more, and leads to what has n + 3 in
 * full.
 */
struct nikvoldra_session_answer nikvoldra_session_documented(
    const uint8_t *file, size_t file_length,
    uint32_t *work, size_t work_length,
    uint32_t *words, size_t words_length,
    struct nikvoldra_checkpoint *checkpoints, size_t checkpoints_length,
    uint8_t *output, size_t output_length);

/*
 * Reads a serialized tree into a fresh store: numbers 0 to 2 and 14 to 16.
 *
 * Pair i is pairs[2 * i] and pairs[2 * i + 1], the left and the right handle. Atom i is the bytes from atoms[2 * i] up to
 * atoms[2 * i + 1]. With 1 and 2 no slice is touched. Else all that is not used, and work, is zero; with 14 to 16 that is
 * all of every slice. A refused reading gives zero for root and counts.
 */
struct nikvoldra_read_answer nikvoldra_read(
    const uint8_t *input, size_t input_length,
    uint32_t *work, size_t work_length,
    uint32_t *pairs, size_t pairs_length,
    uint32_t *atoms, size_t atoms_length,
    uint8_t *bytes, size_t bytes_length);

#ifdef __cplusplus
}
#endif

/* The layout that the calls have. */
#if defined(__cplusplus) && __cplusplus >= 201103L
#define NIKVOLDRA_HOLDS(fact) static_assert(fact, #fact)
#elif defined(__STDC_VERSION__) && __STDC_VERSION__ >= 201112L
#define NIKVOLDRA_HOLDS(fact) _Static_assert(fact, #fact)
#else
#define NIKVOLDRA_HOLDS(fact) struct nikvoldra_checkpoint
#endif
NIKVOLDRA_HOLDS(sizeof(size_t) == 8);
NIKVOLDRA_HOLDS(NIKVOLDRA_WORDS_LENGTH == 3 * 1024);
NIKVOLDRA_HOLDS(sizeof(struct nikvoldra_checkpoint) == 24);
NIKVOLDRA_HOLDS(offsetof(struct nikvoldra_checkpoint, opens) == 0);
NIKVOLDRA_HOLDS(offsetof(struct nikvoldra_checkpoint, depth) == 4);
NIKVOLDRA_HOLDS(offsetof(struct nikvoldra_checkpoint, size) == 8);
NIKVOLDRA_HOLDS(offsetof(struct nikvoldra_checkpoint, references) == 12);
NIKVOLDRA_HOLDS(offsetof(struct nikvoldra_checkpoint, prefix_bytes) == 16);
NIKVOLDRA_HOLDS(offsetof(struct nikvoldra_checkpoint, sentinel) == 20);
NIKVOLDRA_HOLDS(sizeof(struct nikvoldra_session_answer) == 12);
NIKVOLDRA_HOLDS(offsetof(struct nikvoldra_session_answer, number) == 0);
NIKVOLDRA_HOLDS(offsetof(struct nikvoldra_session_answer, steps) == 4);
NIKVOLDRA_HOLDS(offsetof(struct nikvoldra_session_answer, size) == 8);
NIKVOLDRA_HOLDS(sizeof(struct nikvoldra_read_answer) == 24);
NIKVOLDRA_HOLDS(offsetof(struct nikvoldra_read_answer, number) == 0);
NIKVOLDRA_HOLDS(offsetof(struct nikvoldra_read_answer, root) == 4);
NIKVOLDRA_HOLDS(offsetof(struct nikvoldra_read_answer, pairs) == 8);
NIKVOLDRA_HOLDS(offsetof(struct nikvoldra_read_answer, atoms) == 12);
NIKVOLDRA_HOLDS(offsetof(struct nikvoldra_read_answer, bytes) == 16);
NIKVOLDRA_HOLDS(offsetof(struct nikvoldra_read_answer, ghosts) == 20);
#undef NIKVOLDRA_HOLDS

#endif
