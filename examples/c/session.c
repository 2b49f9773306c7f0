/*
 * Runs a session, reads its bytes back, and prints both: session [--documented] [FILE]
 *
 * Without FILE the session is made by hand: foobar is added with an open place beside it, and then foobar at that place.
 * With --documented references are measured as the documentation has it, not as in the Rust.
 * The status is 0; 1 where a question got no; 2 where the file can't be read or memory is short.
 */
#include <inttypes.h>
#include <stdio.h>
#include <stdlib.h>
#include <string.h>

#include "nikvoldra.h"

/* The lent slices. Nothing has to be cleared before a call, and all calls can use the same work. */
static uint32_t *work;
static uint32_t *words;
static struct nikvoldra_checkpoint *checkpoints;
static uint8_t *output;
static uint32_t *pairs;
static uint32_t *atoms;
static uint8_t *bytes;

/* A session file of any length that is taken, and one byte more, so that a longer one is refused and not cut. */
static uint8_t file[NIKVOLDRA_INPUT_MOST + 1];
static size_t file_length;

static int make_slices(void) {
    work = malloc(NIKVOLDRA_WORK_LENGTH * sizeof *work);
    words = malloc(NIKVOLDRA_WORDS_LENGTH * sizeof *words);
    checkpoints = malloc(NIKVOLDRA_CHECKPOINTS_LENGTH * sizeof *checkpoints);
    output = malloc(NIKVOLDRA_OUTPUT_MOST);
    pairs = malloc(NIKVOLDRA_PAIRS_LENGTH * sizeof *pairs);
    atoms = malloc(NIKVOLDRA_ATOMS_LENGTH * sizeof *atoms);
    bytes = malloc(NIKVOLDRA_BYTES_LENGTH);
    return work && words && checkpoints && output && pairs && atoms && bytes;
}

static void free_slices(void) {
    free(work);
    free(words);
    free(checkpoints);
    free(output);
    free(pairs);
    free(atoms);
    free(bytes);
}

static void put(const void *data, size_t length) {
    memcpy(file + file_length, data, length);
    file_length += length;
}

static void put_number(uint32_t number, int width) {
    while (width-- > 0) {
        uint8_t byte = (uint8_t)(number >> (8 * width));
        put(&byte, 1);
    }
}

static void put_handle(uint32_t kind, uint32_t index) {
    put_number(kind << 26 | index, 4);
}

/* The session by hand: one atom, two pairs, the first of which is the sentinel, and two adds. */
static void make_session(void) {
    put("BRS", 3);
    put_number(1, 2); /* the version */
    put_number(1, 2); /* the atoms: each its length and its bytes */
    put_number(6, 2);
    put("foobar", 6);
    put_number(2, 2); /* the pairs: each its left and its right handle */
    put_handle(NIKVOLDRA_SMALL_ATOM, 0);
    put_handle(NIKVOLDRA_SMALL_ATOM, 0);
    put_handle(NIKVOLDRA_LISTED_ATOM, 0);
    put_handle(NIKVOLDRA_PAIR, 0);
    put_handle(NIKVOLDRA_PAIR, 0); /* the sentinel */
    put_number(1, 1);              /* add (foobar . open) */
    put_handle(NIKVOLDRA_PAIR, 1);
    put_number(1, 1); /* add foobar */
    put_handle(NIKVOLDRA_LISTED_ATOM, 0);
}

static int load_session(const char *name) {
    FILE *from = fopen(name, "rb");
    if (from == NULL) {
        perror(name);
        return 0;
    }
    file_length = fread(file, 1, sizeof file, from);
    int failed = ferror(from);
    if (failed) {
        perror(name);
    }
    fclose(from);
    return !failed;
}

static void print_hex(const uint8_t *data, size_t length) {
    for (size_t i = 0; i < length; i++) {
        printf("%02x", data[i]);
    }
}

/* A small atom's value in as few bytes as it takes with the top bit clear. */
static void print_small(uint32_t value) {
    int width = 0;
    while (width < 4 && value >> (8 * width) != 0) {
        width++;
    }
    if (width > 0 && (value >> (8 * width - 1)) != 0) {
        printf("00");
    }
    while (width-- > 0) {
        printf("%02x", value >> (8 * width) & 0xff);
    }
}

/* Atoms in hexadecimal, nil as (), and .. for what is left once so many nodes are printed: a tree can be very large. */
static void print_tree(uint32_t node, int *nodes_left) {
    uint32_t index = NIKVOLDRA_INDEX(node);
    if ((*nodes_left)-- <= 0) {
        printf("..");
    } else if (NIKVOLDRA_KIND(node) == NIKVOLDRA_PAIR) {
        printf("(");
        print_tree(pairs[2 * index], nodes_left);
        printf(" . ");
        print_tree(pairs[2 * index + 1], nodes_left);
        printf(")");
    } else if (NIKVOLDRA_KIND(node) == NIKVOLDRA_LISTED_ATOM) {
        print_hex(bytes + atoms[2 * index], atoms[2 * index + 1] - atoms[2 * index]);
    } else if (index == 0) {
        printf("()");
    } else {
        print_small(index);
    }
}

static int run_session(int documented) {
    struct nikvoldra_session_answer answer = (documented ? nikvoldra_session_documented : nikvoldra_session)(
        file, file_length, work, NIKVOLDRA_WORK_LENGTH, words, NIKVOLDRA_WORDS_LENGTH, checkpoints,
        NIKVOLDRA_CHECKPOINTS_LENGTH, output, NIKVOLDRA_OUTPUT_MOST);
    for (uint32_t i = 0; i < answer.steps; i++) {
        const uint32_t *step = words + 3 * i;
        printf("step %" PRIu32 ": %" PRIu32 " bytes%s", i + 1, step[0] / 2, step[0] % 2 ? ", finished" : "");
        printf(" (references: %" PRIu32 ", prefix bytes: %" PRIu32 ")\n", step[1], step[2]);
    }
    printf("output: ");
    print_hex(output, answer.size);
    printf("\n");
    if (answer.number != NIKVOLDRA_DONE) {
        printf("the session was refused: question %" PRIu32 "\n", answer.number);
        return 1;
    }
    /* The words of a quote, which adds nothing, count more bytes than there are. */
    if (answer.steps == 0 || words[3 * (answer.steps - 1)] != answer.size * 2 + 1) {
        printf("the session is not finished\n");
        return 0;
    }
    struct nikvoldra_read_answer read =
        nikvoldra_read(output, answer.size, work, NIKVOLDRA_WORK_LENGTH, pairs, NIKVOLDRA_PAIRS_LENGTH, atoms,
                       NIKVOLDRA_ATOMS_LENGTH, bytes, NIKVOLDRA_BYTES_LENGTH);
    if (read.number != NIKVOLDRA_DONE) {
        printf("the reading was refused: question %" PRIu32 "\n", read.number);
        return 1;
    }
    int nodes = 1000;
    printf("read back: ");
    print_tree(read.root, &nodes);
    printf("\n");
    return 0;
}

int main(int count, char **arguments) {
    int documented = count > 1 && strcmp(arguments[1], "--documented") == 0;
    const char *name = arguments[1 + documented];
    if (count > 2 + documented || (name != NULL && name[0] == '-')) {
        fprintf(stderr, "usage: session [--documented] [FILE]\n");
        return 2;
    }
    if (name == NULL) {
        make_session();
    } else if (!load_session(name)) {
        return 2;
    }
    int status = 2;
    if (make_slices()) {
        status = run_session(documented);
    } else {
        fprintf(stderr, "there is no memory for the slices\n");
    }
    free_slices();
    return status;
}
