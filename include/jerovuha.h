/*
 * Jerovuha: all solutions of a one-output circuit as a list of cubes.
 *
 * One call takes the bytes of a circuit in ASCII AIGER and writes the text of its list, in Berkeley PLA. It is a proved
 * function: for every file, mode and text memory its contract says what the call gives and what the memory holds
 * afterwards. docs/C.md tells it in words.
 *
 * The library is crates/capi/out/libcapi.a, which `rt lib` makes in crates/capi. It needs nothing but memset.
 */
#ifndef JEROVUHA_H
#define JEROVUHA_H

#include <stddef.h>
#include <stdint.h>

#ifdef __cplusplus
extern "C" {
#endif

/* The modes. */
enum {
    JEROVUHA_SEPARATE = 1, /* a solution is in one cube */
    JEROVUHA_SHARED = 2    /* cubes may share rows */
};

/* So many bytes of text memory suffice for every list: 512 cubes of 30 inputs. */
enum { JEROVUHA_TEXT_BYTES = 512 * 33 + 64 };

/* The numbers of the refusals; docs/REFUSALS.md has the cases. 0 is none. */
enum {
    JEROVUHA_OK = 0,
    /* of the text layer */
    JEROVUHA_FILE_TOO_LONG = 1,
    JEROVUHA_MISFIT = 2,
    JEROVUHA_BAD_NUMBER = 3,
    /* of the circuit layer */
    JEROVUHA_INPUT_COUNT = 4,
    JEROVUHA_LATCH_COUNT = 5,
    JEROVUHA_OUTPUT_COUNT = 6,
    JEROVUHA_GATE_COUNT = 7,
    JEROVUHA_HIGHEST_VARIABLE = 8,
    JEROVUHA_GATE_TABLE = 9,
    JEROVUHA_INPUT_LINE = 10,
    JEROVUHA_OUTPUT_LITERAL = 11,
    JEROVUHA_GATE_LITERAL = 12,
    JEROVUHA_OPERAND = 13,
    JEROVUHA_SYMBOL_POSITION = 14,
    /* of the listing layer */
    JEROVUHA_MODE = 15,
    JEROVUHA_LISTING_INPUTS = 16,
    JEROVUHA_WAIVER = 17,
    JEROVUHA_REGISTER_FULL = 18,
    JEROVUHA_REGISTER_SHORT = 19,
    JEROVUHA_DECIDER_INPUTS = 20,
    /* of the table layer */
    JEROVUHA_TOO_MANY_INPUTS = 21,
    JEROVUHA_MEMORY_SHORT = 22
};

/* The layer that refuses. */
enum {
    JEROVUHA_LAYER_TEXT = 0,
    JEROVUHA_LAYER_CIRCUIT = 1,
    JEROVUHA_LAYER_LISTING = 2,
    JEROVUHA_LAYER_TABLE = 3
};

/* What the call was doing when it was refused. */
enum {
    JEROVUHA_STAGE_READING = 0,
    JEROVUHA_STAGE_DECIDING = 1,
    JEROVUHA_STAGE_LISTING = 2
};

/* What the call tells beside the text. After success all but `length` is 0; after a refusal `length` is 0. */
typedef struct jerovuha_answer {
    size_t length;   /* bytes of the text, which is not ended by a byte 0 */
    size_t place;    /* where it was refused: a byte of the file from 0, a line of it from 1, entries held, or the
                        number of bytes that the text needs; which one depends on the number */
    uint32_t number; /* the refusal's number, 1 to 22 */
    uint32_t layer;  /* one of JEROVUHA_LAYER_.. */
    uint32_t line;   /* the line of the file from 1; 0 where the refusal has none */
    uint32_t stage;  /* one of JEROVUHA_STAGE_.. */
} jerovuha_answer;

/*
 * Lists the solutions of the circuit in the file.
 *
 * Gives 0 (JEROVUHA_OK) and the text in the first answer->length bytes of the text memory, with all further bytes as they
 * were; or the number of the refusal, answer->number, with the whole text memory as it was. Any bytes may be brought as a
 * file, any number as a mode and a text memory of any length. *answer need not be set before, and all of it is set.
 *
 * The caller owns all memory that it brings, and the library keeps no pointer to it, nor anything else between calls.
 * The library allocates nothing; a call takes up to 74 kB of stack, most of it for its work memory, so leave it 96 KiB.
 * Calls in several threads at once are fine, each with text and answer of its own.
 *
 * What is asked of the caller: `file` points to `file_length` bytes, `text` to `text_length` bytes that may be written,
 * `answer` to an answer; no pointer is null, not even with a length of 0; and text, answer and file do not overlap.
 */
uint32_t jerovuha_list(const uint8_t *file, size_t file_length, uint32_t mode, uint8_t *text, size_t text_length,
                       jerovuha_answer *answer);

#ifdef __cplusplus
}
#endif

#endif
