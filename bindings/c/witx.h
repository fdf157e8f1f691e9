/* The program `witx` as one call, over bytes in memory. The library behind it is proved; see ../README.md. */
#ifndef WITX_H
#define WITX_H

#include <stddef.h>
#include <stdint.h>

#ifdef __cplusplus
extern "C" {
#endif

/* How many bytes the two texts of a run have, whether or not they fitted. */
typedef struct witx_lengths {
    size_t out;
    size_t err;
} witx_lengths;

/* The statuses of a run, as the program's. The program's 3 and 4, for an input that can't be read and a text
 * that can't be written, don't come here. */
enum {
    WITX_DONE = 0,
    WITX_REFUSED = 1,   /* with the reason in err */
    WITX_NO_FORM = 2,   /* with the usage in err */
    WITX_NO_MEMORY = 5, /* with nothing in either */
    WITX_NO_BUNDLE = 6  /* with the reason in err */
};

/* Runs the program over words and an input in memory; answers its status.
 *
 * words: those of the command line behind the program's name, with a byte 0 between two and none behind the
 * last, as "adapt\0/log.witx" with a length of 15. Bytes that aren't UTF-8 have no form.
 *
 * input: what the program reads on standard input: a bundle, in which a line ";;;; file PATH" stands before
 * each text, at most 4194304 bytes. `sample` reads nothing.
 *
 * out, err: as much of what the program writes on standard output as fits is put at the front of out, and of
 * what it writes on standard error at the front of err; what stands behind it stays. lengths tells how long
 * both texts are, so a caller whose buffer was too small calls again with a larger one, for the same texts.
 *
 * What the caller owes: no pointer is null, also where its length is 0. out, err and lengths overlap nothing,
 * and words and input stay as they are during the call. No length is 2^63 or more.
 *
 * Memory is taken by rattle_alloc and rattle_realloc and given back by rattle_dealloc, all of it before the
 * call returns; heap.c beside this file defines the three over malloc. Nothing is kept between calls, and
 * calls on several threads don't meet. No call is made in a signal handler, nor in the child of a fork of a
 * process with several threads. */
uint8_t witx_run(const uint8_t *words, size_t words_len,
                 const uint8_t *input, size_t input_len,
                 uint8_t *out, size_t out_len,
                 uint8_t *err, size_t err_len,
                 witx_lengths *lengths);

#ifdef __cplusplus
}
#endif

#endif
