/* The program `witx` in C: words on the command line, a bundle on standard input. tools/check-bindings holds
 * what it writes against what the proved program writes. */
#include "witx.h"
#include <stdio.h>
#include <stdlib.h>
#include <string.h>

/* Statuses of the program that the library has no need of. */
enum { CANNOT_READ = 3, CANNOT_WRITE = 4 };

struct text {
    uint8_t *at;
    size_t len;
    size_t room;
};

static void make_room(struct text *text, size_t room) {
    text->at = realloc(text->at, room != 0 ? room : 1);
    if (text->at == NULL) {
        exit(WITX_NO_MEMORY);
    }
    text->room = room;
}

static void read_all(struct text *text, FILE *file) {
    do {
        if (text->len == text->room) {
            make_room(text, 2 * text->room + 1);
        }
        text->len += fread(text->at + text->len, 1, text->room - text->len, file);
    } while (!feof(file) && !ferror(file));
}

static void join_words(struct text *words, int count, char **word) {
    for (int i = 0; i < count; i++) {
        size_t len = strlen(word[i]);
        make_room(words, words->len + len + 1);
        memcpy(words->at + words->len, word[i], len);
        words->len += len;
        words->at[words->len] = 0;
        words->len += i + 1 < count;
    }
}

static uint8_t run(const struct text *words, const struct text *input, struct text *out, struct text *err) {
    witx_lengths lengths;
    uint8_t status = witx_run(words->at, words->len, input->at, input->len, out->at, out->room, err->at, err->room, &lengths);
    out->len = lengths.out;
    err->len = lengths.err;
    return status;
}

int main(int argc, char **argv) {
    struct text words = {0}, input = {0}, out = {0}, err = {0};
    make_room(&words, 1);
    make_room(&input, 1 << 16);
    make_room(&out, 1 << 16);
    make_room(&err, 1 << 16);
    join_words(&words, argc - 1, argv + 1);
    read_all(&input, stdin);
    if (ferror(stdin)) {
        return CANNOT_READ;
    }
    uint8_t status = run(&words, &input, &out, &err);
    if (out.len > out.room || err.len > err.room) {
        make_room(&out, out.len);
        make_room(&err, err.len);
        status = run(&words, &input, &out, &err);
    }
    if (fwrite(out.at, 1, out.len, stdout) != out.len || fflush(stdout) != 0 || fwrite(err.at, 1, err.len, stderr) != err.len) {
        status = CANNOT_WRITE;
    }
    free(words.at);
    free(input.at);
    free(out.at);
    free(err.at);
    return status;
}
