/* Calls the library in every way that the header speaks of, and ends with status 1 and the line of the first
 * check that fails. The heap here refuses the call numbered `refuses`, and counts the blocks that are in use.
 *
 *     ./checks FILE LISTING     the interface text of FILE, and what `adapt` writes of it under the path /log.witx */
#include "witx.h"
#include <pthread.h>
#include <stdatomic.h>
#include <stdbool.h>
#include <stdio.h>
#include <stdlib.h>
#include <string.h>

enum { THREADS = 4, CALLS_A_THREAD = 2500 };

struct tried {
    bool ok;
    void *p;
};

static char nothing;
static atomic_long calls, blocks;
static long refuses = -1;

static struct tried tried(void *p) {
    return (struct tried){p != NULL, p != NULL ? p : &nothing};
}

struct tried rattle_alloc(size_t size, size_t align) {
    if (atomic_fetch_add(&calls, 1) == refuses) {
        return tried(NULL);
    }
    atomic_fetch_add(&blocks, 1);
    return tried(malloc(size != 0 ? size : align));
}

struct tried rattle_realloc(void *p, size_t kept, size_t size, size_t align) {
    (void)kept;
    if (atomic_fetch_add(&calls, 1) == refuses) {
        return tried(NULL);
    }
    return tried(realloc(p, size != 0 ? size : align));
}

void rattle_dealloc(void *p) {
    atomic_fetch_sub(&blocks, 1);
    free(p);
}

#define CHECK(holds)                                          \
    do {                                                      \
        if (!(holds)) {                                       \
            fprintf(stderr, "checks.c:%d: %s\n", __LINE__, #holds); \
            exit(1);                                          \
        }                                                     \
    } while (0)
#define BYTES(s) (const uint8_t *)(s), sizeof(s) - 1

static char bundle[1 << 16], listing[1 << 16];
static size_t bundle_len, listing_len;

static const char adapt[] = "adapt\0/log.witx";
static const char missing[] = "adapt\0/missing.witx";
static const char not_found[] = "witx: with file \"/missing.witx\": file not found\n";

static size_t read_file(const char *name, char *at, size_t room) {
    FILE *file = fopen(name, "rb");
    CHECK(file != NULL);
    size_t len = fread(at, 1, room, file);
    CHECK(len < room);
    fclose(file);
    return len;
}

static uint8_t run(const uint8_t *words, size_t len, uint8_t *out, size_t out_len, uint8_t *err, size_t err_len, witx_lengths *lengths) {
    return witx_run(words, len, (const uint8_t *)bundle, bundle_len, out, out_len, err, err_len, lengths);
}

static void texts_and_statuses(void) {
    static uint8_t out[1 << 16], err[1 << 16];
    witx_lengths lengths;

    CHECK(run(BYTES(adapt), out, sizeof out, err, sizeof err, &lengths) == WITX_DONE);
    CHECK(lengths.out == listing_len && memcmp(out, listing, listing_len) == 0 && lengths.err == 0);

    memset(out, '.', sizeof out);
    CHECK(run(BYTES(missing), out, sizeof out, err, sizeof err, &lengths) == WITX_REFUSED);
    CHECK(lengths.out == 0 && out[0] == '.');
    CHECK(lengths.err == sizeof not_found - 1 && memcmp(err, not_found, lengths.err) == 0);

    /* no word, a word of no form, words that aren't UTF-8 */
    CHECK(run(BYTES(""), out, sizeof out, err, sizeof err, &lengths) == WITX_NO_FORM);
    CHECK(lengths.out == 0 && memcmp(err, "usage: witx ", 12) == 0 && err[lengths.err - 1] == '\n');
    CHECK(run(BYTES("adopt"), out, sizeof out, err, sizeof err, &lengths) == WITX_NO_FORM);
    CHECK(run(BYTES("adapt\0\xff"), out, sizeof out, err, sizeof err, &lengths) == WITX_NO_FORM);

    CHECK(witx_run(BYTES(adapt), BYTES("no bundle"), out, sizeof out, err, sizeof err, &lengths) == WITX_NO_BUNDLE);
    CHECK(lengths.out == 0 && memcmp(err, "witx: ", 6) == 0);
}

static void small_buffers(void) {
    static uint8_t out[1 << 16], err[1 << 16];
    witx_lengths lengths;

    for (size_t room = 0; room <= listing_len; room++) {
        memset(out, '.', sizeof out);
        CHECK(run(BYTES(adapt), out, room, err, 0, &lengths) == WITX_DONE);
        CHECK(lengths.out == listing_len && lengths.err == 0);
        CHECK(memcmp(out, listing, room) == 0 && out[room] == '.');
    }
    for (size_t room = 0; room < sizeof not_found; room++) {
        memset(err, '.', sizeof err);
        CHECK(run(BYTES(missing), out, 0, err, room, &lengths) == WITX_REFUSED);
        CHECK(lengths.out == 0 && lengths.err == sizeof not_found - 1);
        CHECK(memcmp(err, not_found, room) == 0 && err[room] == '.');
    }
}

/* A run without some block of memory ends with status 5 and nothing written, or as it does with that block. */
static void refused_memory(void) {
    static uint8_t out[1 << 16], err[1 << 16];
    witx_lengths lengths;
    atomic_store(&calls, 0);
    CHECK(run(BYTES(adapt), out, sizeof out, err, sizeof err, &lengths) == WITX_DONE);
    long all = atomic_load(&calls);
    for (refuses = 0; refuses < all; refuses++) {
        atomic_store(&calls, 0);
        memset(out, '.', sizeof out);
        uint8_t status = run(BYTES(adapt), out, sizeof out, err, sizeof err, &lengths);
        CHECK(status == WITX_NO_MEMORY || status == WITX_DONE);
        CHECK(lengths.out == (status == WITX_DONE ? listing_len : 0) && lengths.err == 0);
        CHECK(status == WITX_DONE ? memcmp(out, listing, listing_len) == 0 : out[0] == '.');
        CHECK(atomic_load(&blocks) == 0);
    }
    refuses = -1;
    printf("checks: %ld calls for memory, each refused in turn\n", all);
}

static void *calls_of_a_thread(void *given) {
    (void)given;
    uint8_t *out = malloc(listing_len + 1), *err = malloc(sizeof not_found);
    CHECK(out != NULL && err != NULL);
    for (int i = 0; i < CALLS_A_THREAD; i++) {
        witx_lengths lengths;
        if (i % 2 == 0) {
            CHECK(run(BYTES(adapt), out, listing_len, err, 0, &lengths) == WITX_DONE);
            CHECK(lengths.out == listing_len && memcmp(out, listing, listing_len) == 0);
        } else {
            CHECK(run(BYTES(missing), out, 0, err, sizeof not_found, &lengths) == WITX_REFUSED);
            CHECK(lengths.err == sizeof not_found - 1 && memcmp(err, not_found, lengths.err) == 0);
        }
    }
    free(out);
    free(err);
    return NULL;
}

static void side_by_side(void) {
    pthread_t threads[THREADS];
    for (int i = 0; i < THREADS; i++) {
        CHECK(pthread_create(&threads[i], NULL, calls_of_a_thread, NULL) == 0);
    }
    for (int i = 0; i < THREADS; i++) {
        CHECK(pthread_join(threads[i], NULL) == 0);
    }
    CHECK(atomic_load(&blocks) == 0);
    printf("checks: %d calls on %d threads\n", THREADS * CALLS_A_THREAD, THREADS);
}

int main(int argc, char **argv) {
    CHECK(argc == 3);
    bundle_len = (size_t)snprintf(bundle, sizeof bundle, ";;;; file /log.witx\n");
    bundle_len += read_file(argv[1], bundle + bundle_len, sizeof bundle - bundle_len);
    listing_len = read_file(argv[2], listing, sizeof listing);
    texts_and_statuses();
    small_buffers();
    refused_memory();
    side_by_side();
    return 0;
}
