/* Prints the listing of the interface in the file named on the command line.
 *
 *     cc -O2 example.c heap.c ../../crates/witx_c/out/libwitx_c.a -o example && ./example ../../examples/log/log.witx */
#include "witx.h"
#include <stdio.h>
#include <stdlib.h>

int main(int argc, char **argv) {
    static const char words[] = "adapt\0/log.witx";
    static const char header[] = ";;;; file /log.witx\n";
    static char input[1 << 22];
    FILE *file = argc == 2 ? fopen(argv[1], "rb") : NULL;
    if (file == NULL) {
        return WITX_NO_FORM;
    }
    size_t length = (size_t)snprintf(input, sizeof input, "%s", header);
    length += fread(input + length, 1, sizeof input - length, file);
    fclose(file);

    witx_lengths lengths = {1 << 12, 1 << 12};
    for (;;) {
        witx_lengths room = lengths;
        uint8_t *out = malloc(room.out + 1), *err = malloc(room.err + 1);
        if (out == NULL || err == NULL) {
            return WITX_NO_MEMORY;
        }
        uint8_t status = witx_run((const uint8_t *)words, sizeof words - 1, (const uint8_t *)input, length,
                                  out, room.out, err, room.err, &lengths);
        int whole = lengths.out <= room.out && lengths.err <= room.err;
        if (whole) {
            fwrite(out, 1, lengths.out, stdout);
            fwrite(err, 1, lengths.err, stderr);
        }
        free(out);
        free(err);
        if (whole) {
            return status;
        }
    }
}
