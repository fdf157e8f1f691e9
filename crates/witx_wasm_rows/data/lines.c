// Copies the lines of a file to standard output.
#include <stdio.h>
#include <stdlib.h>

int main(int argc, char **argv) {
    FILE *file = fopen(argc > 1 ? argv[1] : "names.txt", "r");
    if (file == NULL) {
        return EXIT_FAILURE;
    }
    char line[256];
    while (fgets(line, sizeof line, file) != NULL) {
        fputs(line, stdout);
    }
    return fclose(file);
}
