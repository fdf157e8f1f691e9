// Writes the words of the command line and one of the environment.
#include <stdio.h>
#include <stdlib.h>

int main(int argc, char **argv) {
    for (int i = 0; i < argc; i++) {
        puts(argv[i]);
    }
    const char *home = getenv("HOME");
    return puts(home == NULL ? "no home" : home) < 0;
}
