// Waits for a moment, and answers a random number below six as its status.
#include <stdint.h>
#include <time.h>
#include <unistd.h>

int main(void) {
    struct timespec now, moment = {0, 1000000};
    uint8_t number;
    if (nanosleep(&moment, NULL) != 0 || clock_gettime(CLOCK_MONOTONIC, &now) != 0 || getentropy(&number, 1) != 0) {
        return 6;
    }
    return (number ^ now.tv_nsec) % 6;
}
