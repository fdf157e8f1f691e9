/* A program that writes a line and flushes the log, as a compiler makes a WebAssembly module of it. */
#define FROM(module, name) __attribute__((import_module(module), import_name(name)))

FROM("log", "write") int log_write(const char *text, unsigned length, unsigned *written);
FROM("log", "flush") int log_flush(void);

static unsigned written;

int run(void) {
    return log_write("started\n", 8, &written) ? -1 : log_flush();
}
