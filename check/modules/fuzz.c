/* Ends a program by a signal where it doesn't end as each tool should, so that a fuzzer sees it. check/fuzz.py loads it before the C library.
   The exit status must be 0, 1, 2 or 6. With 0 nothing goes to standard error; with any other one line, and nothing to standard output. */
#define _GNU_SOURCE
#include <stddef.h>
#include <stdlib.h>
#include <sys/syscall.h>
#include <unistd.h>

static size_t bytes_out, bytes_said, lines_said;

/* Notes what was written, and writes it. */
ssize_t write(int stream, const void *bytes, size_t count) {
    if (stream == STDOUT_FILENO)
        bytes_out += count;
    if (stream == STDERR_FILENO) {
        bytes_said += count;
        for (size_t at = 0; at < count; at++)
            lines_said += ((const char *)bytes)[at] == '\n';
    }
    return syscall(SYS_write, stream, bytes, count);
}

/* Looks how the program ends. */
static void look_at_end(int status, void *nothing) {
    int is_done = status == 0 && bytes_said == 0;
    int is_refused = (status == 1 || status == 2 || status == 6) && lines_said == 1 && bytes_out == 0;
    (void)nothing;
    if (!is_done && !is_refused)
        abort();
}

__attribute__((constructor)) static void begin(void) {
    on_exit(look_at_end, NULL);
}
