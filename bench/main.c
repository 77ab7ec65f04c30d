/*
 * The Rust side as a program: what standard input asks for, through the library of rust/. With PLAY it is the trace
 * program. A Rust main needs more of the system than an emulator has to offer, hence this one.
 */
#include <inttypes.h>
#include <stdint.h>
#include <stdio.h>
#include <unistd.h>

uint64_t rust_measured(const uint8_t *bytes, size_t n);
size_t rust_play(const uint8_t *bytes, size_t n, uint8_t *out, size_t room);

/* As the proved trace program has them: a trace and one byte more, and all that it prints. */
#define TRACE_ROOM 65537
#define TEXT_ROOM 2424906

int main(void) {
    static uint8_t in[TRACE_ROOM];
    size_t n = 0;
    ssize_t got;
    while (n < sizeof in && (got = read(0, in + n, sizeof in - n)) > 0) n += (size_t)got;
#ifdef PLAY
    static uint8_t out[TEXT_ROOM];
    size_t k = rust_play(in, n, out, sizeof out);
    for (size_t done = 0; done < k && (got = write(1, out + done, k - done)) > 0;) done += (size_t)got;
#else
    printf("%" PRIu64, rust_measured(in, n));
#endif
    return 0;
}
