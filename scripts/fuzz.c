/* Hands each input that AFL++ makes to the three calls of crates/cg_fuzzed; see fuzz. It is compiled by afl-clang-fast. */
#include <stddef.h>
#include <stdint.h>
#include <unistd.h>

size_t cg_decode(const uint8_t *bytes, size_t size, uint8_t *out, size_t room);
size_t cg_feed(const uint8_t *front, size_t front_size, const uint8_t *back, size_t back_size, uint8_t *out, size_t room);
size_t cg_respond(const uint8_t *bytes, size_t size, uint8_t *out, size_t room);

static uint8_t out[1 << 16];

__AFL_FUZZ_INIT();

int main(void) {
    __AFL_INIT();
    const uint8_t *bytes = __AFL_FUZZ_TESTCASE_BUF;
    while (__AFL_LOOP(100000)) {
        size_t size = __AFL_FUZZ_TESTCASE_LEN, half = size / 2;
        cg_decode(bytes, size, out, sizeof out);
        cg_feed(bytes, half, bytes + half, size - half, out, sizeof out);
        cg_respond(bytes, size, out, sizeof out);
    }
    return 0;
}
