/* Runs and measures `slices` and `wire` through the calls of crates/wire_probes. A slice is two arguments: where it
   starts and how long it is. */
#include <stdbool.h>
#include <stdint.h>
#include <stdio.h>
#include <stdlib.h>
#include <string.h>
#include <sys/resource.h>
#include <time.h>

size_t probes_field_end(const uint8_t *s, size_t len, size_t at);
uint64_t probes_xor_numbers(const uint8_t *s, size_t len);
bool probes_all_zero(const uint8_t *s, size_t len);
void probes_clear(uint8_t *s, size_t len);
void probes_copy(uint8_t *d, size_t d_len, const uint8_t *s, size_t len);
uint8_t probes_compare(const uint8_t *a, size_t a_len, const uint8_t *b, size_t b_len);

enum { MIB = 1 << 20 };

static int failed;

static void expect(const char *what, uint64_t got, uint64_t want) {
    if (got != want) {
        printf("%s: %llu instead of %llu\n", what, (unsigned long long)got, (unsigned long long)want);
        failed = 1;
    }
}

static double now_ns(void) {
    struct timespec t;
    clock_gettime(CLOCK_MONOTONIC, &t);
    return (double)t.tv_sec * 1e9 + (double)t.tv_nsec;
}

/* One number in as many bytes as it needs; gives how many. */
static size_t put(uint8_t *s, uint64_t n) {
    size_t i = 0;
    while (n >= 128) {
        s[i++] = (uint8_t)(n | 128);
        n >>= 7;
    }
    s[i++] = (uint8_t)n;
    return i;
}

/* The best of some runs over the buffer, in nanoseconds a number. */
static double per_number(const uint8_t *s, size_t len, size_t count, uint64_t want) {
    double best = 1e18;
    for (int run = 0; run < 200; run++) {
        double start = now_ns();
        uint64_t got = probes_xor_numbers(s, len);
        double took = now_ns() - start;
        expect("exclusive or of the numbers", got, want);
        if (took < best) best = took;
    }
    return best / (double)count;
}

/* Numbers of one byte, or of one to ten bytes in turn of chance. */
static void measure(uint8_t *s, const char *what, int longest) {
    uint64_t seed = 88172645463325252u, want = 0;
    size_t len = 0, count = 0;
    while (len + 10 <= MIB) {
        seed ^= seed << 13, seed ^= seed >> 7, seed ^= seed << 17;
        int bytes = 1 + (int)(seed % (uint64_t)longest);
        uint64_t n = bytes == 10 ? seed | (uint64_t)1 << 63 : (seed >> 1) % ((uint64_t)1 << (7 * bytes));
        want ^= n, count++;
        len += put(s + len, n);
    }
    printf("%s: %.2f ns a number (%zu numbers)\n", what, per_number(s, len, count, want), count);
}

/* The best of some runs, in bytes a nanosecond. */
#define SPEED(what, call)                                           \
    do {                                                            \
        double best = 1e18;                                         \
        for (int run = 0; run < 60; run++) {                        \
            double start = now_ns();                                \
            call;                                                   \
            double took = now_ns() - start;                         \
            if (took < best) best = took;                           \
        }                                                           \
        printf("%s: %.1f bytes a ns\n", what, (double)LONG / best); \
    } while (0)

enum { LONG = 32 << 20 };

static void measure_slices(void) {
    uint8_t *a = calloc(1, LONG), *b = calloc(1, LONG);
    if (!a || !b) exit(2);
    memset(b, 0, LONG);
    SPEED("clear of memory never written", probes_clear(a, LONG));
    SPEED("memset and clear of other bytes", (memset(a, 7, LONG), probes_clear(a, LONG)));
    SPEED("clear of zeros", probes_clear(a, LONG));
    SPEED("zero check", probes_all_zero(a, LONG));
    expect("all zeros when cleared", probes_all_zero(a, LONG), 1);
    a[LONG - 1] = 1;
    expect("a last byte of 1", probes_all_zero(a, LONG), 0);
    expect("order", probes_compare(b, LONG, a, LONG), 0);
    expect("order of a prefix", probes_compare(a, LONG, a, LONG - 1), 2);
    SPEED("compare", probes_compare(b, LONG, a, LONG));
    SPEED("copy", probes_copy(b, LONG, a, LONG));
    SPEED("memcpy", memcpy(b, a, LONG));
    SPEED("memset", memset(b, 7, LONG));
    probes_copy(b, LONG, a, LONG);
    expect("order when copied", probes_compare(b, LONG, a, LONG), 1);
    free(a);
    free(b);
}

int main(void) {
    uint8_t *s = malloc(MIB + 2);
    if (!s) return 2;
    struct rlimit stack;
    getrlimit(RLIMIT_STACK, &stack);

    /* A group of 1 MiB that holds nothing but fields of two bytes: one turn of a loop for each, and no stack. */
    s[0] = 0x0b;
    for (size_t i = 1; i < MIB - 1; i += 2) s[i] = 0x10, s[i + 1] = 0x01;
    s[MIB - 1] = 0x0c;
    expect("end of a group of 1 MiB", probes_field_end(s, MIB, 0), MIB);
    expect("the same group, cut by a byte", probes_field_end(s, MIB - 1, 0), 0);
    printf("a group of 1 MiB with %d fields, on a stack of %llu KiB: skipped\n", MIB / 2 - 1,
           (unsigned long long)stack.rlim_cur / 1024);

    measure(s, "numbers of one byte", 1);
    measure(s, "numbers of one or two bytes", 2);
    measure(s, "numbers of one to ten bytes", 10);
    free(s);
    measure_slices();
    return failed;
}
