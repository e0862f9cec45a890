/* How long a decoder takes for a message, the processor's time, the best of many runs; and what stack it uses.
   usage: PROGRAM MESSAGE */
#include "decoder.h"
#include <pthread.h>
#include <stdio.h>
#include <stdlib.h>
#include <string.h>
#include <sys/mman.h>
#include <time.h>

enum { RUNS = 300, LONGEST = 1 << 20, STACK = 256 << 10, PAINT = 0xa5 };

static uint8_t message[LONGEST];
static size_t length, trips, updates;

static double millis(void) {
    struct timespec t;
    clock_gettime(CLOCK_THREAD_CPUTIME_ID, &t);
    return (double)t.tv_sec * 1e3 + (double)t.tv_nsec / 1e6;
}

static void *once(void *argument) {
    (void)argument;
    return decode(message, length, &trips, &updates) ? message : NULL;
}

/* Bytes of a painted stack that are not as painted, less those of a thread that does nothing. */
static void *nothing(void *argument) {
    return argument;
}

static size_t depth(void *(*run)(void *)) {
    uint8_t *stack = mmap(NULL, STACK, PROT_READ | PROT_WRITE, MAP_PRIVATE | MAP_ANONYMOUS, -1, 0);
    pthread_attr_t attributes;
    pthread_t thread;
    memset(stack, PAINT, STACK);
    pthread_attr_init(&attributes);
    pthread_attr_setstack(&attributes, stack, STACK);
    if (pthread_create(&thread, &attributes, run, message) || pthread_join(thread, NULL)) exit(2);
    size_t untouched = 0;
    while (untouched < STACK && stack[untouched] == PAINT) untouched++;
    munmap(stack, STACK);
    return STACK - untouched;
}

int main(int count, char **words) {
    FILE *file = count > 1 ? fopen(words[1], "rb") : NULL;
    double best = 1e18;
    if (!file || !(length = fread(message, 1, LONGEST, file))) return 2;
    for (int run = 0; run < RUNS; run++) {
        double start = millis();
        if (!once(NULL)) return 1;
        double took = millis() - start;
        if (took < best) best = took;
    }
    size_t idle = depth(nothing), used = depth(once);
    printf("%.3f %zu %zu %zu\n", best, trips, updates, used - idle);
    return 0;
}
