/* A panel whose power is cut: a child makes calls on two overlays (keep.h) until it is killed, between calls or inside
   one; its parent then looks at what is left on the medium. Of what was not synced, each sector of 512 bytes is there
   or not by chance, or all of it is, as where the process alone dies. Lost is a state that the child had told of, or
   one that is not, byte for byte, what the same calls leave when nothing is cut.
   usage: power SEED TRIES [backwards]    backwards: the record before the overlay, which has to lose states */
#include "keep.h"
#include <signal.h>
#include <stdio.h>
#include <stdlib.h>
#include <string.h>
#include <sys/mman.h>
#include <sys/wait.h>
#include <time.h>
#include <unistd.h>

#ifdef EXPORTED
#define CALL(name) mipsuqal_##name
enum { LENGTH = 111398044, LONGEST_US = 1500000 };
#else
#define CALL(name) states_##name
enum { LENGTH = 16384, LONGEST_US = 3000 };
#endif

uint32_t CALL(fresh)(uint8_t *, size_t);
uint32_t CALL(message)(const uint8_t *, size_t, const uint8_t *, size_t, const uint8_t *, size_t, uint8_t *, size_t,
                       uint8_t *, size_t, uint32_t *, size_t, uint32_t *, size_t);
uint32_t CALL(alert_sheet)(const uint8_t *, size_t, const uint8_t *, size_t, const uint8_t *, size_t, uint8_t *,
                           size_t);
uint32_t CALL(vehicle_sheet)(const uint8_t *, size_t, const uint8_t *, size_t, const uint8_t *, size_t, int64_t,
                             uint8_t *, size_t);
uint32_t CALL(report)(const uint8_t *, size_t, const uint8_t *, size_t, uint8_t *, size_t);

enum { SECTOR = 512, KEYS = 280713, MARKS = 6147, ORDER = 2049 };

static uint8_t keys[KEYS];
static uint32_t marks[MARKS], order[ORDER];

/* What the child is doing, where the parent can see it. */
enum phase { BETWEEN, CALLING, REFUSED, SYNCING, RECORDING, PHASES };
static const char *const phase_names[PHASES] = {"between calls", "inside a call", "inside a refused call",
                                                "inside a sync", "at the record"};
static volatile int *phase;

static uint8_t *disk;
static bool backwards;

static void fail(const char *what) {
    perror(what);
    exit(2);
}

static uint64_t mixed(uint64_t n) {
    n += 0x9e3779b97f4a7c15u;
    n = (n ^ n >> 30) * 0xbf58476d1ce4e5b9u;
    n = (n ^ n >> 27) * 0x94d049bb133111ebu;
    return n ^ n >> 31;
}

static uint64_t seed;

static uint64_t random_below(uint64_t bound) {
    seed++;
    return mixed(seed) % bound;
}

/* Bytes of a message or a sheet. */
struct paper {
    uint8_t bytes[2048];
    size_t length;
};

static void put(struct paper *paper, uint64_t number) {
    while (number >= 128) {
        paper->bytes[paper->length++] = (uint8_t)(number | 128);
        number >>= 7;
    }
    paper->bytes[paper->length++] = (uint8_t)number;
}

static void put_text(struct paper *paper, const char *text) {
    put(paper, strlen(text));
    memcpy(paper->bytes + paper->length, text, strlen(text));
    paper->length += strlen(text);
}

static void put_field(struct paper *paper, uint64_t field, const struct paper *inner) {
    put(paper, field << 3 | 2);
    put(paper, inner->length);
    memcpy(paper->bytes + paper->length, inner->bytes, inner->length);
    paper->length += inner->length;
}

static void put_number(struct paper *paper, uint64_t field, uint64_t number) {
    put(paper, field << 3);
    put(paper, number);
}

/* A trip with some updates. */
static void put_trip(struct paper *paper, uint64_t n) {
    struct paper trip = {{0}, 0}, update = {{0}, 0}, inner = {{0}, 0}, entity = {{0}, 0};
    char id[16];
    snprintf(id, sizeof id, "T%u", (unsigned)(n % 24));
    put(&inner, 1 << 3 | 2);
    put_text(&inner, id);
    put_field(&trip, 1, &inner);
    for (uint64_t stop = 0; stop < n % 5; stop++) {
        update.length = inner.length = 0;
        put_number(&inner, 1, n % 600);
        put_number(&update, 1, stop);
        put_field(&update, 2, &inner);
        put_field(&trip, 2, &update);
    }
    put_field(&entity, 3, &trip);
    put_field(paper, 2, &entity);
}

static void put_message(struct paper *paper, uint64_t n) {
    struct paper header = {{0}, 0};
    put_number(&header, 2, n % 8 > 0);
    put_number(&header, 3, n % 4096);
    put_field(paper, 1, &header);
    for (uint64_t trip = 0; trip < n % 4; trip++) put_trip(paper, mixed(n + trip));
}

/* Each alert has a header and nothing else. */
static void put_alerts(struct paper *paper, uint64_t n) {
    put(paper, 1);
    put(paper, n % 4);
    for (uint64_t alert = 0; alert < n % 4; alert++) {
        char header[32];
        snprintf(header, sizeof header, "alert %llu", (unsigned long long)(n + alert) % 1000);
        put(paper, 1);
        put_text(paper, header);
        for (int empty = 0; empty < 5; empty++) put(paper, 0);
    }
}

static void put_vehicles(struct paper *paper, uint64_t n) {
    put(paper, 1);
    put(paper, n % 5);
    for (uint64_t vehicle = 0; vehicle < n % 5; vehicle++) {
        char key[8];
        snprintf(key, sizeof key, "V%u%u", (unsigned)vehicle, (unsigned)(n % 7));
        put_text(paper, key);
        put(paper, 0);
        for (int byte = 0; byte < 16; byte++) paper->bytes[paper->length++] = (uint8_t)(n >> byte);
        put(paper, 2 * (1000000 + n % 2000));
    }
}

static uint32_t call_message(const uint8_t *old, const struct paper *paper, const uint8_t *feed, uint8_t *new) {
    return CALL(message)(old, LENGTH, feed, 1, paper->bytes, paper->length, new, LENGTH, keys, KEYS, marks, MARKS,
                         order, ORDER);
}

/* The call that makes a generation out of the one before it: by its number, so that the parent can make it too. */
static uint32_t make(uint64_t generation, const uint8_t *old, uint8_t *new) {
    struct paper paper = {{0}, 0};
    uint64_t n = mixed(generation) >> 8;
    const uint8_t *feed = (const uint8_t *)(n % 3 ? "a" : "b");
    switch (n / 16 % 4) {
    case 0:
        put_alerts(&paper, n);
        return CALL(alert_sheet)(old, LENGTH, feed, 1, paper.bytes, paper.length, new, LENGTH);
    case 1:
        put_vehicles(&paper, n);
        return CALL(vehicle_sheet)(old, LENGTH, feed, 1, paper.bytes, paper.length, 1001000, new, LENGTH);
    default:
        put_message(&paper, n);
        return call_message(old, &paper, feed, new);
    }
}

/* A call that is refused for its last byte. */
static void refused(const uint8_t *old, uint8_t *new) {
    struct paper paper = {{0}, 0};
    put_message(&paper, 3);
    paper.bytes[paper.length++] = 0x0c;
    if (call_message(old, &paper, (const uint8_t *)"a", new) != 4) _exit(3);
}

static bool is_overlay(const uint8_t *overlay, size_t length) {
    uint8_t report[25];
    return CALL(report)(overlay, length, (const uint8_t *)"a", 1, report, sizeof report) != 2;
}

/* Points of its work at which the child may kill itself, and how many of them it passes before. */
static uint64_t points = UINT64_MAX;

static void point(void) {
    if (points-- == 0) raise(SIGKILL);
}

/* What msync does: afterwards the bytes are on the medium. */
static void to_disk(const struct keep *keep, size_t from, size_t bytes) {
    int before = *phase;
    *phase = SYNCING;
    for (size_t at = from; at < from + bytes; at += KEEP_PAGE) {
        if (!memcmp(disk + at, keep->base + at, KEEP_PAGE)) continue;
        point();
        memcpy(disk + at, keep->base + at, KEEP_PAGE);
    }
    point();
    *phase = before;
}

static void record_first(const struct keep *keep, int slot, uint64_t generation) {
    keep_record(keep, slot)[0] = generation;
    keep_record(keep, slot)[1] = ~generation;
    to_disk(keep, (size_t)slot * keep_slot(keep) + keep_record_at(keep), KEEP_PAGE);
    to_disk(keep, (size_t)slot * keep_slot(keep), keep_record_at(keep));
}

/* Kills this process after some time, wherever it is then. */
static void kill_within(uint64_t microseconds) {
    struct sigevent event = {.sigev_notify = SIGEV_SIGNAL, .sigev_signo = SIGKILL};
    struct itimerspec when = {.it_value = {microseconds / 1000000, (long)(microseconds % 1000000) * 1000 + 1}};
    timer_t timer;
    if (timer_create(CLOCK_MONOTONIC, &event, &timer) || timer_settime(timer, 0, &when, NULL)) fail("timer");
}

/* One accepted call more, with a refused one before it now and then; then it is told. */
static void advance(const struct keep *keep, int slot, uint64_t generation, int told) {
    const uint8_t *old = keep_overlay(keep, slot);
    uint8_t *new = keep_overlay(keep, 1 - slot);
    if (generation % 4 == 0) {
        *phase = REFUSED;
        refused(old, new);
    }
    *phase = CALLING;
    if (make(generation, old, new) != 0) _exit(3);
    *phase = RECORDING;
    (backwards ? record_first : keep_commit)(keep, 1 - slot, generation);
    *phase = BETWEEN;
    point();
    if (write(told, &generation, sizeof generation) != sizeof generation) _exit(3);
}

static void child(const struct keep *keep, int told) {
    int slot = keep_newest(keep);
    uint64_t generation = keep_generation(keep, slot);
    if (random_below(2))
        points = random_below(50);
    else
        kill_within(random_below(LONGEST_US));
    for (;;) {
        advance(keep, slot, ++generation, told);
        slot = 1 - slot;
    }
}

/* The newest generation that the child told of. */
static uint64_t heard(int told) {
    uint64_t generation, newest = 0;
    while (read(told, &generation, sizeof generation) == sizeof generation) newest = generation;
    return newest;
}

/* What is on the medium: what was synced, and of the rest each sector by chance, or all of it. */
static void cut(const struct keep *keep, size_t whole) {
    bool all = random_below(2);
    for (size_t page = 0; page < whole; page += KEEP_PAGE) {
        if (!memcmp(disk + page, keep->base + page, KEEP_PAGE)) continue;
        for (size_t at = page; at < page + KEEP_PAGE; at += SECTOR)
            if (all || random_below(2)) memcpy(disk + at, keep->base + at, SECTOR);
        memcpy(keep->base + page, disk + page, KEEP_PAGE);
    }
}

/* The states by the same calls when nothing is cut. */
struct uncut {
    uint8_t *overlays[2];
    uint64_t generation;
};

static const uint8_t *uncut_state(struct uncut *uncut, uint64_t generation) {
    while (uncut->generation < generation) {
        uint64_t next = ++uncut->generation;
        if (make(next, uncut->overlays[(next - 1) % 2], uncut->overlays[next % 2]) != 0) fail("a call");
    }
    return uncut->overlays[generation % 2];
}

/* Whether a state is lost. */
static bool lost(const struct keep *keep, struct uncut *uncut, uint64_t told) {
    int slot = keep_newest(keep);
    uint64_t generation = slot < 0 ? 0 : keep_generation(keep, slot);
    if (generation < told || generation < uncut->generation) return true;
    return memcmp(keep_overlay(keep, slot), uncut_state(uncut, generation), LENGTH) != 0;
}

static uint64_t run_child(const struct keep *keep) {
    int told[2], status;
    if (pipe(told)) fail("pipe");
    pid_t pid = fork();
    if (pid < 0) fail("fork");
    if (pid == 0) child(keep, told[1]);
    close(told[1]);
    if (waitpid(pid, &status, 0) != pid) fail("waitpid");
    if (!WIFSIGNALED(status) || WTERMSIG(status) != SIGKILL) {
        printf("power: the child ended by itself: %x\n", (unsigned)status);
        exit(1);
    }
    uint64_t newest = heard(told[0]);
    close(told[0]);
    return newest;
}

static uint8_t *mapped(size_t bytes, int file) {
    int flags = file < 0 ? MAP_SHARED | MAP_ANONYMOUS : MAP_SHARED;
    uint8_t *at = mmap(NULL, bytes, PROT_READ | PROT_WRITE, flags, file, 0);
    if (at == MAP_FAILED) fail("mmap");
    return at;
}

/* A file of its own, which no one else sees. */
static uint8_t *mapped_file(size_t bytes) {
    char name[] = "/tmp/overlays-XXXXXX";
    int file = mkstemp(name);
    if (file < 0 || unlink(name) || ftruncate(file, (off_t)bytes)) fail("file");
    return mapped(bytes, file);
}

static void begin(const struct keep *keep, struct uncut *uncut) {
    if (CALL(fresh)(keep_overlay(keep, 0), LENGTH) != 0) fail("a fresh overlay");
    keep_commit(keep, 0, 1);
    for (int slot = 0; slot < 2; slot++) uncut->overlays[slot] = mapped(LENGTH, -1);
    uncut->generation = 1;
    memcpy(uncut->overlays[1], keep_overlay(keep, 0), LENGTH);
}

int main(int count, char **words) {
    if (count < 3) return 2;
    seed = mixed(strtoull(words[1], NULL, 10));
    unsigned long tries = strtoul(words[2], NULL, 10), made = 0, at[PHASES] = {0}, losses = 0;
    struct keep keep = {NULL, LENGTH, to_disk, is_overlay};
    size_t whole = 2 * keep_slot(&keep);
    keep.base = mapped_file(whole);
    disk = mapped_file(whole);
    phase = (volatile int *)mapped(KEEP_PAGE, -1);
    struct uncut uncut;
    begin(&keep, &uncut);
    backwards = count > 3 && !strcmp(words[3], "backwards");
    for (; made < tries && losses == 0; made++) {
        uint64_t told = run_child(&keep);
        at[*phase]++;
        *phase = BETWEEN;
        seed += 1000003;
        cut(&keep, whole);
        losses += lost(&keep, &uncut, told);
    }
    printf("power: %lu tries, %llu generations", made, (unsigned long long)uncut.generation);
    for (int p = 0; p < PHASES; p++) printf(", %lu killed %s", at[p], phase_names[p]);
    printf("; %lu lost%s\n", losses, backwards ? " (the record before the overlay: one has to be)" : "");
    return (losses > 0) != backwards;
}
