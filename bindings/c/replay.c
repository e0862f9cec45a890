/* A list of calls replayed at the published lengths, beside the same calls made one by one: both tell the same bytes.
 *
 *   replay DIRECTORY    with the files of the ride's morning */
#include <mipsuqal.h>
#include <stdio.h>
#include <stdlib.h>
#include <string.h>

enum kind { MESSAGE = 1, ALERTS = 2, VEHICLES = 3, CARD = 4, REPORT = 5 };

struct step {
    enum kind kind;
    const char *feed, *file;
    size_t out; /* the length of the output that it asks for */
};

/* Two suppliers, sheets, a damaged message, a report of another length: numbers 0, 4 and 1. */
static const struct step steps[] = {
    {MESSAGE, "north", "north-1.pb", MIPSUQAL_OVERLAY}, {MESSAGE, "city", "city-1.pb", MIPSUQAL_OVERLAY},
    {CARD, "", "journey.card", MIPSUQAL_CARD},          {ALERTS, "city", "city.alerts", MIPSUQAL_OVERLAY},
    {VEHICLES, "north", "north.vehicles", MIPSUQAL_OVERLAY}, {MESSAGE, "north", "north-3.pb", MIPSUQAL_OVERLAY},
    {MESSAGE, "north", "north-2.pb", MIPSUQAL_OVERLAY}, {CARD, "", "journey.card", MIPSUQAL_CARD},
    {REPORT, "north", NULL, MIPSUQAL_REPORT},           {REPORT, "north", NULL, MIPSUQAL_REPORT - 1},
};
#define STEPS (sizeof(steps) / sizeof(steps[0]))
#define CLOCK 1794809100
#define ROOM 262144

static const size_t message_work[] = {MIPSUQAL_KEYS, MIPSUQAL_MARKS, MIPSUQAL_ORDER};
static const size_t card_work[] = {MIPSUQAL_CANDIDATES, MIPSUQAL_MET, MIPSUQAL_NOTED, MIPSUQAL_KNOWN};
static struct mipsuqal_work work;
static uint8_t input[MIPSUQAL_LONGEST_INPUT], script[ROOM], told[ROOM], ours[ROOM];

static size_t bytes_of(const char *directory, const char *file) {
    char name[4096];
    size_t length;
    FILE *from;
    if (file == NULL)
        return 0;
    snprintf(name, sizeof name, "%s/%s", directory, file);
    from = fopen(name, "rb");
    if (from == NULL) {
        perror(name);
        exit(66);
    }
    length = fread(input, 1, sizeof input, from);
    fclose(from);
    return length;
}

static uint8_t *number(uint8_t *to, uint64_t n) {
    for (; n >= 128; n >>= 7)
        *to++ = (uint8_t)(n | 128);
    *to++ = (uint8_t)n;
    return to;
}

static uint8_t *text(uint8_t *to, const void *bytes, size_t length) {
    to = number(to, length);
    memcpy(to, bytes, length);
    return to + length;
}

static uint8_t *lengths(uint8_t *to, const size_t *of, size_t count) {
    to = number(to, count);
    while (count-- > 0)
        to = number(to, *of++);
    return to;
}

/* A step as a script has it (docs/TEST-CALLS.md). */
static uint8_t *written(uint8_t *to, const struct step *step, size_t length) {
    *to++ = (uint8_t)step->kind;
    to = text(to, step->feed, strlen(step->feed));
    to = text(to, input, length);
    to = number(to, 2 * (uint64_t)CLOCK);
    to = number(to, step->out);
    if (step->kind == MESSAGE)
        return lengths(to, message_work, 3);
    return step->kind == CARD ? lengths(to, card_work, 4) : lengths(to, NULL, 0);
}

/* The same step as a call; what it answers goes to `out`, or into the overlay `other`. */
static uint32_t called(const struct step *step, size_t length, const uint8_t *old, uint8_t *other, uint8_t *out) {
    const uint8_t *feed = (const uint8_t *)step->feed;
    size_t named = strlen(step->feed);
    switch (step->kind) {
    case MESSAGE:
        return mipsuqal_take_message(old, feed, named, input, length, other, &work);
    case ALERTS:
        return mipsuqal_take_alerts(old, feed, named, input, length, other);
    case VEHICLES:
        return mipsuqal_take_vehicles(old, feed, named, input, length, CLOCK, other);
    case CARD:
        return mipsuqal_finish_card(old, input, length, out, &work);
    default:
        return mipsuqal_report(old, MIPSUQAL_OVERLAY, feed, named, out, step->out);
    }
}

int main(int count, char **words) {
    uint8_t *overlay[2] = {calloc(1, MIPSUQAL_OVERLAY), calloc(1, MIPSUQAL_OVERLAY)};
    uint8_t *end = number(script, STEPS), *at = ours;
    uint32_t now = 0, answer;
    size_t k;
    if (count != 2 || overlay[0] == NULL || overlay[1] == NULL || mipsuqal_fresh(overlay[0], MIPSUQAL_OVERLAY) != 0)
        return 64;
    for (k = 0; k < STEPS; k++) {
        size_t length = bytes_of(words[1], steps[k].file);
        end = written(end, &steps[k], length);
        answer = called(&steps[k], length, overlay[now], overlay[1 - now], at + 1);
        *at = (uint8_t)answer;
        printf("%u ", answer);
        at += steps[k].kind >= CARD ? 1 + steps[k].out : 1;
        if (steps[k].kind < CARD && answer == 0)
            now = 1 - now;
    }
    answer = mipsuqal_replay(script, (size_t)(end - script), overlay[0], MIPSUQAL_OVERLAY, overlay[1], MIPSUQAL_OVERLAY,
                             told, ROOM, work.keys, MIPSUQAL_KEYS, work.marks, MIPSUQAL_MARKS, work.order,
                             MIPSUQAL_ORDER);
    printf("replayed: %u\n", answer);
    return answer != 0 || memcmp(told, ours, ROOM) != 0;
}
