/* A journey's card by a supplier's message, and by the alerts of another one: reads them from files and prints the
 * card's head.
 *
 *   cc card.c $(pkg-config --cflags --libs mipsuqal) -o card && ./card north north-2.pb journey.card
 *   ./card city city-1.pb journey.card city.alerts.pb */
#include <mipsuqal.h>
#include <stdio.h>
#include <stdlib.h>
#include <string.h>

/* A file's bytes, at most `room`; one more says that it is too long, and the call then refuses it by 3. */
static size_t bytes_of(const char *name, uint8_t *to, size_t room) {
    FILE *file = fopen(name, "rb");
    size_t length;
    if (file == NULL) {
        perror(name);
        exit(66);
    }
    length = fread(to, 1, room, file);
    fclose(file);
    return length;
}

/* A number of the card: seven bits a byte, low first. The place moves on. */
static uint64_t number(const uint8_t **at) {
    uint64_t value = 0;
    int shift = 0;
    while (**at >= 128) {
        value |= (uint64_t)(*(*at)++ & 127) << shift;
        shift += 7;
    }
    return value | (uint64_t)*(*at)++ << shift;
}

/* A signed number: 2n, or -2n - 1 below zero. */
static int64_t signed_number(const uint8_t **at) {
    uint64_t code = number(at);
    return (int64_t)(code >> 1) ^ -(int64_t)(code & 1);
}

static void print_card(const uint8_t *card) {
    static const char *const status[] = {"SCHEDULED", "ON_TIME", "DISRUPTED", "DELAYED", "CANCELLED"};
    const uint8_t *at = card + 1;
    long long departure = signed_number(&at), arrival = signed_number(&at), duration = signed_number(&at);
    printf("[ %s ] departure %lld, arrival %lld, %lld s\n", status[number(&at)], departure, arrival, duration);
    for (uint64_t headers = number(&at); headers > 0; headers--) {
        int length = (int)number(&at);
        printf("! %.*s\n", length, (const char *)at);
        at += length;
    }
    printf("%llu legs\n", (unsigned long long)number(&at));
}

/* 0, or the refusal's number, which ends the program. */
static void accept(const char *call, uint32_t refused) {
    if (refused != MIPSUQAL_ACCEPTED) {
        fprintf(stderr, "%s: refused by question %u\n", call, refused);
        exit((int)refused);
    }
}

int main(int count, char **words) {
    /* calloc: pages that no call writes cost no memory. */
    uint8_t *overlay[] = {calloc(MIPSUQAL_OVERLAY, 1), calloc(MIPSUQAL_OVERLAY, 1)};
    static uint8_t input[MIPSUQAL_LONGEST_INPUT + 1], sheet[MIPSUQAL_SHEET], card[MIPSUQAL_CARD];
    static struct mipsuqal_work work;
    const uint8_t *feed = (const uint8_t *)words[1];
    size_t length;
    int counts = 0; /* which of the two overlays does */
    if (count < 4 || count > 5 || overlay[0] == NULL || overlay[1] == NULL) {
        fprintf(stderr, "usage: card FEED MESSAGE CARD [ALERTS]\n");
        return 64;
    }
    accept("fresh", mipsuqal_fresh(overlay[counts], MIPSUQAL_OVERLAY));

    length = bytes_of(words[2], input, sizeof input);
    accept("message", mipsuqal_take_message(overlay[counts], feed, strlen(words[1]), input, length,
                                            overlay[1 - counts], &work));
    counts = 1 - counts; /* accepted: from here on the other one counts */
    if (count == 5) {
        length = bytes_of(words[4], input, sizeof input);
        accept("alerts", mipsuqal_take_alert_message(overlay[counts], feed, strlen(words[1]), input, length,
                                                     overlay[1 - counts], sheet));
        counts = 1 - counts;
    }
    length = bytes_of(words[3], input, sizeof input);
    accept("card", mipsuqal_finish_card(overlay[counts], input, length, card, &work));
    print_card(card);
    free(overlay[0]);
    free(overlay[1]);
    return 0;
}
