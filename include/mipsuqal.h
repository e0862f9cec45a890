/* Mipsuqal: the live journey card. The calls of the proved library, for C11 and C++17.
 *
 * Each of the panel's seven calls returns 0 (accepted) or the number of the first question that is answered by no (enum
 * mipsuqal_refusal). A refused one leaves zeros in its output. Each leaves the old overlay as it was, and zeros in its
 * working buffers. A slice is two arguments: where it begins and how many elements it has. What is asked of memory:
 * each slice is valid for its length, one that is written overlaps no other, and words are aligned. Nothing else is
 * asked: a wrong length is answered by 1.
 *
 * docs/CALLS.md and docs/LAYOUT.md say every form to the byte; docs/GUIDE.md says how to use it. */
#ifndef MIPSUQAL_H
#define MIPSUQAL_H

#include <stddef.h>
#include <stdint.h>

#ifdef __cplusplus
extern "C" {
#endif

/* ---- lengths, in elements ---- */

#define MIPSUQAL_OVERLAY 111398044   /* bytes: an overlay, old or new */
#define MIPSUQAL_CARD 65536          /* bytes: a finished card; also the longest that may arrive */
#define MIPSUQAL_REPORT 25           /* bytes: a report */
#define MIPSUQAL_SHEET 1048576       /* bytes: the alert sheet of a message */
#define MIPSUQAL_LONGEST_INPUT 1048576 /* bytes: the longest message or sheet */

#define MIPSUQAL_KEYS 280713         /* bytes */
#define MIPSUQAL_MARKS 6147          /* words of 32 bits */
#define MIPSUQAL_ORDER 2049          /* words of 32 bits */
#define MIPSUQAL_CANDIDATES 256      /* words of 16 bits */
#define MIPSUQAL_MET 256             /* words of 16 bits */
#define MIPSUQAL_NOTED 8208          /* words of 32 bits */
#define MIPSUQAL_KNOWN 4096          /* words of 32 bits */

/* ---- what a number says ---- */

enum mipsuqal_refusal {
    MIPSUQAL_ACCEPTED = 0,
    MIPSUQAL_WRONG_LENGTH = 1,  /* a buffer has not its published length */
    MIPSUQAL_NO_OVERLAY = 2,    /* the old buffer is no overlay (all zeros is none) */
    MIPSUQAL_TOO_LONG = 3,      /* message or sheet above 1,048,576 bytes, card above 65,536 */
    MIPSUQAL_BROKEN_FORM = 4,   /* the input has not its form, or ends too early or too late */
    MIPSUQAL_TEXT_LIMIT = 5,    /* a feed id, an id or a text is beyond its limits */
    MIPSUQAL_OUT_OF_RANGE = 6,  /* a time, the clock or a number is out of its range */
    MIPSUQAL_TOO_MANY = 7,      /* there would be too many feeds, trips, updates, vehicles, alerts, ids, legs .. */
    MIPSUQAL_CARD_TOO_LONG = 8  /* finished card or sheet too long: above 65,536 bytes, or 1,048,576 */
};

/* A card's status: the number behind departure, arrival and duration. */
enum mipsuqal_status {
    MIPSUQAL_SCHEDULED = 0,
    MIPSUQAL_ON_TIME = 1,
    MIPSUQAL_DISRUPTED = 2,
    MIPSUQAL_DELAYED = 3,
    MIPSUQAL_CANCELLED = 4
};

/* A kind of form: what mipsuqal_end is asked about. */
#define MIPSUQAL_KIND_CARD 0
#define MIPSUQAL_KIND_ALERT_SHEET 1
#define MIPSUQAL_KIND_VEHICLE_SHEET 2

/* ---- the calls ---- */

/* A fresh overlay: no feeds, version 0. */
uint32_t mipsuqal_fresh(uint8_t *new_overlay, size_t new_length);

/* A supplier's GTFS Realtime message, onto the old overlay, into the new one. */
uint32_t mipsuqal_message(const uint8_t *old_overlay, size_t old_length, const uint8_t *feed, size_t feed_length,
                          const uint8_t *message, size_t message_length, uint8_t *new_overlay, size_t new_length,
                          uint8_t *keys, size_t keys_length, uint32_t *marks, size_t marks_length, uint32_t *order,
                          size_t order_length);

/* An alert sheet replaces the feed's alerts. */
uint32_t mipsuqal_alert_sheet(const uint8_t *old_overlay, size_t old_length, const uint8_t *feed, size_t feed_length,
                              const uint8_t *sheet, size_t sheet_length, uint8_t *new_overlay, size_t new_length);

/* A vehicle sheet goes over the feed's vehicles; those updated before clock - 900 go. Clock: seconds since 1970 UTC. */
uint32_t mipsuqal_vehicle_sheet(const uint8_t *old_overlay, size_t old_length, const uint8_t *feed, size_t feed_length,
                                const uint8_t *sheet, size_t sheet_length, int64_t clock, uint8_t *new_overlay,
                                size_t new_length);

/* A card by the overlay: the finished card in `out`, then zeros. */
uint32_t mipsuqal_card(const uint8_t *old_overlay, size_t old_length, const uint8_t *card, size_t card_length,
                       uint8_t *out, size_t out_length, uint16_t *candidates, size_t candidates_length, uint16_t *met,
                       size_t met_length, uint32_t *noted, size_t noted_length, uint32_t *known, size_t known_length);

/* On a feed: version (8 bytes, low first), trip_update_count (8), whether there is a header timestamp (1), it (8). */
uint32_t mipsuqal_report(const uint8_t *old_overlay, size_t old_length, const uint8_t *feed, size_t feed_length,
                         uint8_t *out, size_t out_length);

/* The alerts of a supplier's GTFS Realtime message, as an alert sheet of the feed in `out`, then zeros. No overlay is
 * read or written: cut the sheet by mipsuqal_end, and mipsuqal_alert_sheet takes it. The first translation of a text
 * counts; cause and periods are not read, and DIFFERENTIAL makes no difference. */
uint32_t mipsuqal_feed_alerts(const uint8_t *feed, size_t feed_length, const uint8_t *message, size_t message_length,
                              uint8_t *out, size_t out_length);

/* The published lengths by number, in the order in which they stand above from 0 on, the longest input left out:
 * 0 overlay, 1 card, 2 report, 3 keys .. 9 known, 10 sheet; 0 for any other number. */
size_t mipsuqal_length(uint32_t number);

/* How many bytes the form has that stands in front of `bytes`, whatever follows: where to cut a card or a sheet before
 * it is sent in again. 0 where none stands there, or the kind is another. Don't trim zeros in its place: a form may end
 * with zeros of its own, as the alert sheet 01 00 does. */
size_t mipsuqal_end(uint32_t kind, const uint8_t *bytes, size_t length);

/* ---- one thing to declare: the working buffers ---- */

/* They may hold anything before a call, and hold zeros after it. Some 364 KB: static or allocated, not on a stack. */
struct mipsuqal_work {
    uint32_t marks[MIPSUQAL_MARKS];
    uint32_t order[MIPSUQAL_ORDER];
    uint32_t noted[MIPSUQAL_NOTED];
    uint32_t known[MIPSUQAL_KNOWN];
    uint16_t candidates[MIPSUQAL_CANDIDATES];
    uint16_t met[MIPSUQAL_MET];
    uint8_t keys[MIPSUQAL_KEYS];
};

/* The calls with the published lengths filled in: overlays of MIPSUQAL_OVERLAY bytes, a card of MIPSUQAL_CARD. */

static inline uint32_t mipsuqal_take_message(const uint8_t *old_overlay, const uint8_t *feed, size_t feed_length,
                                             const uint8_t *message, size_t message_length, uint8_t *new_overlay,
                                             struct mipsuqal_work *work) {
    return mipsuqal_message(old_overlay, MIPSUQAL_OVERLAY, feed, feed_length, message, message_length, new_overlay,
                            MIPSUQAL_OVERLAY, work->keys, MIPSUQAL_KEYS, work->marks, MIPSUQAL_MARKS, work->order,
                            MIPSUQAL_ORDER);
}

static inline uint32_t mipsuqal_take_alerts(const uint8_t *old_overlay, const uint8_t *feed, size_t feed_length,
                                            const uint8_t *sheet, size_t sheet_length, uint8_t *new_overlay) {
    return mipsuqal_alert_sheet(old_overlay, MIPSUQAL_OVERLAY, feed, feed_length, sheet, sheet_length, new_overlay,
                                MIPSUQAL_OVERLAY);
}

/* A message's alerts replace the feed's. `sheet` is lent, MIPSUQAL_SHEET bytes, and holds the sheet after a 0. Where
 * the message itself is refused the new overlay isn't written. */
static inline uint32_t mipsuqal_take_alert_message(const uint8_t *old_overlay, const uint8_t *feed, size_t feed_length,
                                                   const uint8_t *message, size_t message_length,
                                                   uint8_t *new_overlay, uint8_t *sheet) {
    uint32_t refused = mipsuqal_feed_alerts(feed, feed_length, message, message_length, sheet, MIPSUQAL_SHEET);
    if (refused != MIPSUQAL_ACCEPTED)
        return refused;
    return mipsuqal_take_alerts(old_overlay, feed, feed_length, sheet,
                                mipsuqal_end(MIPSUQAL_KIND_ALERT_SHEET, sheet, MIPSUQAL_SHEET), new_overlay);
}

static inline uint32_t mipsuqal_take_vehicles(const uint8_t *old_overlay, const uint8_t *feed, size_t feed_length,
                                              const uint8_t *sheet, size_t sheet_length, int64_t clock,
                                              uint8_t *new_overlay) {
    return mipsuqal_vehicle_sheet(old_overlay, MIPSUQAL_OVERLAY, feed, feed_length, sheet, sheet_length, clock,
                                  new_overlay, MIPSUQAL_OVERLAY);
}

static inline uint32_t mipsuqal_finish_card(const uint8_t *old_overlay, const uint8_t *card, size_t card_length,
                                            uint8_t *out, struct mipsuqal_work *work) {
    return mipsuqal_card(old_overlay, MIPSUQAL_OVERLAY, card, card_length, out, MIPSUQAL_CARD, work->candidates,
                         MIPSUQAL_CANDIDATES, work->met, MIPSUQAL_MET, work->noted, MIPSUQAL_NOTED, work->known,
                         MIPSUQAL_KNOWN);
}

/* ---- for tests, in a library of its own: `tools/staticlib replay_calls` ---- */

/* A list of calls run from a fresh overlay on, on two overlays that take turns, and in `out` what each gave. Returns 0;
 * or 1, and zeros in `out`. No promise says what it leaves in the other five that it writes (docs/TEST-CALLS.md). */
uint32_t mipsuqal_replay(const uint8_t *script, size_t script_length, uint8_t *a, size_t a_length, uint8_t *b,
                         size_t b_length, uint8_t *out, size_t out_length, uint8_t *keys, size_t keys_length,
                         uint32_t *marks, size_t marks_length, uint32_t *order, size_t order_length);

#ifdef __cplusplus
}
#endif

#endif
