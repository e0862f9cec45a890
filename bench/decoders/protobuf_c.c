/* Decodes a message by protobuf-c: all of it onto the heap. */
#include "decoder.h"
#include "realtime.pb-c.h"

bool decode(const uint8_t *message, size_t length, size_t *trips_read, size_t *updates_read) {
    Rt__FeedMessage *feed = rt__feed_message__unpack(NULL, length, message);
    if (!feed) return false;
    *trips_read = *updates_read = 0;
    for (size_t at = 0; at < feed->n_entity; at++) {
        const Rt__TripUpdate *trip = feed->entity[at]->trip_update;
        *trips_read += trip != NULL;
        *updates_read += trip ? trip->n_stop_time_update : 0;
    }
    rt__feed_message__free_unpacked(feed, NULL);
    return true;
}
