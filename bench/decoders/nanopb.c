/* Decodes a message by nanopb: entities one by one into one place, as a panel without a heap would. */
#include "decoder.h"
#include "realtime.pb.h"
#include <pb_decode.h>

static rt_FeedEntity entity;
static size_t trips, updates;

static bool take_entity(pb_istream_t *stream, const pb_field_t *field, void **argument) {
    (void)field, (void)argument;
    if (!pb_decode(stream, rt_FeedEntity_fields, &entity)) return false;
    trips += entity.has_trip_update;
    updates += entity.trip_update.stop_time_update_count;
    return true;
}

bool decode(const uint8_t *message, size_t length, size_t *trips_read, size_t *updates_read) {
    rt_FeedMessage feed = rt_FeedMessage_init_zero;
    pb_istream_t stream = pb_istream_from_buffer(message, length);
    feed.entity.funcs.decode = take_entity;
    trips = updates = 0;
    bool whole = pb_decode(&stream, rt_FeedMessage_fields, &feed);
    *trips_read = trips, *updates_read = updates;
    return whole;
}
