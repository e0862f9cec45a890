#ifndef DECODER_H
#define DECODER_H
#include <stdbool.h>
#include <stddef.h>
#include <stdint.h>

/* Whether a message is whole, and how many trips and updates were read. */
bool decode(const uint8_t *message, size_t length, size_t *trips, size_t *updates);
#endif
