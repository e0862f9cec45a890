/* Where cards and sheets end, as the library says; C11 and C++17 alike. */
#include <mipsuqal.h>
#include <stdio.h>

#define ROWS (sizeof(rows) / sizeof(rows[0]))

struct row {
    const char *what;
    uint32_t kind;
    size_t length, end;
    uint8_t bytes[24]; /* zeros behind those that are written */
};

static const struct row rows[] = {
    {"an alert sheet without alerts, zeros behind", MIPSUQAL_KIND_ALERT_SHEET, 24, 2, {1, 0}},
    {"its first byte alone", MIPSUQAL_KIND_ALERT_SHEET, 1, 0, {1}},
    {"no bytes", MIPSUQAL_KIND_ALERT_SHEET, 0, 0, {0}},
    {"zeros alone", MIPSUQAL_KIND_CARD, 24, 0, {0}},
    {"a card with a walk, zeros behind", MIPSUQAL_KIND_CARD, 24, 9, {1, 0, 0, 0, 0, 0, 1, 0, 0}},
    {"a byte of it cut off", MIPSUQAL_KIND_CARD, 8, 0, {1, 0, 0, 0, 0, 0, 1, 0}},
    {"a vehicle, zeros behind", MIPSUQAL_KIND_VEHICLE_SHEET, 24, 22, {1, 1, 1, '7'}},
    {"the same as an alert sheet", MIPSUQAL_KIND_ALERT_SHEET, 24, 0, {1, 1, 1, '7'}},
    {"no kind", 3, 24, 0, {1, 0}},
};

int main(void) {
    int wrong = 0;
    size_t k;
    for (k = 0; k < ROWS; k++) {
        size_t end = mipsuqal_end(rows[k].kind, rows[k].bytes, rows[k].length);
        if (end != rows[k].end) {
            fprintf(stderr, "%s: ends at %zu, and not at %zu\n", rows[k].what, end, rows[k].end);
            wrong = 1;
        }
    }
    return wrong;
}
