/* Alerts straight from a message, as the library gives them; C11 and C++17 alike. */
#include <mipsuqal.h>
#include <stdio.h>
#include <string.h>

#define ROWS (sizeof(rows) / sizeof(rows[0]))

struct row {
    const char *what;
    size_t message_length, out_length;
    uint32_t number;
    size_t sheet_length;
    uint8_t message[24], sheet[24];
};

static const struct row rows[] = {
    {"no entity", 0, MIPSUQAL_SHEET, 0, 2, {0}, {1, 0}},
    {"an empty alert", 4, MIPSUQAL_SHEET, 0, 8, {0x12, 2, 0x2a, 0}, {1, 1, 0, 0, 0, 0, 0, 0}},
    {"a deleted one", 6, MIPSUQAL_SHEET, 0, 2, {0x12, 4, 0x2a, 0, 0x10, 1}, {1, 0}},
    {"a header", 11, MIPSUQAL_SHEET, 0, 10, {0x12, 9, 0x2a, 7, 0x52, 5, 0x0a, 3, 0x0a, 1, 'A'},
     {1, 1, 1, 1, 'A', 0, 0, 0, 0, 0}},
    {"a route", 9, MIPSUQAL_SHEET, 0, 12, {0x12, 7, 0x2a, 5, 0x2a, 3, 0x12, 1, 'R'},
     {1, 1, 0, 0, 0, 0, 1, 3, 'f', ':', 'R', 0}},
    {"a sheet's room and a byte", 0, MIPSUQAL_SHEET + 1, 1, 0, {0}, {0}},
    {"a byte less", 1, MIPSUQAL_SHEET - 1, 1, 0, {0x0c}, {0}},
    {"a stray group end", 1, MIPSUQAL_SHEET, 4, 0, {0x0c}, {0}},
    {"a route of another kind of byte", 9, MIPSUQAL_SHEET, 5, 0, {0x12, 7, 0x2a, 5, 0x2a, 3, 0x12, 1, 0x7f}, {0}},
};

static uint8_t out[MIPSUQAL_SHEET + 1];

/* Whether the output is the row's sheet, and zeros. */
static int is_given(const struct row *row) {
    size_t k;
    for (k = 0; k < row->out_length; k++)
        if (out[k] != (k < row->sheet_length ? row->sheet[k] : 0))
            return 0;
    return 1;
}

int main(void) {
    int wrong = 0;
    size_t k;
    for (k = 0; k < ROWS; k++) {
        const struct row *row = &rows[k];
        uint32_t number;
        memset(out, 0xa5, sizeof out);
        number = mipsuqal_feed_alerts((const uint8_t *)"f", 1, row->message, row->message_length, out, row->out_length);
        if (number != row->number || !is_given(row) ||
            mipsuqal_end(MIPSUQAL_KIND_ALERT_SHEET, out, row->out_length) != row->sheet_length) {
            fprintf(stderr, "%s: number %u, or another sheet\n", row->what, number);
            wrong = 1;
        }
    }
    return wrong;
}
