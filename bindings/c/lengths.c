/* Whether the header's lengths are those that the library publishes, and its struct lends them; C11 and C++17 alike. */
#include <mipsuqal.h>
#include <stdio.h>

#define ELEMENTS(buffer) (sizeof(buffer) / sizeof((buffer)[0]))

static struct mipsuqal_work work;

int main(void) {
    const size_t ours[] = {
        MIPSUQAL_OVERLAY, MIPSUQAL_CARD, MIPSUQAL_REPORT,
        ELEMENTS(work.keys), ELEMENTS(work.marks), ELEMENTS(work.order),
        ELEMENTS(work.candidates), ELEMENTS(work.met), ELEMENTS(work.noted), ELEMENTS(work.known),
        MIPSUQAL_SHEET,
        0,
    };
    int wrong = 0;
    uint32_t k;
    for (k = 0; k < ELEMENTS(ours); k++) {
        if (mipsuqal_length(k) != ours[k]) {
            fprintf(stderr, "length %u: %zu here, %zu in the library\n", k, ours[k], mipsuqal_length(k));
            wrong = 1;
        }
    }
    return wrong;
}
