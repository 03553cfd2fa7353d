/* Looks at no answer of any call of sdm.h that answers a status: scripts/house check c asks that a compiler warns of each. */
#include "../../c/sdm.h"

void look_at_nothing(struct sdm *h, struct sdm_line *line, const struct sdm_reading *reading, struct sdm_row *row,
                     const struct sdm_restriction *restriction, struct sdm_display *display,
                     struct sdm_causes *causes, const struct sdm_allowance *allowance, struct sdm_place *place) {
    sdm_open(h, line->bytes, line->count, line);
    sdm_cycle(h, reading, row);
    sdm_end(h, 0, 0, 0);
    sdm_end_calculated(h, 0, 0, 0);
    sdm_limit(h, 0, 1);
    sdm_restrict(h, restriction);
    sdm_revoke(h, 0);
    sdm_take_over(h, h);
    sdm_display(h, reading, display);
    sdm_causes(h, reading, causes);
    sdm_would_cover(h, reading, &line->count);
    sdm_would_cover_up_to(h, reading, &line->count);
    sdm_has_trip_place(h, 0, 0, &line->count);
    sdm_clear_of(h, reading, allowance, place);
}
