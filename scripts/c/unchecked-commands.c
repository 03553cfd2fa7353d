/* Looks at no code of any call of sdm_calls.h that returns one: scripts/house check calls asks that a compiler warns of each. */
#include "../../c/sdm_calls.h"

void look_at_no_code(struct sdm_buffer *buffer, struct sdm_ended *ended, struct sdm_live *live) {
    sdm_command_text(NULL, 0, NULL, 0, buffer, buffer);
    sdm_command_into(NULL, 0, NULL, 0, NULL, 0, ended);
    sdm_live_open(live, NULL, 0, ended);
    sdm_live_feed(live, NULL, 0, buffer);
    sdm_live_end(live, buffer);
}
