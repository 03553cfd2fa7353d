/* Plays packed journeys, of which scripts/processors/packed.py says the form. */
#ifndef SDM_RUN_PACKED_H
#define SDM_RUN_PACKED_H

#include <stdbool.h>
#include <stddef.h>
#include <stdint.h>

/* Plays all journeys up to the first difference, and tells by putchar how it went. Whether none differs. */
bool run_packed(const uint8_t *bytes, size_t count);

#endif
