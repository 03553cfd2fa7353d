/* What the generated module.h asks of a runtime, under the names that wasm2c gives: the module's memory. */
#ifndef SDM_WASM_RT_H
#define SDM_WASM_RT_H

#include <stdint.h>

/* The module's memory: bytes of the host, of which the first `size` are the module's so far. Numbers lie in it with
 * their lowest byte first, whatever the host's own order. */
typedef struct {
    uint8_t *data;
    uint32_t pages, max_pages; /* of 64 KiB */
    uint32_t size;
} wasm_rt_memory_t;

#endif
