/* The one instance of the module, which the calls of sdm.h run on. */
#ifndef SDM_INSTANCE_H
#define SDM_INSTANCE_H

#include "operations.h"

/* The instance. */
extern Z_sdm_instance_t sdm_module;

/* Where the structs that calls take and give stand in its memory. */
extern u64 sdm_module_desk;

/* Whether the instance is there with a desk, which the first call makes; it isn't where there is too little memory. */
bool sdm_module_begin(u32 desk_bytes);

/* A place in the module's memory, for so many bytes. */
static inline u8 *sdm_module_at(u64 at, size_t count) {
    IN_BOUNDS(&sdm_module.w2c_memory, at, count);
    return sdm_module.w2c_memory.data + (size_t)at;
}

#endif
