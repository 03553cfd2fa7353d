/* The instance of the module, its memory, and its end where the code traps. */
#include "instance.h"
#include "host.h"

Z_sdm_instance_t sdm_module;
u64 sdm_module_desk;
uint32_t sdm_module_depth;

bool sdm_module_begin(u32 desk_bytes) {
    static bool is_begun;
    if (!is_begun) {
        is_begun = true;
        Z_sdm_instantiate(&sdm_module);
        if (sdm_module.w2c_memory.size != 0)
            sdm_module_desk = Z_sdmZ_block_take(&sdm_module, desk_bytes);
    }
    return sdm_module_desk != 0;
}

_Noreturn void sdm_module_trap(const char *why) {
    for (;;)
        sdm_trapped(why);
}

/* Whether there are as many pages, and then so many zeros behind those that there were. */
static bool extend(wasm_rt_memory_t *mem, u32 pages) {
    if (pages > mem->max_pages - mem->pages)
        return false;
    memset(mem->data + mem->size, 0, (size_t)pages * SDM_PAGE_BYTES);
    mem->pages += pages;
    mem->size = mem->pages * SDM_PAGE_BYTES;
    return true;
}

void wasm_rt_allocate_memory(wasm_rt_memory_t *mem, u32 pages, u32 max_pages) {
    struct sdm_memory given = sdm_memory();
    size_t there = given.bytes / SDM_PAGE_BYTES, most = max_pages < SDM_PAGE_BYTES ? max_pages : SDM_PAGE_BYTES - 1;
    mem->data = (u8 *)given.at;
    mem->pages = mem->size = 0;
    mem->max_pages = (u32)(there < most ? there : most);
    (void)extend(mem, pages);
}

u32 wasm_rt_grow_memory(wasm_rt_memory_t *mem, u32 pages) {
    u32 before = mem->pages;
    return extend(mem, pages) ? before : UINT32_MAX;
}
