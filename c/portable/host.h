/* What the library as C asks of the program that links it: memory, and what to do where the code traps. host_array.c is
 * such a host; link it, or write your own. */
#ifndef SDM_HOST_H
#define SDM_HOST_H

#include <stddef.h>

#ifdef __cplusplus
extern "C" {
#endif

/* Memory for the library alone, at any place, with any bytes in it. What it must have: docs/PROCESSORS.md. */
struct sdm_memory {
    void *at;
    size_t bytes;
};

/* The memory, for which the first call of sdm.h asks once. Where it is too little for a supervisor, sdm_open answers
 * SDM_NO_MEMORY. */
struct sdm_memory sdm_memory(void);

/* Called where the code finds that it went wrong, which the proof of the source rules out: a translation, a compiler, the
 * memory or the stack is at fault then. It must not return, and no call of sdm.h may follow: brake, and start again. */
void sdm_trapped(const char *why);

#ifdef __cplusplus
}
#endif

#endif
