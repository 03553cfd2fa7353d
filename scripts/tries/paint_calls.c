/* Prints at the end of a program the most stack that each call took that paint_calls.s wraps, where one did. */
#include <inttypes.h>
#include <stdio.h>

extern const struct painted {
    const char *name;
    const uint64_t *most;
} __start_painted[], __stop_painted[];

__attribute__((destructor)) static void tell(void) {
    for (const struct painted *of = __start_painted; of < __stop_painted; of++)
        if (*of->most > 0)
            fprintf(stderr, "painted %s %" PRIu64 "\n", of->name, *of->most);
}
