/* Plays the packed journeys of a file, where there are files:
 *
 *     run_file FILE    ends with 0 where none differs */
#include "run_packed.h"

#include <stdio.h>
#include <stdlib.h>

/* The bytes of a file; null where it can't be read. */
static uint8_t *bytes_of(const char *name, size_t *count) {
    FILE *file = fopen(name, "rb");
    uint8_t *bytes = NULL;
    if (file == NULL || fseek(file, 0, SEEK_END) != 0)
        return NULL;
    long size = ftell(file);
    rewind(file);
    if (size > 0)
        bytes = (uint8_t *)malloc((size_t)size);
    *count = bytes != NULL ? fread(bytes, 1, (size_t)size, file) : 0;
    fclose(file);
    return bytes;
}

int main(int words, char **word) {
    size_t count = 0;
    uint8_t *bytes = words == 2 ? bytes_of(word[1], &count) : NULL;
    if (bytes == NULL) {
        fprintf(stderr, "usage: run_file FILE\n");
        return 2;
    }
    bool is_same = run_packed(bytes, count);
    free(bytes);
    return is_same ? 0 : 1;
}
