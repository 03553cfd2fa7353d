// Answers each line with a row of 64 bytes: what a program that does nothing costs in bench/live.
#include <string.h>
#include <unistd.h>

int main(void) {
    char block[4096], row[64];
    memset(row, '.', sizeof row - 1);
    row[sizeof row - 1] = '\n';
    for (ssize_t count; (count = read(0, block, sizeof block)) > 0;)
        for (ssize_t at = 0; at < count; at++)
            if (block[at] == '\n' && write(1, row, sizeof row) < 0) return 1;
    return 0;
}
