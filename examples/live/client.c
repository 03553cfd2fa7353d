// A train that nobody brakes but `sdm live`: it reads its odometer each 0.5 s and obeys the emergency brake.
// It writes records to its output and reads answers from its input: two pipes between it and the program join them.
//
//     client examples/live/data < answers | sdm live > answers
#include <stdio.h>
#include <stdlib.h>

int main(int argc, char **argv) {
    FILE *data = argc == 2 ? fopen(argv[1], "r") : NULL;
    char line[256];
    if (!data) return 1;
    while (fgets(line, sizeof line, data)) fputs(line, stdout);
    long time_ds = 0, front_mm = 500000, speed_mm_s = 30000;
    for (; speed_mm_s > 0; time_ds += 5) {
        printf("read,%ld,%ld,%ld,%ld,%ld,0,0\n", time_ds, front_mm, front_mm, front_mm, speed_mm_s);
        fflush(stdout);
        int emergency;
        if (!fgets(line, sizeof line, stdin) || sscanf(line, "%*[^,],%*c,%*c,%*c,%*c,%d", &emergency) != 1) return 1;
        fputs(line, stderr);
        front_mm += speed_mm_s / 2;
        if (emergency) speed_mm_s -= 500;
    }
    fprintf(stderr, "stopped at %ld mm\n", front_mm);
    return 0;
}
