/* Judges the case file that is its argument and prints the verdict.
 *
 *   bin/staticlib
 *   cc -O2 -Iinclude examples/c/judge.c target/staticlib/libcapi.a -o target/judge_c
 *   target/judge_c examples/e.case
 */
#include <inttypes.h>
#include <stdio.h>

#include "plan_check.h"

int main(int argc, char **argv) {
    static uint8_t file[60001]; /* one more than the longest file that is not refused */
    static uint8_t flags[PLAN_MOST_BINDINGS];
    uint64_t out[4];

    if (argc != 2) {
        fprintf(stderr, "usage: judge_c FILE\n");
        return 2;
    }
    FILE *in = fopen(argv[1], "rb");
    if (in == NULL) {
        perror(argv[1]);
        return 2;
    }
    size_t length = fread(file, 1, sizeof file, in);
    if (ferror(in)) {
        perror(argv[1]);
        return 2;
    }
    fclose(in);

    switch (plan_judge(file, length, flags, sizeof flags, out)) {
    case PLAN_PROVED:
    case PLAN_UNPROVED:
        printf("%s %" PRIu64 " of %" PRIu64 " rounds %" PRIu64 "\n", out[0] == PLAN_PROVED ? "proved" : "unproved", out[1],
               out[2], out[3]);
        for (uint64_t i = 0; i < out[2]; i++)
            printf("binding %" PRIu64 " %s\n", i, flags[i] ? "kept" : "dropped");
        break;
    case PLAN_REFUTED:
        printf("refuted letters %" PRIu64 " state %" PRIu64 " constructor %" PRIu64 "\n", out[1], out[2], out[3]);
        break;
    default:
        printf("refused %" PRIu64 " at %" PRIu64 "\n", out[1], out[2]);
    }
    return out[0] == PLAN_PROVED ? 0 : 1;
}
