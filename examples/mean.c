/* Plans a sheet and runs it: mean SHEET CYCLES ANGLE..

   Channel k has the k-th angle, in degrees, in every cycle. A line is printed for each cycle: the words that leave the units, as
   numbers. With samples/mean.sheet and the angles 315 and 45 the adder's mean is 0: the seam of the full turn is no matter. */
#include "../include/gongperch.h"

#include <errno.h>
#include <stdio.h>
#include <stdlib.h>
#include <string.h>

static uint8_t sheet[GONGPERCH_SHEET_MAX + 1], plan[GONGPERCH_PLAN_MAX];

/* Reads the sheet; where that fails, says of which file and why, and stops. */
static size_t read_sheet(const char *path)
{
    FILE *file = fopen(path, "rb");
    size_t length = file == NULL ? 0 : fread(sheet, 1, sizeof sheet, file);
    if (file == NULL || ferror(file)) {
        fprintf(stderr, "mean: %s: %s\n", path, strerror(errno));
        exit(2);
    }
    fclose(file);
    return length;
}

static int refused(uint32_t answer, uint64_t written)
{
    printf("refused %u", answer);
    for (uint64_t i = 0; answer == GONGPERCH_UNFOLDABLE && i < written; i += 3) {
        printf("%s %u", i == 0 ? " wires" : "", plan[i + 2]);
    }
    printf("\n");
    return 1;
}

static int run(size_t plan_len, uint32_t *memory, size_t words, const uint32_t *channels, long cycles)
{
    uint32_t out[GONGPERCH_UNITS_MAX], answer = gongperch_clear(plan, plan_len, memory, words);
    for (long t = 0; t < cycles && answer == GONGPERCH_DONE; t++) {
        answer = gongperch_step(plan, plan_len, memory, words, channels, GONGPERCH_CHANNELS, out, GONGPERCH_UNITS_MAX);
        printf("cycle %ld:", t);
        for (int u = 0; u < plan[3]; u++) {
            printf(" %u", out[u]);
        }
        printf("\n");
    }
    return answer == GONGPERCH_DONE ? 0 : refused(answer, 0);
}

int main(int argc, char **argv)
{
    if (argc < 3) {
        fprintf(stderr, "usage: mean SHEET CYCLES ANGLE..\n");
        return 2;
    }
    size_t sheet_len = read_sheet(argv[1]);
    uint32_t channels[GONGPERCH_CHANNELS] = {0};
    for (int i = 3; i < argc && i < 3 + GONGPERCH_CHANNELS; i++) {
        channels[i - 3] = (uint32_t)(int64_t)(strtod(argv[i], NULL) / 360.0 * 4294967296.0);
    }
    uint64_t written = 0, words = 0;
    uint32_t answer = gongperch_plan(sheet, sheet_len, plan, sizeof plan, &written);
    if (answer == GONGPERCH_DONE) {
        answer = gongperch_memory_words(plan, written, &words);
    }
    if (answer != GONGPERCH_DONE) {
        return refused(answer, written);
    }
    uint32_t *memory = malloc(words * sizeof *memory);
    if (memory == NULL) {
        return 2;
    }
    int status = run(written, memory, words, channels, strtol(argv[2], NULL, 10));
    free(memory);
    return status;
}
