/* A listing program held against the paper: listing PROGRAM CASES SEED SHEETS.. feeds it the files and then random sheets, damaged
   ones, noise and inputs longer than any sheet, and compares what it prints. At 6 any loop will do that is one. Exit 1 at any
   difference. */
#define _POSIX_C_SOURCE 200809L
#include "make.h"
#include "paper.h"

#include <inttypes.h>
#include <stdio.h>
#include <stdlib.h>
#include <string.h>
#include <sys/wait.h>
#include <unistd.h>

static uint8_t input[MAX_INPUT + 64];
static char print[2 * MAX_TEXT], right[MAX_TEXT];

/* What the program prints for these bytes; they come from a file, so that it need not read them all. */
static size_t print_of(const char *program, FILE *bytes)
{
    int ends[2];
    fflush(stdout);
    if (pipe(ends) != 0) {
        exit(2);
    }
    pid_t child = fork();
    if (child == 0) {
        dup2(fileno(bytes), 0);
        dup2(ends[1], 1);
        close(ends[0]);
        execl(program, program, (char *)NULL);
        _exit(127);
    }
    close(ends[1]);
    size_t length = 0;
    for (ssize_t got = 1; got > 0 && length < sizeof print; length += got > 0 ? (size_t)got : 0) {
        got = read(ends[0], print + length, sizeof print - length);
    }
    close(ends[0]);
    waitpid(child, NULL, 0);
    return length;
}

/* Whether a print `refused 6 wires ..` shows a loop of this sheet. */
static int shows_loop(const uint8_t *bytes, size_t length, const char *text, size_t text_length)
{
    static struct sheet s;
    int wires[MAX_NODES + 1], count = 0;
    char again[512];
    const char *at = text + strlen("refused 6 wires");
    if (read_sheet(bytes, length, &s) != 0 || text_length > 400 || strncmp(text, "refused 6 wires", 15) != 0) {
        return 0;
    }
    size_t said = (size_t)sprintf(again, "refused 6 wires");
    for (int used = 0; count < MAX_NODES && sscanf(at, " %d%n", &wires[count], &used) == 1; at += used) {
        said += (size_t)sprintf(again + said, " %d", wires[count++]);
    }
    again[said++] = '\n';
    return said == text_length && memcmp(again, text, said) == 0 && loop_holds(&s, wires, count);
}

static int check(const char *program, size_t length)
{
    FILE *bytes = tmpfile();
    if (bytes == NULL || fwrite(input, 1, length, bytes) != length || fflush(bytes) != 0) {
        exit(2);
    }
    rewind(bytes);
    memset(print, 0, sizeof print);
    size_t got = print_of(program, bytes), wanted = paper_listing(input, length, right);
    fclose(bytes);
    if (got == wanted && memcmp(print, right, got) == 0) {
        return 1;
    }
    if (strncmp(right, "refused 6", 9) == 0 && shows_loop(input, length, print, got)) {
        return 1;
    }
    printf("DIFFERS: a sheet of %zu bytes\n--- printed:\n%.*s--- the paper:\n%.*s--- the sheet:\n", length, (int)got, print,
           (int)wanted, right);
    for (size_t i = 0; i < length; i++) {
        printf("%02x", input[i]);
    }
    printf("\n");
    return 0;
}

/* A random input; some are whole sheets with bytes after them. */
static size_t make_input(uint64_t seed, uint64_t number)
{
    struct chance c = chance_of(seed, number);
    size_t length = make_sheet_input(&c, input);
    if (percent(&c, 10)) {
        size_t more = 1 + below(&c, 3000);
        any_bytes(&c, input + length, length + more <= MAX_INPUT ? more : 0);
        length += length + more <= MAX_INPUT ? more : 0;
    }
    return length;
}

int main(int argc, char **argv)
{
    if (argc < 4) {
        fprintf(stderr, "usage: listing PROGRAM CASES SEED SHEETS..\n");
        return 2;
    }
    uint64_t cases = strtoull(argv[2], NULL, 10), seed = strtoull(argv[3], NULL, 10), failed = 0;
    for (int i = 4; i < argc; i++) {
        FILE *file = fopen(argv[i], "rb");
        if (file == NULL) {
            perror(argv[i]);
            return 2;
        }
        size_t length = fread(input, 1, MAX_INPUT, file);
        fclose(file);
        failed += !check(argv[1], length);
    }
    failed += !check(argv[1], 0);
    for (uint64_t i = 0; i < cases && failed < 10; i++) {
        failed += !check(argv[1], make_input(seed, i));
    }
    uint64_t all = cases + (uint64_t)argc - 3;
    printf("listing, seed %" PRIu64 ": %" PRIu64 " passed, %" PRIu64 " failed\n", seed, all - failed, failed);
    return failed > 0;
}
