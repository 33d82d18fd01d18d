/*
 * Prunes a sheet, the one in the file that is named or else the sheet of nine legs, by cut steps, where the network is two-way, and
 * a run. Prints how the run ended and, unless that is none, the station lines and the first round; where a second file is named,
 * the sheet of what is left goes there. The exit status is that of ./prune: 0 pruned, 1 refused, 2 something failed, 3 the end none.
 */
#include <stdio.h>
#include <string.h>

#include "loungeegret.h"

static const uint8_t nine_legs[] = {
    6,
    1, 0x0E, 0, 0, 0, 0, 0, 0, 0,
    1, 0x11, 0, 0, 0, 0, 0, 0, 0,
    4, 6,
    4, 2,
    4, 3,
    4, 1,
};

static const char *const words[] = {"open", "stable", "none"};

/* What the search for a round may take, in nodes. */
enum {
    NODE_BUDGET = 10000
};

static int fail(const char *what)
{
    fprintf(stderr, "nine_legs: %s\n", what);
    return 2;
}

/* The length of what was read, at most `most` bytes; SIZE_MAX where that failed. */
static size_t load(const char *name, uint8_t *bytes, size_t most)
{
    FILE *file = fopen(name, "rb");
    if (!file)
        return SIZE_MAX;
    size_t length = fread(bytes, 1, most, file);
    if (ferror(file))
        length = SIZE_MAX;
    fclose(file);
    return length;
}

/* Writes the sheet of what is left to a file. */
static int send_back(const uint64_t *state, const char *name)
{
    uint8_t sheet[LOUNGEEGRET_WRITTEN_MOST] = {0};
    size_t length = 0;

    if (loungeegret_write(state, LOUNGEEGRET_STATE_WORDS, sheet, sizeof sheet, &length) != LOUNGEEGRET_TAKEN)
        return fail("the write is refused");
    FILE *file = fopen(name, "wb");
    size_t stored = file ? fwrite(sheet, 1, length, file) : 0;
    if (!file || fclose(file) || stored != length)
        return fail("cannot write the struck sheet");
    return 0;
}

/* Prints the first round, as the next station of each station, station 1 first. */
static int print_round(const uint64_t *state)
{
    uint8_t list[64] = {0};
    size_t n = state[LOUNGEEGRET_N];
    uint32_t outcome = LOUNGEEGRET_REFUSED, nodes = 0;

    /* What was struck makes no difference: it is the first round of the opened sheet. */
    if (loungeegret_first_round(state, LOUNGEEGRET_STATE_WORDS, NODE_BUDGET, list, n, &outcome, &nodes) != LOUNGEEGRET_TAKEN)
        return fail("the search is refused");
    if (outcome == LOUNGEEGRET_FOUND) {
        printf("round");
        for (size_t i = 0; i < n; i++)
            printf(" %u", (unsigned)list[i]);
        putchar('\n');
    } else if (outcome == LOUNGEEGRET_NO_ROUND) {
        puts("no round");
    } else {
        printf("round not found within %u nodes\n", (unsigned)nodes);
    }
    return 0;
}

/*
 * Cut steps until nothing changes. Each is given the must-drive roads that the one before handed back, and the first none: so all
 * rounds count. A network with one-way legs stays as it is.
 */
static int cut(uint64_t *state)
{
    uint64_t must[LOUNGEEGRET_ROWS] = {0}, given[LOUNGEEGRET_ROWS] = {0};
    uint32_t removed = 0;

    do {
        memcpy(given, must, sizeof must);
        uint32_t number = loungeegret_cut(state, LOUNGEEGRET_STATE_WORDS, must, LOUNGEEGRET_ROWS, &removed);
        if (number == LOUNGEEGRET_NOT_TWO_WAY)
            return 0;
        if (number != LOUNGEEGRET_TAKEN)
            return fail("the cut step is refused");
    } while (removed > 0 || memcmp(given, must, sizeof must) != 0);
    return 0;
}

static int prune(const uint8_t *sheet, size_t sheet_length, const char *struck)
{
    uint64_t state[LOUNGEEGRET_STATE_WORDS] = {0};
    uint8_t text[LOUNGEEGRET_TEXT_MOST] = {0};
    size_t place = 0, length = 0;
    uint32_t steps = 0, removed = 0;

    uint32_t number = loungeegret_open(sheet, sheet_length, 64, state, LOUNGEEGRET_STATE_WORDS, &place);
    if (number != LOUNGEEGRET_TAKEN) {
        printf("refused %u at %zu\n", (unsigned)number, place);
        return 1;
    }
    /* Before the run, which may leave some roads one way only. */
    if (cut(state) != 0)
        return 2;
    /*
     * Sweeps, chain steps and passes; each can also be called by hand. This budget always suffices: the end is stable or none.
     * Short turns with smaller budgets, while the end is open, come to the same.
     */
    if (loungeegret_run(state, LOUNGEEGRET_STATE_WORDS, LOUNGEEGRET_FULL_BUDGET, &steps, &removed) != LOUNGEEGRET_TAKEN)
        return fail("the run is refused");
    puts(words[state[LOUNGEEGRET_END]]);
    if (state[LOUNGEEGRET_END] == LOUNGEEGRET_NONE)
        return 3;
    /* Stable: no sweep, chain step or pass strikes anything more. A round is not promised, and legs that none drives may be left. */
    if (loungeegret_report(state, LOUNGEEGRET_STATE_WORDS, text, sizeof text, &length) != LOUNGEEGRET_TAKEN)
        return fail("the report is refused");
    fwrite(text, 1, length, stdout);
    if (print_round(state) != 0)
        return 2;
    return struck ? send_back(state, struck) : 0;
}

int main(int argc, char **argv)
{
    uint8_t bytes[LOUNGEEGRET_SHEET_MOST + 1] = {0}; /* with the byte more that shows an overhang */
    const uint8_t *sheet = nine_legs;
    size_t length = sizeof nine_legs;

    if (argc > 1) {
        sheet = bytes;
        length = load(argv[1], bytes, sizeof bytes);
        if (length == SIZE_MAX)
            return fail("cannot read the sheet");
    }
    int status = prune(sheet, length, argc > 2 ? argv[2] : NULL);
    if (fflush(stdout) || ferror(stdout))
        return fail("cannot write standard output");
    return status;
}
