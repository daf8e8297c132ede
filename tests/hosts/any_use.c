/* What include/krowjyvan.h says is answered: any lengths, any contents, null with length 0. Prints how many uses were tried. */
#include <stdio.h>
#include <stdlib.h>
#include <string.h>

#include "krowjyvan.h"
#include "krowjyvan_texts.h"

enum { N = 1024, H = 256, LONGEST = 20000, LONGEST_TABLE = 100 * KROWJYVAN_LINE_LONGWORDS };

static unsigned tried;

static void expect(const char *what, int64_t is, int64_t wanted)
{
    tried++;
    if (is != wanted) {
        fprintf(stderr, "any_use: %s: %lld, where %lld was expected\n", what, (long long)is, (long long)wanted);
        exit(EXIT_FAILURE);
    }
}

/* The picture is as it was. */
static void unchanged(const char *what, const uint32_t *is, const uint32_t *was, size_t length)
{
    expect(what, length ? memcmp(is, was, length * sizeof *is) : 0, 0);
}

/* A call's key on a copy of the registers, which keeps all but D0. */
static int32_t asked(uint32_t *picture, size_t length, uint32_t trap, uint32_t code, size_t count)
{
    uint32_t registers[16], before[16];
    int32_t key;

    for (size_t i = 0; i < 16; i++)
        registers[i] = before[i] = (uint32_t)i + 100;
    registers[KROWJYVAN_D0] = before[KROWJYVAN_D0] = code;
    key = krowjyvan_call(picture, length, trap, registers, count, NULL, 0);
    if (count == KROWJYVAN_REGISTERS && key < 0) {
        expect("a refusal's D0", (int32_t)registers[KROWJYVAN_D0], key);
        registers[KROWJYVAN_D0] = before[KROWJYVAN_D0];
    }
    if (key < 0)
        unchanged("the registers of a refusal", registers, before, 16);
    return key;
}

/* The table of the last report. */
static uint32_t table[LONGEST_TABLE];

/* A report's key, where so many longwords of the table are lent, and then how many lines were written; the others stay. */
static int32_t reported(const uint32_t *picture, size_t length, uint32_t top, size_t lent, uint32_t fill, size_t *count)
{
    static uint32_t before[LONGEST_TABLE];
    size_t written;
    int32_t key;

    for (size_t i = 0; i < LONGEST_TABLE; i++)
        table[i] = before[i] = fill;
    *count = 77;
    key = krowjyvan_report_tree(picture, length, top, lent ? table : NULL, lent, count);
    written = *count * KROWJYVAN_LINE_LONGWORDS;
    expect("a report's lines are in the table", written <= lent, 1);
    unchanged("the table behind a report's lines", table + written, before + written, LONGEST_TABLE - written);
    if (key < 0)
        expect("a refused report's lines", (int64_t)*count, 0);
    return key;
}

/* Pictures that aren't sound, of many lengths: each function answers -16 and writes nothing. */
static void unsound(void)
{
    static uint32_t picture[LONGEST], before[LONGEST];
    static const size_t lengths[] = {0, 1, 7, 8, 263, 391, 392, 396, 1023, 1024, 16384, 16385, LONGEST};
    static const uint32_t fills[] = {0, 1, 7, 0x80000000, 0xFFFFFFFF};

    for (size_t f = 0; f < sizeof fills / sizeof *fills; f++)
        for (size_t l = 0; l < sizeof lengths / sizeof *lengths; l++) {
            uint32_t number = 5;
            uint32_t *lent = lengths[l] ? picture : NULL;
            size_t count;
            for (size_t i = 0; i < LONGEST; i++)
                picture[i] = before[i] = fills[f];
            expect("a call", asked(lent, lengths[l], 1, 0, 8), KROWJYVAN_NOT_SOUND);
            expect("a pick", krowjyvan_pick(lent, lengths[l], &number), KROWJYVAN_NOT_SOUND);
            expect("a pick's number", number, KROWJYVAN_NOBODY);
            expect("a tick", krowjyvan_tick(lent, lengths[l]), KROWJYVAN_NOT_SOUND);
            expect("a report", reported(lent, lengths[l], fills[f], LONGEST_TABLE, 7, &count), KROWJYVAN_NOT_SOUND);
            expect("a report without a table", reported(lent, lengths[l], 0, 0, 7, &count), KROWJYVAN_NOT_SOUND);
            unchanged("an unsound picture", picture, before, LONGEST);
        }
}

/* Sizes that are no picture's, and lengths other than N. */
static void sizes(void)
{
    static uint32_t picture[LONGEST], before[LONGEST];

    expect("no longwords", krowjyvan_fresh(NULL, 0, 0, 0), KROWJYVAN_OUT_OF_RANGE);
    expect("none lent", krowjyvan_fresh(NULL, 0, N, H), KROWJYVAN_OUT_OF_RANGE);
    expect("one too few", krowjyvan_fresh(picture, N - 1, N, H), KROWJYVAN_OUT_OF_RANGE);
    expect("one too many", krowjyvan_fresh(picture, N + 1, N, H), KROWJYVAN_OUT_OF_RANGE);
    expect("too small", krowjyvan_fresh(picture, KROWJYVAN_LEAST_SIZE - 4, KROWJYVAN_LEAST_SIZE - 4, H), KROWJYVAN_OUT_OF_RANGE);
    expect("too great", krowjyvan_fresh(picture, KROWJYVAN_GREATEST_SIZE + 4, KROWJYVAN_GREATEST_SIZE + 4, H), KROWJYVAN_OUT_OF_RANGE);
    expect("no heap", krowjyvan_fresh(picture, N, N, 0), KROWJYVAN_OUT_OF_RANGE);
    expect("all heap", krowjyvan_fresh(picture, N, N, N - KROWJYVAN_HEAP_BASE), KROWJYVAN_OUT_OF_RANGE);
    unchanged("what was lent", picture, before, LONGEST);
    expect("the least", krowjyvan_fresh(picture, KROWJYVAN_LEAST_SIZE, KROWJYVAN_LEAST_SIZE, 4), KROWJYVAN_DONE);
    expect("N", picture[KROWJYVAN_SIZE_WORD], KROWJYVAN_LEAST_SIZE);
    expect("the greatest", krowjyvan_fresh(picture, KROWJYVAN_GREATEST_SIZE, KROWJYVAN_GREATEST_SIZE, H), KROWJYVAN_DONE);
    expect("H", picture[KROWJYVAN_HEAP_WORD], H);
}

/* Registers that aren't 8, traps and calls that aren't there, and names of no length. */
static void calls(void)
{
    static uint32_t picture[N], before[N];
    uint32_t registers[KROWJYVAN_REGISTERS] = {KROWJYVAN_IO_OPEN, 0, 0, 0, 0, 0, 0, 0};
    uint32_t number = 5;

    expect("fresh", krowjyvan_fresh(picture, N, N, H), KROWJYVAN_DONE);
    memcpy(before, picture, sizeof before);
    for (size_t count = 0; count < 16; count++)
        if (count != KROWJYVAN_REGISTERS)
            expect("registers not 8", asked(picture, N, 1, 0, count), KROWJYVAN_BAD_PARAMETER);
    expect("no registers", krowjyvan_call(picture, N, 1, NULL, 0, NULL, 0), KROWJYVAN_BAD_PARAMETER);
    expect("trap 0", asked(picture, N, 0, 0, 8), KROWJYVAN_BAD_PARAMETER);
    expect("trap 4", asked(picture, N, 4, 0, 8), KROWJYVAN_BAD_PARAMETER);
    expect("trap 2^32 - 1", asked(picture, N, 0xFFFFFFFF, 0, 8), KROWJYVAN_BAD_PARAMETER);
    expect("a call that isn't there", asked(picture, N, 1, 3, 8), KROWJYVAN_BAD_PARAMETER);
    expect("all bits of D0 count", asked(picture, N, 1, 0x01000000, 8), KROWJYVAN_BAD_PARAMETER);
    expect("no name", krowjyvan_call(picture, N, KROWJYVAN_TRAP_2, registers, 8, NULL, 0), KROWJYVAN_NOT_FOUND);
    unchanged("a picture whose calls were refused", picture, before, N);
    registers[KROWJYVAN_D0] = KROWJYVAN_IO_OPEN;
    expect("a name", krowjyvan_call(picture, N, KROWJYVAN_TRAP_2, registers, 8, (const uint8_t *)"PIPE_8", 6), KROWJYVAN_DONE);
    expect("the first channel", registers[KROWJYVAN_A0], KROWJYVAN_TAG_WEIGHT);
    expect("its record", picture[KROWJYVAN_FIRST_CHANNEL + KROWJYVAN_NUMBER], registers[KROWJYVAN_A0]);
    expect("its bit", picture[KROWJYVAN_CHANNEL_MASK_WORD], 1);
    expect("a pick", krowjyvan_pick(picture, N, &number), KROWJYVAN_DONE);
    expect("job 0", number, picture[KROWJYVAN_CURRENT_WORD]);
    expect("a tick", krowjyvan_tick(picture, N), KROWJYVAN_DONE);
}

/* Creates a job for its owner. */
static uint32_t created(uint32_t *picture, uint32_t owner)
{
    uint32_t registers[KROWJYVAN_REGISTERS] = {KROWJYVAN_MT_CJOB, 0, 0, 4, 0, 0, 0, 0};

    registers[KROWJYVAN_D1] = owner;
    expect("a job", krowjyvan_call(picture, N, KROWJYVAN_TRAP_1, registers, 8, NULL, 0), KROWJYVAN_DONE);
    return registers[KROWJYVAN_D1];
}

/* A line of the table, which holds this. */
static void line(size_t index, uint32_t number, uint32_t owner, uint32_t depth, uint32_t priority, uint32_t suspended)
{
    const uint32_t *is = table + index * KROWJYVAN_LINE_LONGWORDS;

    expect("a line's number", is[KROWJYVAN_LINE_NUMBER], number);
    expect("a line's owner", is[KROWJYVAN_LINE_OWNER], owner);
    expect("a line's depth", is[KROWJYVAN_LINE_DEPTH], depth);
    expect("a line's priority", is[KROWJYVAN_LINE_PRIORITY], priority);
    expect("a line's job is suspended", is[KROWJYVAN_LINE_SUSPENDED], suspended);
}

/* Tables of every length, also null, with any contents; tops that aren't live; and two dimensions. */
static void reports(void)
{
    static uint32_t picture[N], before[N], lines[KROWJYVAN_JOBS][KROWJYVAN_LINE_LONGWORDS];
    static const uint32_t fills[] = {0, 7, 0xAAAAAAAA, 0xFFFFFFFF};
    uint32_t registers[KROWJYVAN_REGISTERS] = {KROWJYVAN_MT_SUSJB, 0, 0, 9, 0, 0, 0, 0};
    uint32_t first, second, number;
    size_t count;

    expect("fresh", krowjyvan_fresh(picture, N, N, H), KROWJYVAN_DONE);
    first = created(picture, 0);
    second = created(picture, first);
    registers[KROWJYVAN_D1] = second;
    expect("a suspended job", krowjyvan_call(picture, N, KROWJYVAN_TRAP_1, registers, 8, NULL, 0), KROWJYVAN_DONE);
    memcpy(before, picture, sizeof before);
    for (size_t f = 0; f < sizeof fills / sizeof *fills; f++) {
        for (size_t lent = 0; lent <= LONGEST_TABLE; lent++) {
            int enough = 3 * KROWJYVAN_LINE_LONGWORDS <= lent;
            expect("a report", reported(picture, N, 0, lent, fills[f], &count), enough ? KROWJYVAN_DONE : KROWJYVAN_BUFFER_OVERFLOW);
            expect("its lines", (int64_t)count, enough ? 3 : 0);
        }
        line(0, 0, KROWJYVAN_NOBODY, 0, 32, 0);
        line(1, first, 0, 1, 0, 0);
        line(2, second, first, 2, 0, 1);
        expect("one line", reported(picture, N, second, KROWJYVAN_LINE_LONGWORDS, fills[f], &count), KROWJYVAN_DONE);
        expect("its count", (int64_t)count, 1);
        line(0, second, first, 0, 0, 1);
        expect("four longwords", reported(picture, N, second, KROWJYVAN_LINE_LONGWORDS - 1, fills[f], &count), KROWJYVAN_BUFFER_OVERFLOW);
    }
    for (size_t lent = 0; lent <= LONGEST_TABLE; lent += LONGEST_TABLE) {
        expect("the current job is no top", reported(picture, N, KROWJYVAN_CURRENT_JOB, lent, 7, &count), KROWJYVAN_INVALID_JOB);
        expect("a number that was never given", reported(picture, N, first + KROWJYVAN_TAG_WEIGHT, lent, 7, &count), KROWJYVAN_INVALID_JOB);
        expect("a position that isn't there", reported(picture, N, KROWJYVAN_JOBS, lent, 7, &count), KROWJYVAN_INVALID_JOB);
        expect("a picture that is cut short", reported(picture, N - 4, 0, lent, 7, &count), KROWJYVAN_NOT_SOUND);
    }
    unchanged("a picture that was reported", picture, before, N);
    expect("a table of lines", krowjyvan_report_tree(picture, N, 0, lines[0], KROWJYVAN_JOBS * KROWJYVAN_LINE_LONGWORDS, &count), KROWJYVAN_DONE);
    expect("its second line", lines[1][KROWJYVAN_LINE_NUMBER], first);
    expect("a pick", krowjyvan_pick(picture, N, &number), KROWJYVAN_DONE);
    while (picture[KROWJYVAN_JOB_MASK_WORD] != 0xFFFFFFFF)
        created(picture, second);
    expect("a line too few", reported(picture, N, 0, (KROWJYVAN_JOBS - 1) * KROWJYVAN_LINE_LONGWORDS, 7, &count), KROWJYVAN_BUFFER_OVERFLOW);
    expect("as many lines as there are jobs", reported(picture, N, 0, KROWJYVAN_JOBS * KROWJYVAN_LINE_LONGWORDS, 7, &count), KROWJYVAN_DONE);
    expect("their count", (int64_t)count, KROWJYVAN_JOBS);
}

/* Texts: none lent, cut short, and every key. */
static void texts(void)
{
    static const uint8_t driver[] = "?\0\5valve";
    size_t start = 9, count = 9;

    expect("no texts", krowjyvan_error_text(-1, NULL, 0, NULL, 0, &start, &count), KROWJYVAN_NOT_FOUND);
    expect("its start", (int64_t)start, 0);
    expect("its count", (int64_t)count, 0);
    for (int32_t key = -30; key <= 0; key++) {
        int there = -21 <= key && key <= -1;
        expect("a key's text", krowjyvan_error_text(key, krowjyvan_system_text, KROWJYVAN_SYSTEM_TEXT_LENGTH, NULL, 0, &start, &count),
               there ? KROWJYVAN_DONE : KROWJYVAN_NOT_FOUND);
        expect("its length", count > 0, there);
    }
    expect("a text that is cut short", krowjyvan_error_text(-21, krowjyvan_system_text, KROWJYVAN_SYSTEM_TEXT_LENGTH - 1, NULL, 0, &start, &count),
           KROWJYVAN_NOT_FOUND);
    expect("a driver's", krowjyvan_error_text(1, NULL, 0, driver, 8, &start, &count), KROWJYVAN_DONE);
    expect("its start", (int64_t)start, 3);
    expect("its count", (int64_t)count, 5);
    expect("past its end", krowjyvan_error_text(INT32_MAX, NULL, 0, driver, 8, &start, &count), KROWJYVAN_NOT_FOUND);
    expect("the least key", krowjyvan_error_text(INT32_MIN, krowjyvan_system_text, KROWJYVAN_SYSTEM_TEXT_LENGTH, driver, 8, &start, &count),
           KROWJYVAN_NOT_FOUND);
}

int main(void)
{
    unsound();
    sizes();
    calls();
    reports();
    texts();
    printf("%u\n", tried);
    return EXIT_SUCCESS;
}
