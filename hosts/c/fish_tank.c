/*
 * The fish tank and the pond, on the linked manager: desk four logs its tank, ends, and its memory goes to desk five. Whoever
 * still uses desk four's old channel gets an error, and not the neighbour's water.
 */
#include <stdio.h>
#include <stdlib.h>
#include <string.h>

#include "krowjyvan.h"
#include "krowjyvan_texts.h"

enum { N = 1024, H = 256 };

/* The hub: all that the manager knows of it. */
static uint32_t picture[N];

/* The registers of the last call. */
static uint32_t registers[KROWJYVAN_REGISTERS];

/* Prints a key with its text. */
static void print_key(int32_t key)
{
    size_t start, count;

    if (key == KROWJYVAN_DONE)
        printf("done");
    else if (krowjyvan_error_text(key, krowjyvan_system_text, KROWJYVAN_SYSTEM_TEXT_LENGTH, NULL, 0, &start, &count) == KROWJYVAN_DONE)
        printf("refused, %.*s (%d)", (int)count, (const char *)krowjyvan_system_text + start, (int)key);
    else
        printf("refused (%d)", (int)key);
}

/* Makes a call with D1 and A0 and says how it went. The other registers are those that the caller has set. */
static int32_t call(const char *what, uint32_t trap, uint32_t code, uint32_t d1, uint32_t a0, const char *name)
{
    int32_t key;

    registers[KROWJYVAN_D0] = code;
    registers[KROWJYVAN_D1] = d1;
    registers[KROWJYVAN_A0] = a0;
    key = krowjyvan_call(picture, N, trap, registers, KROWJYVAN_REGISTERS, (const uint8_t *)name, strlen(name));
    printf("%s: ", what);
    print_key(key);
    printf(".\n");
    return key;
}

/* Stops at a refusal that the lesson doesn't want. */
static void expect(int32_t key, int32_t expected)
{
    if (key != expected) {
        fprintf(stderr, "fish_tank: key %d where %d was expected.\n", (int)key, (int)expected);
        exit(EXIT_FAILURE);
    }
}

/* Creates a program for a job, its owner, with 60 bytes of code and 40 of data. */
static uint32_t create(const char *what, uint32_t owner)
{
    registers[KROWJYVAN_D2] = 60;
    registers[KROWJYVAN_D3] = 40;
    expect(call(what, KROWJYVAN_TRAP_1, KROWJYVAN_MT_CJOB, owner, 0, ""), KROWJYVAN_DONE);
    registers[KROWJYVAN_D2] = registers[KROWJYVAN_D3] = 0;
    printf("    It is job $%08X, and its room starts at byte %u.\n", (unsigned)registers[KROWJYVAN_D1], (unsigned)registers[KROWJYVAN_A0]);
    return registers[KROWJYVAN_D1];
}

/* Opens a queue of 8 bytes for a job. */
static uint32_t open_queue(const char *what, uint32_t job)
{
    expect(call(what, KROWJYVAN_TRAP_2, KROWJYVAN_IO_OPEN, job, 0, "PIPE_8"), KROWJYVAN_DONE);
    printf("    It is channel $%08X: tag %u, position %u.\n", (unsigned)registers[KROWJYVAN_A0],
           (unsigned)(registers[KROWJYVAN_A0] / KROWJYVAN_TAG_WEIGHT), (unsigned)(registers[KROWJYVAN_A0] % KROWJYVAN_TAG_WEIGHT));
    return registers[KROWJYVAN_A0];
}

/* Shows the leader's screen: job 0, farther in the jobs of the desks, which it owns, and under each the helper that it owns. */
static void show_screen(void)
{
    uint32_t table[KROWJYVAN_JOBS][KROWJYVAN_LINE_LONGWORDS];
    size_t count;

    expect(krowjyvan_report_tree(picture, N, 0, table[0], KROWJYVAN_JOBS * KROWJYVAN_LINE_LONGWORDS, &count), KROWJYVAN_DONE);
    printf("The leader's screen:\n");
    for (size_t i = 0; i < count; i++)
        printf("    %*sjob $%08X, priority %u%s\n", (int)(4 * table[i][KROWJYVAN_LINE_DEPTH]), "", (unsigned)table[i][KROWJYVAN_LINE_NUMBER],
               (unsigned)table[i][KROWJYVAN_LINE_PRIORITY], table[i][KROWJYVAN_LINE_SUSPENDED] ? ", suspended" : "");
}

int main(void)
{
    uint32_t four, five, tank, pond, turn;

    printf("A fresh hub of %d longwords, %d of them the heap: ", N, H);
    print_key(krowjyvan_fresh(picture, N, N, H));
    printf(".\n");

    four = create("Desk four starts", 0);
    create("The workshop leader starts a helper for desk four", four);
    five = create("Desk five starts", 0);
    show_screen();
    tank = open_queue("Desk four opens a queue for its fish tank", four);
    expect(call("Desk four logs 8 milligrams of oxygen in its tank", KROWJYVAN_TRAP_3, KROWJYVAN_IO_SBYTE, 8, tank, ""), KROWJYVAN_DONE);

    expect(call("The workshop leader ends desk four, with all that it owns", KROWJYVAN_TRAP_1, KROWJYVAN_MT_FRJOB, four, 0, ""), KROWJYVAN_DONE);
    expect(krowjyvan_pick(picture, N, &turn), KROWJYVAN_DONE);
    printf("The next turn: job $%08X has it.\n", (unsigned)turn);
    show_screen();

    pond = open_queue("Desk five opens a queue for its pond, where desk four's was", five);
    expect(call("Desk five logs 2 milligrams in its pond", KROWJYVAN_TRAP_3, KROWJYVAN_IO_SBYTE, 2, pond, ""), KROWJYVAN_DONE);

    expect(call("The page about the fish tank fetches from desk four's old channel", KROWJYVAN_TRAP_3, KROWJYVAN_IO_FBYTE, 0, tank, ""),
           KROWJYVAN_CHANNEL_NOT_OPEN);
    printf("    So it shows no water at all, and not the neighbour's.\n");
    expect(call("The page about the pond fetches from desk five's own", KROWJYVAN_TRAP_3, KROWJYVAN_IO_FBYTE, 0, pond, ""), KROWJYVAN_DONE);
    printf("    It gets %u: desk five's byte was waiting for it.\n", (unsigned)registers[KROWJYVAN_D1]);
    return EXIT_SUCCESS;
}
