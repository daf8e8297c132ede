/*
 * krowjyvan.h: the manager of a hub, for programs in C. Link libkrowjyvan.a, on Linux on x86-64:
 *
 *     cc hub.c -I release release/libkrowjyvan.a
 *
 * The manager keeps a hub's programs ("jobs"), their memory, the queues between them ("channels") and whose turn it is. It
 * answers the calls of the Sinclair QL's operating system, Qdos, under the names of the QL Technical Guide (MT.CJOB,
 * IO.OPEN, ..). All that it knows stands in an array of 32-bit longwords, the picture, which belongs to you:
 *
 *     static uint32_t hub[2048], registers[KROWJYVAN_REGISTERS], job;
 *
 *     krowjyvan_fresh(hub, 2048, 2048, 512);              job 0 is there and current; it can create others
 *     for (;;) {
 *         int32_t key = krowjyvan_pick(hub, 2048, &job);  who has the next turn?
 *         if (job == KROWJYVAN_NOBODY)
 *             break;                                      nobody is ready; or, if key isn't 0, hub isn't sound
 *         step(job, key);                                 let that program go on. Its calls are given to the manager:
 *                                                             registers[KROWJYVAN_D0] = KROWJYVAN_MT_INF;
 *                                                             krowjyvan_call(hub, 2048, KROWJYVAN_TRAP_1,
 *                                                                            registers, KROWJYVAN_REGISTERS, NULL, 0);
 *         krowjyvan_tick(hub, 2048);                      where a frame, the hub's unit of time, has passed
 *     }
 *
 * What you may count on
 *   - Every call is answered, whatever stands in the buffers and however long they are: you need not check first.
 *   - A refusal leaves the picture as it was, and a table too. krowjyvan_call then writes the key to D0 and no other register.
 *   - Nothing is kept between calls. The archive has no data of its own, takes no memory and calls no other function, not
 *     even of the C library. A picture may be copied, or written to a file and read again on such a machine: the copy is as
 *     good. (To see whether one is sound, make a call with trap 0: KROWJYVAN_NOT_SOUND says that it isn't.)
 *   - Calls on different pictures may run at the same time, in as many threads as you like, and in signal handlers.
 *
 * What you must see to, because nothing can check it
 *   - Calls that are lent one picture must not run at the same time, nor may anything else write a buffer meanwhile. (Reports of
 *     one picture, each with a table of its own, may: they only read it.)
 *   - A length is the number of elements that really are at the address. It may be 0, and the pointer then may be null.
 *     (A picture whose length isn't its N is answered: it isn't sound.)
 *   - Pointers to longwords and to lengths are aligned as their type is, as those of C's own arrays and variables are.
 *   - What a call writes (picture, registers, table, `number`, `start`, `count`) overlaps nothing else that it is lent.
 *   - `number`, `start` and `count` are never null.
 *
 * What words mean
 *   live        of a job or a channel: from its creation to its removal. So long its number names it, and after that nothing
 *   current     the job that has the turn: the one that the last pick chose. Every call is the current job's
 *   active      of a job: its priority isn't 0. A new one isn't active
 *   suspended   of a job: its timeout isn't 0. A job that waits for another is suspended without end
 *   ready       active and not suspended: a pick chooses among the ready jobs
 *   tree        of a job: the job, the jobs that it owns, those that they own, and so on
 *   sound       of a picture: it holds together. A fresh one does, and every function leaves a sound one sound
 */
#ifndef KROWJYVAN_H
#define KROWJYVAN_H

#include <stddef.h>
#include <stdint.h>

#ifdef __cplusplus
extern "C" {
#endif

/*
 * The keys: 0 for done, negative for a refusal. In brackets their names in the guide, section 18.1. Every function returns
 * one of these but krowjyvan_pick, which returns the key that it delivers to a job.
 */
#define KROWJYVAN_DONE 0
#define KROWJYVAN_NOT_COMPLETE (-1)      /* [ERR.NC] queue full or empty; job already active; a job to be removed is active */
#define KROWJYVAN_INVALID_JOB (-2)       /* [ERR.NJ] no such job; nobody is current; job positions or tags are used up */
#define KROWJYVAN_OUT_OF_MEMORY (-3)     /* [ERR.OM] no free block is long enough */
#define KROWJYVAN_OUT_OF_RANGE (-4)      /* [ERR.OR] a fresh picture's sizes are bad */
#define KROWJYVAN_BUFFER_OVERFLOW (-5)   /* [ERR.BO] a table has fewer lines than the tree that is to be reported has jobs */
#define KROWJYVAN_CHANNEL_NOT_OPEN (-6)  /* [ERR.NO] no such channel; channel positions or tags are used up */
#define KROWJYVAN_NOT_FOUND (-7)         /* [ERR.NF] the name isn't PIPE; no such error text */
#define KROWJYVAN_BAD_NAME (-12)         /* [ERR.BN] PIPE_ isn't followed by 1 to 5 digits worth 1 to 32,766 */
#define KROWJYVAN_BAD_PARAMETER (-15)    /* [ERR.BP] any other bad parameter; the name PIPE alone; no such call; registers not 8 */
#define KROWJYVAN_NOT_SOUND (-16)        /* [ERR.FE] the picture isn't sound */

/* The registers of a call, by their index. */
#define KROWJYVAN_D0 0 /* the call; afterwards the key */
#define KROWJYVAN_D1 1
#define KROWJYVAN_D2 2
#define KROWJYVAN_D3 3
#define KROWJYVAN_A0 4
#define KROWJYVAN_A1 5
#define KROWJYVAN_A2 6
#define KROWJYVAN_A3 7
#define KROWJYVAN_REGISTERS 8

/*
 * The calls: a trap, and in D0 one of its codes. What goes into registers stands before the arrow, what comes out behind it;
 * D0 gets the key, and registers that aren't mentioned keep their value. A job or a channel is meant by its number. In a
 * register marked * any number whose bit 15 is set, such as KROWJYVAN_CURRENT_JOB, means the current job.
 *
 * Every call wants somebody current (else -2). A call marked ! that is done leaves nobody current, whichever job it names: its
 * caller goes on at a later turn of its own. Refused, it leaves the caller current.
 *
 * MT.INF                                                  -> D1 the current job, D2 the characters 1.00 ($312E3030), A0 0
 * MT.CJOB     D1 the owner, any live job; negative: none. -> D1 the new job, inactive; A0 the first of its D2 + D3 bytes
 *             D2 bytes of code, D3 of data, at least 4;
 *             A1 a start address, which is kept and not
 *             looked at
 * MT.JINF     D1* a job in the tree of D2, D2 a job       -> D1 the next younger job of that tree, 0 after the youngest;
 *                                                            D2 its owner or KROWJYVAN_NOBODY; D3 its priority, and if it is
 *                                                            suspended $FF000000 more; A0 its first byte, 0 for job 0; A1 0
 * MT.RJOB !   D1* a job, not job 0; D3 a key              -> all 0. Removes its tree, with all memory and channels that the
 *                                                            tree owns; who waits for one of it gets the key at its next
 *                                                            turn. Refused (-1) where one of the tree is active
 * MT.FRJOB !  the same, active or not: a job removes itself by this
 * MT.FREE                                                 -> D1 bytes of the longest room for a job; the others 0
 * MT.SUSJB !  D1* a job, D3 frames, 1 to 32,767 or -1     -> D1 the job, A0 the byte offset of its record. Its wait is over,
 *             for without end; A1 0                          and a key that it hasn't got yet is lost
 * MT.RELJB !  D1* a job                                   -> D1 and A0 as above. A suspended job goes on, without a key
 * MT.ACTIV !  D1* an inactive job, D2 priority 1 to 127,  -> D1 and A0 as above
 *             D3 0, or -1 to wait until the job, which
 *             isn't job 0, is removed
 * MT.PRIOR !  D1* a job, D2 priority 0 to 127             -> D1 and A0 as above
 * MT.ALCHP    D1 bytes, at least 1; D2* the owner         -> D1 bytes that can be used, A0 the first; the others 0
 * MT.RECHP    A0 the first byte of a room of MT.ALCHP     -> all 0
 * IO.OPEN     D1* the owner; the name PIPE_n, capital or  -> D1 the owner, A0 the channel, whose queue is empty
 *             small, n the bytes that the queue holds
 * IO.CLOSE    A0 the channel                              -> nothing
 * IO.PEND     A0 the channel, D3 0                        -> nothing: done if a byte waits, else -1
 * IO.FBYTE    A0 the channel, D3 0                        -> D1 the oldest byte, which is taken out; -1 if there is none
 * IO.SBYTE    A0 the channel, D1 the byte, D3 0           -> nothing; -1 if the queue is full
 *
 * Of a priority and a byte to send only the low 8 bits are read, of frames and of the D3 of MT.ACTIV and of trap 3 only the low
 * 16, signed; elsewhere all 32 bits count, in D0 too. No call waits for a byte: the job tries again at a later turn. A job may
 * use, close, give back or remove what another one owns: the manager keeps what belongs to whom, and forbids nothing.
 *
 * An address is a byte offset into the picture: the longword at index i starts at byte 4 * i. Memory is clear when it is given.
 */
#define KROWJYVAN_TRAP_1 1 /* the manager's traps */
#define KROWJYVAN_MT_INF 0x00
#define KROWJYVAN_MT_CJOB 0x01
#define KROWJYVAN_MT_JINF 0x02
#define KROWJYVAN_MT_RJOB 0x04
#define KROWJYVAN_MT_FRJOB 0x05
#define KROWJYVAN_MT_FREE 0x06
#define KROWJYVAN_MT_SUSJB 0x08
#define KROWJYVAN_MT_RELJB 0x09
#define KROWJYVAN_MT_ACTIV 0x0A
#define KROWJYVAN_MT_PRIOR 0x0B
#define KROWJYVAN_MT_ALCHP 0x18
#define KROWJYVAN_MT_RECHP 0x19

#define KROWJYVAN_TRAP_2 2 /* opening and closing channels */
#define KROWJYVAN_IO_OPEN 0x01
#define KROWJYVAN_IO_CLOSE 0x02

#define KROWJYVAN_TRAP_3 3 /* reading and writing them */
#define KROWJYVAN_IO_PEND 0x00
#define KROWJYVAN_IO_FBYTE 0x01
#define KROWJYVAN_IO_SBYTE 0x05

/*
 * The number for nobody, where a job's number is read: no current job, no owner. And the number that means the current job, in
 * a register marked * above. They are the same: see whether an owner is nobody before you give it to a call.
 */
#define KROWJYVAN_NOBODY UINT32_C(0xFFFFFFFF)
#define KROWJYVAN_CURRENT_JOB UINT32_C(0xFFFFFFFF)

/*
 * A number is tag * KROWJYVAN_TAG_WEIGHT + position. A tag is given once, so a dead number never names anything again. When the
 * tags to KROWJYVAN_GREATEST_TAG are given, no more jobs can be created in that picture, or channels opened.
 */
#define KROWJYVAN_TAG_WEIGHT UINT32_C(65536)
#define KROWJYVAN_GREATEST_TAG 32767

/* The picture has N longwords, a multiple of 4 from the least to the greatest. */
#define KROWJYVAN_LEAST_SIZE 1024
#define KROWJYVAN_GREATEST_SIZE 16384

/*
 * Where things stand in a picture, for a hub that wants to read it. What a hub may write without a thought is the D2 + D3 bytes
 * from A0 of MT.CJOB and the D1 bytes from A0 of MT.ALCHP. The manager counts the bytes of a longword from its high end, which
 * is seen in queues: there byte b is picture[b / 4] >> (24 - 8 * (b % 4)) & 0xFF.
 */
#define KROWJYVAN_SIZE_WORD 0          /* N */
#define KROWJYVAN_CURRENT_WORD 1       /* the current job */
#define KROWJYVAN_LAST_JOB_TAG_WORD 2  /* the last tags given */
#define KROWJYVAN_LAST_CHANNEL_TAG_WORD 3
#define KROWJYVAN_HEAP_WORD 4          /* H, the longwords of the heap */
#define KROWJYVAN_JOB_MASK_WORD 5      /* bit k: position k is in use */
#define KROWJYVAN_CHANNEL_MASK_WORD 6
#define KROWJYVAN_ZERO_WORD 7
#define KROWJYVAN_FIRST_JOB 8          /* the job records */
#define KROWJYVAN_JOBS 32              /* how many */
#define KROWJYVAN_JOB_WIDTH 8          /* longwords of one */
#define KROWJYVAN_FIRST_CHANNEL 264    /* the channel records */
#define KROWJYVAN_CHANNELS 32
#define KROWJYVAN_CHANNEL_WIDTH 4
#define KROWJYVAN_HEAP_BASE 392        /* the heap; behind it, up to N, the jobs' own memory */

/* The fields of a record. A channel's has the first three and then one, KROWJYVAN_ENDING, that is always 1. */
#define KROWJYVAN_NUMBER 0
#define KROWJYVAN_OWNER 1
#define KROWJYVAN_BASE 2        /* the byte offset of its block, 16 bytes before its first byte; 0 for job 0, which has none */
#define KROWJYVAN_PRIORITY 3
#define KROWJYVAN_ACCUMULATED 4 /* what it has gained for its next turn */
#define KROWJYVAN_TIMEOUT 5     /* signed: frames left, 0 not suspended, -1 without end */
#define KROWJYVAN_WAIT 6        /* the job that it waits for, or 0 */
#define KROWJYVAN_KEY 7         /* signed: the key that its next turn delivers */
#define KROWJYVAN_ENDING 3
#define KROWJYVAN_GREATEST_PRIORITY 127
#define KROWJYVAN_HOLD 8191 /* the most that is accumulated */
#define KROWJYVAN_GREATEST_TIMEOUT 32767
#define KROWJYVAN_WITHOUT_END (-1)

/* A job's line in a report: its longwords, by their index. */
#define KROWJYVAN_LINE_NUMBER 0
#define KROWJYVAN_LINE_OWNER 1     /* its owner's number, or KROWJYVAN_NOBODY */
#define KROWJYVAN_LINE_DEPTH 2     /* 0 for the top, 1 for a job that the top owns, 2 for one that such a job owns, and so on */
#define KROWJYVAN_LINE_PRIORITY 3
#define KROWJYVAN_LINE_SUSPENDED 4 /* 1 where it is suspended, else 0 */
#define KROWJYVAN_LINE_LONGWORDS 5

/*
 * Makes the lent array a fresh picture of n longwords, h of them the heap: one job, number 0, priority 32, is there and
 * current. h is a multiple of 4 and at least 4, and KROWJYVAN_HEAP_BASE + h + 4 is at most n. In the heap are the rooms of
 * MT.ALCHP, 16 bytes longer than asked for, and the queues, 32 bytes longer; behind it the jobs, 16 bytes longer; each rounded
 * up to a multiple of 16 bytes. Refused, with nothing written, by KROWJYVAN_OUT_OF_RANGE: sizes that aren't so, or an array
 * whose length isn't n.
 */
int32_t krowjyvan_fresh(uint32_t *picture, size_t length, uint32_t n, uint32_t h);

/*
 * A call of the current job: a trap, its registers (KROWJYVAN_REGISTERS of them, D0 the call) and for IO.OPEN the name's
 * characters, without a 0 at the end; beside any other call the name isn't read. Returns the key, which D0 holds afterwards too.
 * Looked at in this order: registers not 8 (-15, and then no register is written), the picture, nobody current, no such trap or
 * call, then what the call asks.
 */
int32_t krowjyvan_call(uint32_t *picture, size_t length, uint32_t trap, uint32_t *registers, size_t register_count,
                       const uint8_t *name, size_t name_length);

/*
 * Gives a job its turn and makes it current; the one that was current until now waits for its next. `number` gets its number,
 * and returned is the key that is delivered to it: 0, or any value that the removal of a job that it waited for has given.
 * Look at `number` first. It gets KROWJYVAN_NOBODY where no job is ready, and 0 is returned, and where the picture isn't sound,
 * and KROWJYVAN_NOT_SOUND is returned.
 *
 * The ready job that has accumulated most is chosen, of equals the one at the lowest position, and then has 0; every other
 * ready job gains its priority, to at most KROWJYVAN_HOLD. So a job that stays ready, at a priority p that nobody changes, gets
 * at least one of any 2 + 3810 / p turns in a row, rounded down, whatever the others do.
 */
int32_t krowjyvan_pick(uint32_t *picture, size_t length, uint32_t *number);

/* A frame passes: each timeout that isn't without end falls by 1, and at 0 the job isn't suspended any more. Returns the key. */
int32_t krowjyvan_tick(uint32_t *picture, size_t length);

/*
 * Reports the tree of the job `top`, as for a screen: a line for each of its jobs, by rising tag, so the top's comes first and
 * every other behind its owner's. The table is lent by its longwords, KROWJYVAN_LINE_LONGWORDS a line; what is over, less than a
 * line, is left alone. KROWJYVAN_JOBS lines are enough for any tree:
 *
 *     uint32_t table[KROWJYVAN_JOBS][KROWJYVAN_LINE_LONGWORDS];
 *     size_t count;
 *
 *     krowjyvan_report_tree(hub, 2048, 0, table[0], KROWJYVAN_JOBS * KROWJYVAN_LINE_LONGWORDS, &count);
 *     for (size_t i = 0; i < count; i++)
 *         show(table[i][KROWJYVAN_LINE_NUMBER], table[i][KROWJYVAN_LINE_DEPTH]);
 *
 * `count` gets how many lines were written, from the table's first on; what stands behind them stays. Returns the key. Refused,
 * it writes nothing to the table, and `count` gets 0. Looked at in this order: the picture, a top that isn't live (-2), such as
 * KROWJYVAN_CURRENT_JOB, and a table with fewer lines than the tree has jobs (-5). Nobody needs to be current.
 */
int32_t krowjyvan_report_tree(const uint32_t *picture, size_t length, uint32_t top, uint32_t *table, size_t table_length,
                              size_t *count);

/*
 * The text of a key, in two texts that you lend: the system's, 21 strings for the keys -1 to -21 (krowjyvan_texts.h has one),
 * and a driver's, in which a positive key is the offset of a string. A string is its length in two bytes, the high one first,
 * and its characters; strings follow one another. Returns 0; then `count` characters from `start` on are the text, in the
 * driver's text where the key is positive, else in the system's. No 0 stands behind them: print them by "%.*s". Returns
 * KROWJYVAN_NOT_FOUND, with 0 in both, where there is no such text, as for key 0, below -21, or where a text is cut short.
 */
int32_t krowjyvan_error_text(int32_t key, const uint8_t *system, size_t system_length, const uint8_t *driver,
                             size_t driver_length, size_t *start, size_t *count);

#ifdef __cplusplus
}
#endif

#endif
