/*
 * The board of Joekwind in C: budgets, objects, threads, ready queue and exit log, in bytes that
 * the caller lends. `tools/library` proves it and writes the library for x86-64 Linux,
 * target/staticlib/libcarv.a.
 *
 * docs/LAYOUT.md has the area byte by byte. The functions stand in crates/carv_c/src/lib.rt, each
 * by that of crates/carv of the same name; specs/C.antt there, specs/Area.antt, specs/Creating.antt
 * and specs/Image.antt of crates/carv_scheduler, and specs/Image.antt of crates/carv_register_image,
 * say what each is proved to return and to leave.
 *
 * What is lent
 *
 *   area    CARV_AREA_BYTES bytes: the whole state of a board. The caller keeps it between calls.
 *   out     CARV_ANSWER_WORDS answer words: room for the values of an answer.
 *   image   CARV_IMAGE_BYTES bytes: the register image of a thread.
 *
 * Each is two arguments, a pointer and the number of its elements. The caller owes what C owes for
 * these: the memory is there; it is aligned for its element (out as uint64_t; bytes need no
 * alignment); nobody else uses it during the call; and what is lent to one call does not overlap.
 * Everything else is asked: any length, any bytes, any numbers. No function keeps a pointer.
 *
 * What comes back
 *
 * Every function but carv_is_sound returns CARV_ACCEPTED, or the number of the first question that
 * the call misses; questions are asked in the order of their numbers. An accepted call writes its
 * values into the first answer words. The other words stay as they were, and after a refusal all
 * of them. A refusal leaves every byte of the area, with two exceptions: refused with
 * CARV_REFUSED_LIMIT, carv_charge_cpu leaves the budget renewed if a renewal was due, and so does
 * carv_create_budget where the parent has 128 bytes free.
 *
 * CARV_REFUSED_UNSOUND can come from every function that returns a number. "Refused with" names
 * the other numbers of a function.
 *
 * Times
 *
 * A time is in ns; tick n is the time n x CARV_TICK_NS. What the caller owes for the board's main
 * guarantee is a clock that doesn't fall: as long as the times of calls that are accepted, or
 * refused with CARV_REFUSED_LIMIT, never fall from an opening on, in each period of CARV_PERIOD_NS
 * counted from time 0 the CPU time charged to a budget and to all below it, those removed meanwhile
 * included, is at most that budget's share, its allowance. specs/Overspending.antt of crates/carv
 * says it exactly. With a clock that falls it may be more; no call asks for it. The tick that a
 * sleep waits for is none of these times.
 *
 * Stack, registers and the C library
 *
 * A call takes at most 18,112 bytes of stack, its return address included. docs/LAYOUT.md has the
 * figure of each function. Nothing calls itself, and nothing is written below the stack pointer:
 * there is no red zone.
 *
 * Of the C library only memmove and memset are called. A kernel brings its own; the stack that
 * they take comes on top.
 *
 * The library uses the SSE registers and leaves them changed, as C's calling convention allows. It
 * uses no x87, MMX or AVX register. A kernel that calls from an interrupt saves the SSE registers
 * around the call, as by fxsave64 and fxrstor64, if the interrupted code uses them.
 */
#ifndef CARV_H
#define CARV_H

#include <stdbool.h>
#include <stddef.h>
#include <stdint.h>

#ifdef __cplusplus
extern "C" {
#endif

/* Lengths of what is lent. */
#define CARV_AREA_BYTES 68144
#define CARV_ANSWER_WORDS 20
#define CARV_IMAGE_BYTES 512

/* Places of the tables. Idle counts among the threads. */
#define CARV_MOST_OBJECTS 512
#define CARV_MOST_THREADS 128
#define CARV_MOST_EXITS 32

/* A period and a tick, in ns, and the last tick. Tick n is the time n x CARV_TICK_NS. */
#define CARV_PERIOD_NS UINT64_C(10000000)
#define CARV_TICK_NS UINT64_C(1000000)
#define CARV_LAST_TICK UINT64_C(18446744073709)

/* The ids at an opening: the root budget, thread 0, idle. */
#define CARV_ROOT UINT64_C(1)
#define CARV_FIRST_THREAD UINT64_C(0)
#define CARV_IDLE UINT64_C(18446744073709551615)

/* Kinds of objects. */
enum {
    CARV_KIND_THREAD = 1,
    CARV_KIND_ADDRESS_SPACE = 2,
    CARV_KIND_FRAME = 3,
    CARV_KIND_ENDPOINT = 4,
    CARV_KIND_NOTIFICATION = 5,
    CARV_KIND_BUDGET = 6,
    CARV_KIND_REPLY = 7,
    CARV_KIND_IRQ = 8,
    CARV_KIND_IRQ_CONTROL = 9
};

/* The bytes that each kind is charged. */
enum {
    CARV_BYTES_THREAD = 33792,
    CARV_BYTES_ADDRESS_SPACE = 16384,
    CARV_BYTES_FRAME = 4096,
    CARV_BYTES_ENDPOINT = 128,
    CARV_BYTES_NOTIFICATION = 64,
    CARV_BYTES_BUDGET = 128,
    CARV_BYTES_REPLY = 64,
    CARV_BYTES_IRQ = 64,
    CARV_BYTES_IRQ_CONTROL = 64
};

/* States of a thread. */
enum {
    CARV_STATE_INACTIVE = 1,
    CARV_STATE_READY = 2,
    CARV_STATE_RUNNING = 3,
    CARV_STATE_BLOCKED = 4,
    CARV_STATE_DEAD = 5
};

/* Kinds of a wait. A wait has a number too; that of a sleep is the tick at which it is due. */
enum {
    CARV_WAIT_NONE = 0, /* in answers only */
    CARV_WAIT_SEND = 1,
    CARV_WAIT_RECV = 2,
    CARV_WAIT_REPLY = 3,
    CARV_WAIT_NOTIFICATION = 4,
    CARV_WAIT_SLEEP = 5
};

/* Causes of a thread's end. */
enum {
    CARV_CAUSE_NONE = 0, /* in answers only */
    CARV_CAUSE_DESTROYED = 1,
    CARV_CAUSE_FAULTED = 2
};

/* What a call returns: document 01's numbers, but for 15, which no call gives. */
enum {
    CARV_ACCEPTED = 0,
    /* Something is lent in another length, or the area holds no sound board. */
    CARV_REFUSED_UNSOUND = 1,
    /* The CPU share of an opening is above a period. */
    CARV_REFUSED_SHARE = 2,
    /* The tick is above CARV_LAST_TICK. */
    CARV_REFUSED_TICK = 3,
    /* The kind, wait or cause is not listed, or a budget was to be inserted. */
    CARV_REFUSED_CODE = 4,
    /* A new thread's id has a record or is that of thread 0 or idle; or idle was to be killed. */
    CARV_REFUSED_ID = 5,
    /* The table has no place left, or the next object's id would be 2^64 - 1. */
    CARV_REFUSED_FULL = 6,
    /* There is no such object, payer or thread, or it is no budget where a budget is asked for. */
    CARV_REFUSED_MISSING = 7,
    /*
     * The thread to start is not Inactive, the one to wake not Blocked, or the current one, which
     * is to block, not Running or idle.
     */
    CARV_REFUSED_STATE = 8,
    /* The root can't be removed. */
    CARV_REFUSED_ROOT = 9,
    /* The budget to be removed pays for something. */
    CARV_REFUSED_PAYS = 10,
    /* An uncharge is above the recorded charge. */
    CARV_REFUSED_CHARGE = 11,
    /* The payer can't cover the charge, or the CPU time or memory to be carved out. */
    CARV_REFUSED_LIMIT = 12,
    /* An object of this kind can't be created. */
    CARV_REFUSED_KIND = 13,
    /* The backing, or the new thread's kernel stack, is not there. */
    CARV_REFUSED_BACKING = 14
};

/* Indexes of the answer words. */

/* Of an answer of one value: an id, a figure, a cause, or 1 for yes and 0 for no. */
enum { CARV_OUT_VALUE = 0 };

/* Of carv_account. */
enum {
    CARV_ACCOUNT_CPU_ALLOWANCE = 0,
    CARV_ACCOUNT_MEMORY_LIMIT = 1,
    CARV_ACCOUNT_PERIOD_START = 2,
    CARV_ACCOUNT_CPU_LEFT = 3,
    CARV_ACCOUNT_CPU_RESERVED = 4,
    CARV_ACCOUNT_MEMORY_USED = 5,
    CARV_ACCOUNT_MEMORY_RESERVED = 6
};

/* Of carv_charge_of. */
enum { CARV_CHARGE_PAYER = 0, CARV_CHARGE_BYTES = 1 };

/* Of carv_totals. */
enum { CARV_TOTALS_MEMORY_USED = 0, CARV_TOTALS_MEMORY_FREE = 1, CARV_TOTALS_CPU_LEFT = 2 };

/* Of carv_kill: the wait that it ended, or 0 and 0. */
enum { CARV_KILL_WAIT_KIND = 0, CARV_KILL_WAIT_NUMBER = 1 };

/* Of carv_plan. With no switch only word 0 is written, and word 4 only where word 3 is 1. */
enum {
    CARV_PLAN_SWITCH = 0,   /* 1 for a switch, 0 for none */
    CARV_PLAN_OLD = 1,      /* the id of the thread that was current */
    CARV_PLAN_NEW = 2,      /* the id of the thread that runs */
    CARV_PLAN_HAS_ROOT = 3, /* 1 if that thread has a root, 0 for the kernel's */
    CARV_PLAN_ROOT = 4
};

/* Of carv_read_thread. */
enum {
    CARV_THREAD_STATE = 0,
    CARV_THREAD_WAIT_KIND = 1, /* 0 unless Blocked */
    CARV_THREAD_WAIT_NUMBER = 2,
    CARV_THREAD_HAS_BUDGET = 3, /* 1, or 0 and the budget is 0 */
    CARV_THREAD_BUDGET = 4,
    CARV_THREAD_HAS_SPACE = 5, /* 1, or 0 and the next three are 0 */
    CARV_THREAD_SPACE = 6,
    CARV_THREAD_CSPACE = 7,
    CARV_THREAD_ROOT = 8,
    CARV_THREAD_RIP = 9,
    CARV_THREAD_RSP = 10,
    CARV_THREAD_RFLAGS = 11,
    CARV_THREAD_RDI = 12,
    CARV_THREAD_RSI = 13,
    CARV_THREAD_CS = 14,
    CARV_THREAD_SS = 15,
    CARV_THREAD_RESULT_0 = 16,
    CARV_THREAD_RESULT_1 = 17,
    CARV_THREAD_RESULT_2 = 18,
    CARV_THREAD_RUN_TICKS = 19
};

/* The opening, and question 1. */

/*
 * Opens a board with a root budget of this CPU share and memory limit, over whatever the area held:
 * of what is lent only the lengths are asked. Thread 0 runs, idle is Ready. Refused with 2.
 */
uint64_t carv_open(uint8_t *area, size_t area_bytes, uint64_t cpu, uint64_t memory,
                   uint64_t *out, size_t out_words);

/* Is the area of its length and the board in it sound? */
bool carv_is_sound(const uint8_t *area, size_t area_bytes);

/* Objects and budgets. */

/*
 * Creates an object of kind 2, 3, 4, 5 or 7; the payer, a budget, is charged the bytes of the kind.
 * For kinds 2 and 3, backing says whether the memory behind the object is there. Word 0: its id.
 * Refused with 4, 6, 7, 12, 13, 14.
 */
uint64_t carv_create(uint8_t *area, size_t area_bytes, uint64_t kind, uint64_t payer, bool backing,
                     uint64_t *out, size_t out_words);

/*
 * Inserts an object of any kind but 6; the payer is charged so many bytes. Word 0: its id. Refused
 * with 4, 6, 7, 12.
 */
uint64_t carv_insert(uint8_t *area, size_t area_bytes, uint64_t kind, uint64_t payer,
                     uint64_t bytes, uint64_t *out, size_t out_words);

/*
 * Carves a budget out of its parent, which is charged 128 bytes, renewed if that is due at this
 * time, and then reserves the CPU time and the memory. Word 0: its id. Refused with 6, 7, 12.
 */
uint64_t carv_create_budget(uint8_t *area, size_t area_bytes, uint64_t parent, uint64_t cpu,
                            uint64_t memory, uint64_t time, uint64_t *out, size_t out_words);

/*
 * Raises an object's charge and what its payer has used. Two charges of one object whose sum is
 * below 2^64 are both accepted exactly when one charge of the sum is, and then leave the same bytes;
 * where only the first is accepted, it stays. Charges on objects of different payers give the same
 * answers and bytes in either order. Refused with 7, 12.
 */
uint64_t carv_charge_more(uint8_t *area, size_t area_bytes, uint64_t id, uint64_t bytes,
                          uint64_t *out, size_t out_words);

/*
 * Lowers an object's charge and what its payer has used. Right after an accepted charge of the same
 * object by as many bytes, it restores the area. Refused with 7, 11.
 */
uint64_t carv_uncharge(uint8_t *area, size_t area_bytes, uint64_t id, uint64_t bytes, uint64_t *out,
                       size_t out_words);

/*
 * Removes an object: its payer is credited the charge. The payer of a removed budget is first
 * renewed if that is due at this time, and then reserves the budget's limits no more; beyond that
 * its CPU left does not move. The removal of another kind renews nobody. Refused with 7, 9, 10.
 */
uint64_t carv_remove(uint8_t *area, size_t area_bytes, uint64_t id, uint64_t time, uint64_t *out,
                     size_t out_words);

/* Renews a budget if that is due at this time. Word 0: 1 if it was, 0 if not. Refused with 7. */
uint64_t carv_refill(uint8_t *area, size_t area_bytes, uint64_t id, uint64_t time, uint64_t *out,
                     size_t out_words);

/* Renews a budget if that is due at this time, then charges it CPU time. Refused with 7, 12. */
uint64_t carv_charge_cpu(uint8_t *area, size_t area_bytes, uint64_t id, uint64_t ns, uint64_t time,
                         uint64_t *out, size_t out_words);

/* Word 0: 1 if another object has this payer, 0 if not, or if there is no such payer. */
uint64_t carv_pays_for_anything(const uint8_t *area, size_t area_bytes, uint64_t id, uint64_t *out,
                                size_t out_words);

/* Words 0 to 6: a budget's account, see CARV_ACCOUNT_. Refused with 7. */
uint64_t carv_account(const uint8_t *area, size_t area_bytes, uint64_t id, uint64_t *out,
                      size_t out_words);

/* Words 0 and 1: an object's payer and charge, see CARV_CHARGE_. Refused with 7. */
uint64_t carv_charge_of(const uint8_t *area, size_t area_bytes, uint64_t id, uint64_t *out,
                        size_t out_words);

/*
 * Words 0 to 2: memory used, memory free and CPU left, each summed over a budget and all budgets
 * below it, at any depth, see CARV_TOTALS_. Free is limit less used less reserved; used and free
 * together are the budget's memory limit. It renews nothing: CPU left is as the accounts have it.
 * Refused with 7.
 */
uint64_t carv_totals(const uint8_t *area, size_t area_bytes, uint64_t id, uint64_t *out,
                     size_t out_words);

/* Threads. */

/*
 * Creates an Inactive thread under this id, on this budget, which is not looked up. stack says
 * whether its kernel stack is there. An accepted call fills the image, a refused one leaves it.
 * Refused with 5, 6, 14.
 */
uint64_t carv_create_user_thread(uint8_t *area, size_t area_bytes, uint64_t id, uint64_t budget,
                                 bool stack, uint8_t *image, size_t image_bytes, uint64_t *out,
                                 size_t out_words);

/*
 * Gives an Inactive thread its space, capability space, page-table root and context, and makes it
 * Ready, at the end of the queue. Refused with 7, 8.
 */
uint64_t carv_start(uint8_t *area, size_t area_bytes, uint64_t id, uint64_t space, uint64_t cspace,
                    uint64_t root, uint64_t rip, uint64_t rsp, uint64_t rflags, uint64_t rdi,
                    uint64_t rsi, uint64_t cs, uint64_t ss, uint64_t *out, size_t out_words);

/* Blocks the current thread on a wait. Refused with 4, 8. */
uint64_t carv_block_current(uint8_t *area, size_t area_bytes, uint64_t kind, uint64_t number,
                            uint64_t *out, size_t out_words);

/*
 * Makes a Blocked thread Ready, at the end of the queue, with these three results. Refused with 7,
 * 8.
 */
uint64_t carv_wake(uint8_t *area, size_t area_bytes, uint64_t id, uint64_t first, uint64_t second,
                   uint64_t third, uint64_t *out, size_t out_words);

/*
 * Word 0: 1 if the thread is Blocked on just this wait, 0 if not, or if there is no such thread.
 * Refused with 4.
 */
uint64_t carv_is_blocked_on(const uint8_t *area, size_t area_bytes, uint64_t id, uint64_t kind,
                            uint64_t number, uint64_t *out, size_t out_words);

/*
 * Ends a thread and logs its end. The current thread stays, Dead, until a planning leaves it. Words
 * 0 and 1: the wait that this ended, see CARV_KILL_. Refused with 4, 5, 7.
 */
uint64_t carv_kill(uint8_t *area, size_t area_bytes, uint64_t id, uint64_t cause, uint64_t *out,
                   size_t out_words);

/*
 * Books tick n to the current thread: one run tick more, and its budget, renewed if that is due, is
 * charged CARV_TICK_NS or, if less is left, all that is left. Then wakes the sleepers that are due
 * at or before n, by rising id, with results 0, 0, 0. Refused with 3.
 */
uint64_t carv_tick(uint8_t *area, size_t area_bytes, uint64_t n, uint64_t *out, size_t out_words);

/*
 * Picks the thread that runs at tick n. A current thread in Running, other than idle, goes to the
 * queue's end. Then the first in the queue runs that has no budget, or whose budget, renewed if
 * that is due, has CPU time left; idle if there is none. Words 0 to 4: the switch, see CARV_PLAN_.
 * Refused with 3.
 */
uint64_t carv_plan(uint8_t *area, size_t area_bytes, uint64_t n, uint64_t *out, size_t out_words);

/* Words 0 to 19: a thread's record, see CARV_THREAD_. Refused with 7. */
uint64_t carv_read_thread(const uint8_t *area, size_t area_bytes, uint64_t id, uint64_t *out,
                          size_t out_words);

/* Word 0: the current thread's id. */
uint64_t carv_current(const uint8_t *area, size_t area_bytes, uint64_t *out, size_t out_words);

/* Word 0: how many switches there were, modulo 2^64. */
uint64_t carv_switches(const uint8_t *area, size_t area_bytes, uint64_t *out, size_t out_words);

/* Word 0: the cause of the oldest logged end of this thread, 0 if there is none. */
uint64_t carv_exit_of(const uint8_t *area, size_t area_bytes, uint64_t id, uint64_t *out,
                      size_t out_words);

/* The register image. */

/* Fills an image as a new thread has it, for thread 0 and idle. Asks for its length alone. */
uint64_t carv_image(uint8_t *image, size_t image_bytes);

#ifdef __cplusplus
}
#endif

#endif
