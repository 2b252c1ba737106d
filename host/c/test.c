/*
 * Calls every function of include/carv.h, accepted and refused, and checks the number, the answer
 * words, the image and the area against document 01's edges and docs/LAYOUT.md. Needs no Rust.
 *
 *     gcc -std=c99 host/c/test.c -Ltarget/staticlib -lcarv -o target/c_test
 *     target/c_test
 *
 * Exit status: 0 if every check holds, else 1; the checks that fail are printed.
 */
#include "check.h"

/* A new thread, and a start with a root of 40. */
#define NEW_THREAD(id, budget, stack) carv_create_user_thread(AREA, id, budget, stack, IMAGE, OUT)
#define START(id) carv_start(AREA, id, 20, 30, 40, 50, 60, 70, 80, 90, 100, 110, OUT)

static void open_board(uint64_t memory) {
    DONE(carv_open(AREA, CARV_PERIOD_NS, memory, OUT));
}

static void create_thread(uint64_t id, uint64_t budget) {
    DONE(NEW_THREAD(id, budget, true));
    CHECK(is_image_filled());
}

/* Calls that are lent an area and answer words in these lengths are all refused with 1. */
static void all_are_refused(size_t bytes, size_t words) {
    const uint64_t n = CARV_REFUSED_UNSOUND;
    REFUSED(n, carv_create(area, bytes, 3, 1, true, out, words));
    REFUSED(n, carv_insert(area, bytes, 3, 1, 0, out, words));
    REFUSED(n, carv_create_budget(area, bytes, 1, 0, 0, 0, out, words));
    REFUSED(n, carv_charge_more(area, bytes, 1, 0, out, words));
    REFUSED(n, carv_uncharge(area, bytes, 1, 0, out, words));
    REFUSED(n, carv_remove(area, bytes, 1, CARV_PERIOD_NS, out, words));
    REFUSED(n, carv_refill(area, bytes, 1, CARV_PERIOD_NS, out, words));
    REFUSED(n, carv_charge_cpu(area, bytes, 1, 1, 0, out, words));
    REFUSED(n, carv_pays_for_anything(area, bytes, 1, out, words));
    REFUSED(n, carv_account(area, bytes, 1, out, words));
    REFUSED(n, carv_charge_of(area, bytes, 1, out, words));
    REFUSED(n, carv_totals(area, bytes, 1, out, words));
    REFUSED(n, carv_create_user_thread(area, bytes, 7, 1, true, IMAGE, out, words));
    REFUSED(n, carv_start(area, bytes, 7, 0, 0, 0, 0, 0, 0, 0, 0, 0, 0, out, words));
    REFUSED(n, carv_block_current(area, bytes, CARV_WAIT_SEND, 0, out, words));
    REFUSED(n, carv_wake(area, bytes, 0, 0, 0, 0, out, words));
    REFUSED(n, carv_is_blocked_on(area, bytes, 0, CARV_WAIT_SEND, 0, out, words));
    REFUSED(n, carv_kill(area, bytes, 0, CARV_CAUSE_FAULTED, out, words));
    REFUSED(n, carv_tick(area, bytes, 0, out, words));
    REFUSED(n, carv_plan(area, bytes, 0, out, words));
    REFUSED(n, carv_read_thread(area, bytes, 0, out, words));
    REFUSED(n, carv_current(area, bytes, out, words));
    REFUSED(n, carv_switches(area, bytes, out, words));
    REFUSED(n, carv_exit_of(area, bytes, 0, out, words));
}

/* Before an opening, in wrong lengths, and a share that is too large. */
static void lengths(void) {
    const uint64_t n = CARV_REFUSED_UNSOUND;
    memset(area_room, 0xff, sizeof area_room);
    CHECK(!carv_is_sound(AREA));
    all_are_refused(CARV_AREA_BYTES, CARV_ANSWER_WORDS);
    REFUSED(n, carv_open(area, CARV_AREA_BYTES - 1, 0, 0, OUT));
    REFUSED(n, carv_open(area, CARV_AREA_BYTES + 1, 0, 0, OUT));
    REFUSED(n, carv_open(AREA, 0, 0, out, CARV_ANSWER_WORDS - 1));
    REFUSED(n, carv_open(AREA, CARV_PERIOD_NS + 1, 0, out, 0));
    REFUSED(CARV_REFUSED_SHARE, carv_open(AREA, CARV_PERIOD_NS + 1, 0, OUT));
    open_board(1000000);
    CHECK(!carv_is_sound(area, CARV_AREA_BYTES - 1));
    CHECK(!carv_is_sound(area, CARV_AREA_BYTES + 1));
    CHECK(!carv_is_sound(area, 0));
    all_are_refused(CARV_AREA_BYTES - 1, CARV_ANSWER_WORDS);
    all_are_refused(CARV_AREA_BYTES + 1, CARV_ANSWER_WORDS);
    all_are_refused(CARV_AREA_BYTES, CARV_ANSWER_WORDS - 1);
    all_are_refused(CARV_AREA_BYTES, CARV_ANSWER_WORDS + 1);
    all_are_refused(CARV_AREA_BYTES, 0);
    REFUSED(CARV_REFUSED_SHARE, carv_open(AREA, UINT64_MAX, 0, OUT));
    REFUSED(n, carv_create_user_thread(AREA, 7, 1, true, image, CARV_IMAGE_BYTES - 1, OUT));
    REFUSED(n, carv_create_user_thread(AREA, 7, 1, true, image, CARV_IMAGE_BYTES + 1, OUT));
    REFUSED(n, carv_create_user_thread(AREA, 0, 1, false, image, CARV_IMAGE_BYTES - 1, OUT));
    REFUSED(n, carv_create_user_thread(AREA, 0, 1, false, image, 0, OUT));
}

/* The image call. */
static void images(void) {
    REFUSED(CARV_REFUSED_UNSOUND, carv_image(image, CARV_IMAGE_BYTES - 1));
    REFUSED(CARV_REFUSED_UNSOUND, carv_image(image, CARV_IMAGE_BYTES + 1));
    REFUSED(CARV_REFUSED_UNSOUND, carv_image(image, 0));
    lend();
    CHECK(carv_image(IMAGE) == CARV_ACCEPTED);
    CHECK(is_image_filled());
}

/* An opening writes each byte; the area held others before. */
static void layout(void) {
    static uint8_t opened[CARV_AREA_BYTES];
    memset(area, 0xff, CARV_AREA_BYTES);
    open_board(1000000);
    memcpy(opened, area, CARV_AREA_BYTES);
    memset(area, 0, CARV_AREA_BYTES);
    set_word(NEXT_ID, 2);
    set_word(OBJECT_COUNT, 1);
    const uint64_t root[] = {1, CARV_KIND_BUDGET, 1, 0, CARV_PERIOD_NS, 1000000, 0, CARV_PERIOD_NS};
    for (size_t i = 0; i < sizeof root / sizeof *root; i++) {
        set_word(OBJECTS + 8 * i, root[i]);
    }
    set_word(THREAD_COUNT, 2);
    set_word(THREADS + 8, CARV_STATE_RUNNING);
    set_word(THREADS + 8 * (1 + CARV_THREAD_RFLAGS), FRESH_RFLAGS);
    set_word(THREADS + THREAD_WIDTH, CARV_IDLE);
    set_word(THREADS + THREAD_WIDTH + 8, CARV_STATE_READY);
    set_word(THREADS + THREAD_WIDTH + 8 * (1 + CARV_THREAD_RFLAGS), FRESH_RFLAGS);
    CHECK(memcmp(opened, area, CARV_AREA_BYTES) == 0);
    CHECK(carv_is_sound(AREA));
}

/* A board with something in each table, to be damaged. */
static uint8_t sound_board[CARV_AREA_BYTES];

/*
 * Objects: root 1, budget 2, Frame 3 paid by 2, Endpoint 4 paid by 1. Threads: 0 Ready, 7 current,
 * 8 Blocked, 9 Inactive, 10 and idle Ready. Queue: 10, 0. One exit.
 */
static void make_sound_board(void) {
    open_board(1000000);
    ANSWER(carv_create_budget(AREA, 1, 4000000, 8192, 0, OUT), 2);
    ANSWER(carv_create(AREA, CARV_KIND_FRAME, 2, true, OUT), 3);
    ANSWER(carv_create(AREA, CARV_KIND_ENDPOINT, 1, true, OUT), 4);
    create_thread(8, 2);
    create_thread(7, 1);
    create_thread(9, 77);
    create_thread(10, 2);
    DONE(START(8));
    DONE(START(7));
    DONE(START(10));
    ANSWER(carv_plan(AREA, 0, OUT), 1, 0, 8, 1, 40);
    DONE(carv_block_current(AREA, CARV_WAIT_RECV, 4, OUT));
    ANSWER(carv_plan(AREA, 0, OUT), 1, 8, 7, 1, 40);
    create_thread(11, 1);
    ANSWER(carv_kill(AREA, 11, CARV_CAUSE_FAULTED, OUT), 0, 0);
    memcpy(sound_board, area, CARV_AREA_BYTES);
}

/* A word, and what it is to be. */
struct change {
    size_t offset;
    uint64_t value;
};

/* The sound board with these words changed is sound or not; if not, every call refuses it. */
static void damaged(int line, bool sound, const struct change *changes, size_t count) {
    memcpy(area, sound_board, CARV_AREA_BYTES);
    for (size_t i = 0; i < count; i++) {
        set_word(changes[i].offset, changes[i].value);
    }
    check(line, "carv_is_sound(AREA)", "no", carv_is_sound(AREA) == sound);
    if (!sound) {
        all_are_refused(CARV_AREA_BYTES, CARV_ANSWER_WORDS);
    }
}

/* Changes that leave no sound board, and changes that leave one. */
#define CHANGED(sound, ...)                                                                       \
    do {                                                                                          \
        const struct change changes[] = {__VA_ARGS__};                                            \
        damaged(__LINE__, sound, changes, sizeof changes / sizeof *changes);                      \
    } while (0)
#define BROKEN(...) CHANGED(false, __VA_ARGS__)
#define KEPT(...) CHANGED(true, __VA_ARGS__)

/* Words of the objects 1, 2, 3, 4 in places 0 to 3. */
#define OBJECT(place, field) (OBJECTS + (place) * OBJECT_WIDTH + 8 * (field))
enum { ID = 0, KIND = 1, PAYER = 2, CHARGE = 3 };
#define ACCOUNT(place, field) OBJECT(place, 4 + CARV_ACCOUNT_##field)

static void damaged_objects(void) {
    BROKEN({NEXT_ID, 4});
    KEPT({NEXT_ID, UINT64_MAX});
    BROKEN({OBJECT_COUNT, 3});
    BROKEN({OBJECT_COUNT, CARV_MOST_OBJECTS + 1});
    BROKEN({OBJECT(4, ID), 1});
    BROKEN({CURRENT - 8, 1});
    BROKEN({OBJECT(2, KIND), 10});
    KEPT({OBJECT(2, KIND), CARV_KIND_IRQ_CONTROL});
    BROKEN({OBJECT(2, ID), 4});
    BROKEN({OBJECT(0, PAYER), 2});
    BROKEN({OBJECT(2, PAYER), 3});
    BROKEN({OBJECT(3, PAYER), 3}, {OBJECT(3, CHARGE), 0}, {ACCOUNT(0, MEMORY_USED), 128});
    BROKEN({OBJECT(2, CHARGE), 4095});
    BROKEN({ACCOUNT(2, PERIOD_START), 1});
    KEPT({ACCOUNT(1, PERIOD_START), UINT64_MAX});
    BROKEN({ACCOUNT(1, MEMORY_LIMIT), 8193});
    BROKEN({ACCOUNT(1, CPU_ALLOWANCE), 4000001});
    BROKEN({ACCOUNT(0, MEMORY_LIMIT), 8447});
    KEPT({ACCOUNT(0, MEMORY_LIMIT), 8448});
    BROKEN({ACCOUNT(0, CPU_LEFT), 6000001});
    KEPT({ACCOUNT(0, CPU_LEFT), 0});
    BROKEN({ACCOUNT(0, CPU_ALLOWANCE), 10000001});
    /* Two charges whose sum is 2^64. */
    BROKEN({OBJECT(1, CHARGE), UINT64_C(1) << 63}, {OBJECT(3, CHARGE), UINT64_C(1) << 63},
           {ACCOUNT(0, MEMORY_USED), 0});
}

/* Words of the threads 0, 7, 8, 9, 10, idle in places 0 to 5. */
#define THREAD_ID(place) (THREADS + (place) * THREAD_WIDTH)
#define THREAD(place, field) (THREAD_ID(place) + 8 * (1 + CARV_THREAD_##field))

static void damaged_threads(void) {
    BROKEN({THREAD_COUNT, 5});
    BROKEN({THREAD_COUNT, CARV_MOST_THREADS + 1});
    BROKEN({THREAD_ID(6), 1});
    BROKEN({QUEUE_LENGTH - 8, 1});
    BROKEN({THREAD_ID(2), 9});
    BROKEN({THREAD_ID(2), 6});
    BROKEN({THREAD(3, STATE), 0});
    BROKEN({THREAD(3, STATE), CARV_STATE_DEAD + 1});
    BROKEN({THREAD(2, WAIT_KIND), 0});
    BROKEN({THREAD(2, WAIT_KIND), 6});
    KEPT({THREAD(2, WAIT_NUMBER), 0});
    BROKEN({THREAD(3, WAIT_KIND), 1});
    BROKEN({THREAD(0, WAIT_NUMBER), 1});
    BROKEN({THREAD(3, HAS_BUDGET), 2});
    BROKEN({THREAD(3, HAS_BUDGET), 0}, {THREAD(3, BUDGET), 0});
    KEPT({THREAD(3, BUDGET), UINT64_MAX});
    BROKEN({THREAD(0, BUDGET), 1});
    BROKEN({THREAD(5, HAS_BUDGET), 1});
    BROKEN({THREAD(1, HAS_SPACE), 2});
    BROKEN({THREAD(3, SPACE), 1});
    BROKEN({THREAD(3, CSPACE), 1});
    BROKEN({THREAD(3, ROOT), 1});
    KEPT({THREAD(1, ROOT), 0}, {THREAD(1, SPACE), 0});
    KEPT({THREAD(3, RFLAGS), 0}, {THREAD(5, SS), 1}, {THREAD(0, RESULT_2), 1});
    KEPT({THREAD(0, RUN_TICKS), UINT64_MAX}, {SWITCHES, UINT64_MAX});
}

/* Queue, current thread, idle and exits. */
static void damaged_order(void) {
    BROKEN({QUEUE_LENGTH, 1});
    BROKEN({QUEUE_LENGTH, CARV_MOST_THREADS});
    BROKEN({QUEUE + 16, 1});
    BROKEN({EXIT_COUNT - 8, 1});
    BROKEN({QUEUE + 8, 10}, {THREAD(0, STATE), CARV_STATE_INACTIVE});
    BROKEN({QUEUE + 8, CARV_IDLE}, {THREAD(0, STATE), CARV_STATE_INACTIVE});
    BROKEN({QUEUE + 8, 9}, {THREAD(0, STATE), CARV_STATE_INACTIVE});
    BROKEN({QUEUE + 8, 99}, {THREAD(0, STATE), CARV_STATE_INACTIVE});
    KEPT({QUEUE, 0}, {QUEUE + 8, 10});
    BROKEN({THREAD(3, STATE), CARV_STATE_READY});
    BROKEN({THREAD(3, STATE), CARV_STATE_RUNNING});
    BROKEN({THREAD(3, STATE), CARV_STATE_DEAD});
    KEPT({THREAD(1, STATE), CARV_STATE_DEAD});
    BROKEN({CURRENT, 99}, {THREAD(1, STATE), CARV_STATE_INACTIVE});
    BROKEN({CURRENT, 9}, {THREAD(1, STATE), CARV_STATE_INACTIVE});
    BROKEN({CURRENT, CARV_IDLE}, {THREAD(1, STATE), CARV_STATE_INACTIVE});
    KEPT({THREAD(5, STATE), CARV_STATE_RUNNING});
    BROKEN({THREAD(5, STATE), CARV_STATE_INACTIVE});
    BROKEN({THREAD_ID(5), CARV_IDLE - 1}, {THREAD(5, STATE), CARV_STATE_INACTIVE},
           {THREAD(5, HAS_BUDGET), 1});
    BROKEN({EXIT_COUNT, CARV_MOST_EXITS + 1});
    BROKEN({EXITS + EXIT_WIDTH, 1});
    BROKEN({CARV_AREA_BYTES - 8, 1});
    BROKEN({EXITS + 8, 0});
    BROKEN({EXITS + 8, 3});
    KEPT({EXITS, CARV_IDLE}, {EXITS + 8, CARV_CAUSE_DESTROYED});
}

/* The root's account: period start, CPU left and reserved, memory used and reserved. */
#define ROOT_IS(start, cpu_left, cpu_reserved, used, reserved)                                    \
    READS(carv_account(AREA, CARV_ROOT, OUT), CARV_PERIOD_NS, 1000000, start, cpu_left,           \
          cpu_reserved, used, reserved)

/* "Frame for payer 1" to "Removing 3 meanwhile". */
static void budgets(void) {
    open_board(1000000);
    ROOT_IS(0, 10000000, 0, 0, 0);
    READS(carv_charge_of(AREA, CARV_ROOT, OUT), 1, 0);
    READS(carv_pays_for_anything(AREA, CARV_ROOT, OUT), 0);
    ANSWER(carv_create(AREA, CARV_KIND_FRAME, 1, true, OUT), 2);
    ROOT_IS(0, 10000000, 0, 4096, 0);
    READS(carv_charge_of(AREA, 2, OUT), 1, CARV_BYTES_FRAME);
    READS(carv_pays_for_anything(AREA, CARV_ROOT, OUT), 1);
    ANSWER(carv_create_budget(AREA, 1, 4000000, 8192, 0, OUT), 3);
    ROOT_IS(0, 6000000, 4000000, 4224, 8192);
    READS(carv_account(AREA, 3, OUT), 4000000, 8192, 0, 4000000, 0, 0, 0);
    REFUSED(CARV_REFUSED_LIMIT, carv_create_budget(AREA, 1, 6000001, 0, 0, OUT));
    ANSWER(carv_create_budget(AREA, 1, 6000000, 0, 0, OUT), 4);
    ANSWER(carv_create(AREA, CARV_KIND_FRAME, 3, true, OUT), 5);
    ANSWER(carv_create(AREA, CARV_KIND_FRAME, 3, true, OUT), 6);
    READS(carv_account(AREA, 3, OUT), 4000000, 8192, 0, 4000000, 0, 8192, 0);
    REFUSED(CARV_REFUSED_LIMIT, carv_create(AREA, CARV_KIND_ENDPOINT, 3, true, OUT));
    REFUSED(CARV_REFUSED_PAYS, carv_remove(AREA, 3, 0, OUT));
    DONE(carv_remove(AREA, 5, 0, OUT));
    DONE(carv_remove(AREA, 6, 0, OUT));
    READS(carv_pays_for_anything(AREA, 3, OUT), 0);
    ROOT_IS(0, 0, 10000000, 4352, 8192);
    DONE(carv_remove(AREA, 3, 0, OUT));
    ROOT_IS(0, 0, 6000000, 4224, 0);
    CHECK(word(OBJECT_COUNT) == 3 && word(OBJECTS + 2 * OBJECT_WIDTH) == 4);
    CHECK(word(OBJECTS + 3 * OBJECT_WIDTH) == 0 && word(NEXT_ID) == 7);
}

/* Ids that are not there, or no budgets, and the root; goes on from there. */
static void missing(void) {
    REFUSED(CARV_REFUSED_MISSING, carv_account(AREA, 3, OUT));
    REFUSED(CARV_REFUSED_MISSING, carv_account(AREA, 2, OUT));
    REFUSED(CARV_REFUSED_MISSING, carv_charge_of(AREA, 3, OUT));
    REFUSED(CARV_REFUSED_MISSING, carv_totals(AREA, 3, OUT));
    REFUSED(CARV_REFUSED_MISSING, carv_totals(AREA, 2, OUT));
    REFUSED(CARV_REFUSED_MISSING, carv_totals(AREA, UINT64_MAX, OUT));
    READS(carv_pays_for_anything(AREA, 3, OUT), 0);
    REFUSED(CARV_REFUSED_MISSING, carv_refill(AREA, 2, 25000000, OUT));
    REFUSED(CARV_REFUSED_MISSING, carv_charge_cpu(AREA, 3, 0, 0, OUT));
    REFUSED(CARV_REFUSED_MISSING, carv_charge_more(AREA, 3, 0, OUT));
    REFUSED(CARV_REFUSED_MISSING, carv_uncharge(AREA, 3, 0, OUT));
    REFUSED(CARV_REFUSED_MISSING, carv_remove(AREA, 3, 0, OUT));
    REFUSED(CARV_REFUSED_MISSING, carv_create(AREA, CARV_KIND_FRAME, 2, true, OUT));
    REFUSED(CARV_REFUSED_MISSING, carv_insert(AREA, CARV_KIND_IRQ, 3, 0, OUT));
    REFUSED(CARV_REFUSED_MISSING, carv_create_budget(AREA, 2, 0, 0, 0, OUT));
    REFUSED(CARV_REFUSED_ROOT, carv_remove(AREA, CARV_ROOT, 0, OUT));
}

/* "Start 0", "Uncharging", and CPU charges; goes on from there. */
static void charges(void) {
    READS(carv_refill(AREA, 1, 9999999, OUT), 0);
    ANSWER(carv_refill(AREA, 1, 25000000, OUT), 1);
    ROOT_IS(20000000, 4000000, 6000000, 4224, 0);
    REFUSED(CARV_REFUSED_CHARGE, carv_uncharge(AREA, 2, 4097, OUT));
    DONE(carv_uncharge(AREA, 2, 4096, OUT));
    READS(carv_charge_of(AREA, 2, OUT), 1, 0);
    ROOT_IS(20000000, 4000000, 6000000, 128, 0);
    REFUSED(CARV_REFUSED_LIMIT, carv_charge_more(AREA, 2, 999873, OUT));
    DONE(carv_charge_more(AREA, 2, 999872, OUT));
    REFUSED(CARV_REFUSED_LIMIT, carv_charge_more(AREA, 1, 1, OUT));
    DONE(carv_uncharge(AREA, 2, 999872, OUT));
    DONE(carv_charge_more(AREA, 1, 500, OUT));
    READS(carv_charge_of(AREA, 1, OUT), 1, 500);
    REFUSED(CARV_REFUSED_LIMIT, carv_charge_cpu(AREA, 1, 4000001, 20000000, OUT));
    DONE(carv_charge_cpu(AREA, 1, 4000000, 29999999, OUT));
    ROOT_IS(20000000, 0, 6000000, 628, 0);
    REFUSED_RENEWING(CARV_REFUSED_LIMIT, carv_charge_cpu(AREA, 1, 4000001, 30000007, OUT));
    ROOT_IS(30000000, 4000000, 6000000, 628, 0);
}

/* Keeps a copy of the board, puts it back, and compares it with the board byte by byte. */
static void keep(uint8_t *copy) {
    memcpy(copy, area, CARV_AREA_BYTES);
}

static void put_back(const uint8_t *copy) {
    memcpy(area, copy, CARV_AREA_BYTES);
}

static bool is_same(const uint8_t *copy) {
    return memcmp(area, copy, CARV_AREA_BYTES) == 0;
}

/*
 * Memory booked singly and in bulk. The root pays for the Frame 2 and the budget 3, which has 8192
 * bytes and pays for the Frame 4: 4096 are free for its charges.
 */
static void charges_in_bulk(void) {
    static uint8_t before[CARV_AREA_BYTES];
    static uint8_t after[CARV_AREA_BYTES];
    open_board(1000000);
    ANSWER(carv_create(AREA, CARV_KIND_FRAME, 1, true, OUT), 2);
    ANSWER(carv_create_budget(AREA, 1, 0, 8192, 0, OUT), 3);
    ANSWER(carv_create(AREA, CARV_KIND_FRAME, 3, true, OUT), 4);
    keep(before);

    /* Two charges leave what one of their sum leaves, also if a third is of nothing. */
    DONE(carv_charge_more(AREA, 4, 1000, OUT));
    DONE(carv_charge_more(AREA, 4, 3096, OUT));
    DONE(carv_charge_more(AREA, 4, 0, OUT));
    keep(after);
    put_back(before);
    DONE(carv_charge_more(AREA, 4, 4096, OUT));
    CHECK(is_same(after) && !is_same(before));

    /* The uncharge restores the board. */
    DONE(carv_uncharge(AREA, 4, 4096, OUT));
    CHECK(is_same(before));

    /* One byte more is refused in bulk; singly, the first passes and stays. */
    REFUSED(CARV_REFUSED_LIMIT, carv_charge_more(AREA, 4, 4097, OUT));
    DONE(carv_charge_more(AREA, 4, 1000, OUT));
    keep(after);
    REFUSED(CARV_REFUSED_LIMIT, carv_charge_more(AREA, 4, 3097, OUT));
    CHECK(is_same(after));

    /* Objects of different payers, the budget 3 and the root, in either order. */
    put_back(before);
    DONE(carv_charge_more(AREA, 4, 4096, OUT));
    DONE(carv_charge_more(AREA, 2, 500, OUT));
    REFUSED(CARV_REFUSED_LIMIT, carv_charge_more(AREA, 4, 1, OUT));
    keep(after);
    put_back(before);
    DONE(carv_charge_more(AREA, 2, 500, OUT));
    DONE(carv_charge_more(AREA, 4, 4096, OUT));
    CHECK(is_same(after));

    /* Of one payer, which can't cover both, the first passes. The root pays for the budget 3. */
    put_back(before);
    DONE(carv_charge_more(AREA, 2, 900000, OUT));
    REFUSED(CARV_REFUSED_LIMIT, carv_charge_more(AREA, 3, 900000, OUT));
    put_back(before);
    DONE(carv_charge_more(AREA, 3, 900000, OUT));
    REFUSED(CARV_REFUSED_LIMIT, carv_charge_more(AREA, 2, 900000, OUT));

    /* A sum of 2^64 - 1 is accepted where all of it is free, and one of 2^64 nowhere. */
    open_board(UINT64_MAX);
    DONE(carv_charge_more(AREA, 1, UINT64_C(1) << 63, OUT));
    REFUSED(CARV_REFUSED_LIMIT, carv_charge_more(AREA, 1, UINT64_C(1) << 63, OUT));
    DONE(carv_charge_more(AREA, 1, (UINT64_C(1) << 63) - 1, OUT));
    keep(after);
    open_board(UINT64_MAX);
    DONE(carv_charge_more(AREA, 1, UINT64_MAX, OUT));
    CHECK(is_same(after));
}

/* Kinds, backing, and the order of these questions; goes on from there. */
static void kinds(void) {
    REFUSED(CARV_REFUSED_CODE, carv_create(AREA, 0, 1, true, OUT));
    REFUSED(CARV_REFUSED_CODE, carv_create(AREA, 10, 99, true, OUT));
    REFUSED(CARV_REFUSED_CODE, carv_insert(AREA, 0, 1, 0, OUT));
    REFUSED(CARV_REFUSED_CODE, carv_insert(AREA, CARV_KIND_BUDGET, 1, 0, OUT));
    REFUSED(CARV_REFUSED_KIND, carv_create(AREA, CARV_KIND_BUDGET, 1, true, OUT));
    REFUSED(CARV_REFUSED_KIND, carv_create(AREA, CARV_KIND_IRQ_CONTROL, 1, false, OUT));
    REFUSED(CARV_REFUSED_LIMIT, carv_create(AREA, CARV_KIND_THREAD, 4, true, OUT));
    REFUSED(CARV_REFUSED_LIMIT, carv_create(AREA, CARV_KIND_FRAME, 4, false, OUT));
    REFUSED(CARV_REFUSED_BACKING, carv_create(AREA, CARV_KIND_ADDRESS_SPACE, 1, false, OUT));
    REFUSED(CARV_REFUSED_BACKING, carv_create(AREA, CARV_KIND_FRAME, 1, false, OUT));
    ANSWER(carv_create(AREA, CARV_KIND_ADDRESS_SPACE, 1, true, OUT), 7);
    ANSWER(carv_create(AREA, CARV_KIND_ENDPOINT, 1, false, OUT), 8);
    ANSWER(carv_create(AREA, CARV_KIND_NOTIFICATION, 1, false, OUT), 9);
    ANSWER(carv_create(AREA, CARV_KIND_REPLY, 1, false, OUT), 10);
    READS(carv_charge_of(AREA, 7, OUT), 1, CARV_BYTES_ADDRESS_SPACE);
    READS(carv_charge_of(AREA, 8, OUT), 1, CARV_BYTES_ENDPOINT);
    READS(carv_charge_of(AREA, 9, OUT), 1, CARV_BYTES_NOTIFICATION);
    READS(carv_charge_of(AREA, 10, OUT), 1, CARV_BYTES_REPLY);
    ANSWER(carv_insert(AREA, CARV_KIND_THREAD, 1, CARV_BYTES_THREAD, OUT), 11);
    ANSWER(carv_insert(AREA, CARV_KIND_IRQ_CONTROL, 1, 0, OUT), 12);
    READS(carv_charge_of(AREA, 11, OUT), 1, 33792);
    REFUSED(CARV_REFUSED_LIMIT, carv_insert(AREA, CARV_KIND_IRQ, 1, 1000000, OUT));
}

/* "Root memory 127" and "Memory 128", with a renewal due and not. */
static void carvings(void) {
    open_board(127);
    DONE(carv_charge_cpu(AREA, 1, 9700000, 0, OUT));
    REFUSED(CARV_REFUSED_LIMIT, carv_create_budget(AREA, 1, 0, 0, 25000000, OUT));
    open_board(128);
    DONE(carv_charge_cpu(AREA, 1, 9700000, 0, OUT));
    REFUSED(CARV_REFUSED_LIMIT, carv_create_budget(AREA, 1, 0, 1, 9999999, OUT));
    REFUSED_RENEWING(CARV_REFUSED_LIMIT, carv_create_budget(AREA, 1, 0, 1, 25000000, OUT));
    READS(carv_account(AREA, 1, OUT), 10000000, 128, 20000000, 10000000, 0, 0, 0);
    ANSWER(carv_create_budget(AREA, 1, 0, 0, 25000000, OUT), 2);
    READS(carv_account(AREA, 2, OUT), 0, 0, 20000000, 0, 0, 0, 0);
}

/*
 * Removals while the payer, the root, is due. Refused, or of another kind, they leave it as it is.
 * Budget 2 uses its 4 ms of the second period and goes: the root has the other 6 ms of it, less the
 * 1 ms of budget 3. Then one before the root is due again, and one at which the clock fell.
 */
static void removals(void) {
    open_board(1000000);
    ANSWER(carv_create_budget(AREA, 1, 4000000, 4096, 0, OUT), 2);
    ANSWER(carv_create_budget(AREA, 1, 1000000, 4096, 0, OUT), 3);
    ANSWER(carv_create_budget(AREA, 1, 0, 0, 0, OUT), 4);
    ANSWER(carv_create(AREA, CARV_KIND_FRAME, 3, true, OUT), 5);
    REFUSED(CARV_REFUSED_MISSING, carv_remove(AREA, 6, 25000000, OUT));
    REFUSED(CARV_REFUSED_ROOT, carv_remove(AREA, CARV_ROOT, 25000000, OUT));
    REFUSED(CARV_REFUSED_PAYS, carv_remove(AREA, 3, 25000000, OUT));
    DONE(carv_remove(AREA, 5, 25000000, OUT));
    READS(carv_account(AREA, 3, OUT), 1000000, 4096, 0, 1000000, 0, 0, 0);
    ROOT_IS(0, 5000000, 5000000, 384, 8192);
    DONE(carv_charge_cpu(AREA, 2, 4000000, 10000000, OUT));
    DONE(carv_remove(AREA, 2, 14000000, OUT));
    ROOT_IS(10000000, 5000000, 1000000, 256, 4096);
    DONE(carv_charge_cpu(AREA, 1, 5000000, 14000000, OUT));
    DONE(carv_remove(AREA, 3, 19999999, OUT));
    ROOT_IS(10000000, 0, 0, 128, 0);
    DONE(carv_remove(AREA, 4, 0, OUT));
    ROOT_IS(10000000, 0, 0, 0, 0);
    ANSWER(carv_refill(AREA, 1, 20000000, OUT), 1);
    ROOT_IS(20000000, 10000000, 0, 0, 0);
}

/*
 * Budget 2 carves out 3, which carves out 4; 5 stands beside 2. Each pays for an object. Totals of
 * all of them, after a renewal of 4 alone, and without it.
 */
static void totals(void) {
    open_board(1000000);
    READS(carv_totals(AREA, CARV_ROOT, OUT), 0, 1000000, 10000000);
    ANSWER(carv_create_budget(AREA, 1, 5000000, 100000, 0, OUT), 2);
    ANSWER(carv_create_budget(AREA, 2, 2000000, 50000, 0, OUT), 3);
    ANSWER(carv_create_budget(AREA, 3, 500000, 10000, 0, OUT), 4);
    ANSWER(carv_create_budget(AREA, 1, 1000000, 20000, 0, OUT), 5);
    ANSWER(carv_create(AREA, CARV_KIND_FRAME, 2, true, OUT), 6);
    ANSWER(carv_create(AREA, CARV_KIND_ADDRESS_SPACE, 3, true, OUT), 7);
    ANSWER(carv_create(AREA, CARV_KIND_REPLY, 4, true, OUT), 8);
    ANSWER(carv_create(AREA, CARV_KIND_FRAME, 5, true, OUT), 9);
    DONE(carv_charge_cpu(AREA, 4, 100000, 0, OUT));
    READS(carv_totals(AREA, 4, OUT), 64, 9936, 400000);
    READS(carv_totals(AREA, 3, OUT), 16576, 33424, 1900000);
    READS(carv_totals(AREA, 2, OUT), 20800, 79200, 4900000);
    READS(carv_totals(AREA, 5, OUT), 4096, 15904, 1000000);
    READS(carv_totals(AREA, CARV_ROOT, OUT), 25152, 974848, 9900000);
    CHECK(out[CARV_TOTALS_MEMORY_USED] == 25152);
    CHECK(out[CARV_TOTALS_MEMORY_FREE] == 974848);
    CHECK(out[CARV_TOTALS_CPU_LEFT] == 9900000);
    REFUSED(CARV_REFUSED_MISSING, carv_totals(AREA, 8, OUT));
    ANSWER(carv_refill(AREA, 4, 30000000, OUT), 1);
    READS(carv_totals(AREA, 2, OUT), 20800, 79200, 5000000);
    DONE(carv_remove(AREA, 8, 0, OUT));
    DONE(carv_remove(AREA, 4, 0, OUT));
    REFUSED(CARV_REFUSED_MISSING, carv_totals(AREA, 4, OUT));
    READS(carv_totals(AREA, 2, OUT), 20608, 79392, 4500000);
    READS(carv_totals(AREA, CARV_ROOT, OUT), 24960, 975040, 9500000);
}

/* A full table, and the last id. */
static void full_objects(void) {
    open_board(1000000);
    for (uint64_t id = 2; id <= CARV_MOST_OBJECTS; id++) {
        ANSWER(carv_insert(AREA, CARV_KIND_NOTIFICATION, 1, 1, OUT), id);
    }
    REFUSED(CARV_REFUSED_FULL, carv_insert(AREA, CARV_KIND_NOTIFICATION, 1, 1, OUT));
    REFUSED(CARV_REFUSED_FULL, carv_create(AREA, CARV_KIND_NOTIFICATION, 99, true, OUT));
    REFUSED(CARV_REFUSED_FULL, carv_create_budget(AREA, 1, 0, 0, 0, OUT));
    DONE(carv_remove(AREA, 2, 0, OUT));
    ANSWER(carv_create(AREA, CARV_KIND_NOTIFICATION, 1, true, OUT), 513);
    open_board(1000000);
    set_word(NEXT_ID, UINT64_MAX - 1);
    ANSWER(carv_insert(AREA, CARV_KIND_IRQ, 1, 1, OUT), UINT64_MAX - 1);
    REFUSED(CARV_REFUSED_FULL, carv_insert(AREA, CARV_KIND_IRQ, 1, 1, OUT));
    REFUSED(CARV_REFUSED_FULL, carv_create_budget(AREA, 99, 0, 0, 0, OUT));
}

/* A thread's record, and that of a thread that was not started and has no budget. */
#define THREAD_IS(id, ...) READS(carv_read_thread(AREA, id, OUT), __VA_ARGS__)
#define FRESH(state)                                                                              \
    state, 0, 0, 0, 0, 0, 0, 0, 0, 0, 0, FRESH_RFLAGS, 0, 0, 0, 0, 0, 0, 0, 0

/* "Thread 0 alone: no switch. Killed, then planned: idle, switch count 1." */
static void thread_0(void) {
    open_board(1000000);
    THREAD_IS(0, FRESH(CARV_STATE_RUNNING));
    THREAD_IS(CARV_IDLE, FRESH(CARV_STATE_READY));
    READS(carv_plan(AREA, 0, OUT), 0);
    READS(carv_switches(AREA, OUT), 0);
    READS(carv_exit_of(AREA, 0, OUT), 0);
    REFUSED(CARV_REFUSED_CODE, carv_kill(AREA, 0, 3, OUT));
    REFUSED(CARV_REFUSED_CODE, carv_kill(AREA, CARV_IDLE, 0, OUT));
    REFUSED(CARV_REFUSED_ID, carv_kill(AREA, CARV_IDLE, CARV_CAUSE_DESTROYED, OUT));
    REFUSED(CARV_REFUSED_MISSING, carv_kill(AREA, 9, CARV_CAUSE_DESTROYED, OUT));
    ANSWER(carv_kill(AREA, 0, CARV_CAUSE_DESTROYED, OUT), 0, 0);
    ANSWER(carv_kill(AREA, 0, CARV_CAUSE_FAULTED, OUT), 0, 0);
    THREAD_IS(0, FRESH(CARV_STATE_DEAD));
    READS(carv_exit_of(AREA, 0, OUT), CARV_CAUSE_DESTROYED);
    CHECK(word(EXIT_COUNT) == 2 && word(EXITS) == 0 && word(EXITS + 8) == 1);
    CHECK(word(EXITS + EXIT_WIDTH) == 0 && word(EXITS + EXIT_WIDTH + 8) == 2);
    REFUSED(CARV_REFUSED_STATE, carv_block_current(AREA, CARV_WAIT_SLEEP, 1, OUT));
    ANSWER(carv_plan(AREA, 0, OUT), 1, 0, CARV_IDLE, 0);
    READS(carv_current(AREA, OUT), CARV_IDLE);
    READS(carv_switches(AREA, OUT), 1);
    CHECK(word(CURRENT) == CARV_IDLE && word(SWITCHES) == 1 && word(THREAD_COUNT) == 1);
    THREAD_IS(CARV_IDLE, FRESH(CARV_STATE_RUNNING));
    REFUSED(CARV_REFUSED_MISSING, carv_read_thread(AREA, 0, OUT));
    REFUSED(CARV_REFUSED_CODE, carv_block_current(AREA, 0, 1, OUT));
    REFUSED(CARV_REFUSED_STATE, carv_block_current(AREA, CARV_WAIT_SLEEP, 1, OUT));
    REFUSED(CARV_REFUSED_ID, NEW_THREAD(0, 1, true));
    READS(carv_plan(AREA, 1, OUT), 0);
}

/* The record of thread 7, started on budget 2: state, wait, run ticks. Its results are 0. */
#define SEVEN_IS(state, kind, number, ticks)                                                      \
    THREAD_IS(7, state, kind, number, 1, 2, 1, 20, 30, 40, 50, 60, 70, 80, 90, 100, 110, 0, 0, 0, \
              ticks)

/* A thread is created and started, and its row stands behind thread 0's. */
static void new_threads(void) {
    open_board(1000000);
    ANSWER(carv_create_budget(AREA, 1, 1300000, 0, 0, OUT), 2);
    create_thread(7, 2);
    THREAD_IS(7, CARV_STATE_INACTIVE, 0, 0, 1, 2, 0, 0, 0, 0, 0, 0, FRESH_RFLAGS, 0, 0, 0, 0, 0, 0,
              0, 0);
    REFUSED(CARV_REFUSED_ID, NEW_THREAD(7, 2, true));
    REFUSED(CARV_REFUSED_ID, NEW_THREAD(CARV_IDLE, 2, false));
    REFUSED(CARV_REFUSED_BACKING, NEW_THREAD(8, 2, false));
    REFUSED(CARV_REFUSED_MISSING, START(8));
    REFUSED(CARV_REFUSED_MISSING, carv_wake(AREA, 8, 0, 0, 0, OUT));
    REFUSED(CARV_REFUSED_STATE, carv_wake(AREA, 7, 0, 0, 0, OUT));
    DONE(START(7));
    REFUSED(CARV_REFUSED_STATE, START(7));
    SEVEN_IS(CARV_STATE_READY, 0, 0, 0);
    CHECK(word(THREAD_COUNT) == 3 && word(THREADS + THREAD_WIDTH) == 7);
    CHECK(word(QUEUE_LENGTH) == 1 && word(QUEUE) == 7);
    for (size_t i = 0; i < CARV_ANSWER_WORDS; i++) {
        CHECK(word(THREADS + THREAD_WIDTH + 8 * (1 + i)) == out[i]);
    }
}

/* "Tick without renewal, 300,000 left: 0 left", and a renewal at tick 10; goes on from there. */
static void ticks(void) {
    ANSWER(carv_plan(AREA, 0, OUT), 1, 0, 7, 1, 40);
    DONE(carv_tick(AREA, 0, OUT));
    READS(carv_account(AREA, 2, OUT), 1300000, 0, 0, 300000, 0, 0, 0);
    DONE(carv_tick(AREA, 1, OUT));
    READS(carv_account(AREA, 2, OUT), 1300000, 0, 0, 0, 0, 0, 0);
    SEVEN_IS(CARV_STATE_RUNNING, 0, 0, 2);
    ANSWER(carv_plan(AREA, 1, OUT), 1, 7, 0, 0);
    ANSWER(carv_plan(AREA, 9, OUT), 0);
    READS(carv_current(AREA, OUT), 0);
    ANSWER(carv_plan(AREA, 10, OUT), 1, 0, 7, 1, 40);
    READS(carv_account(AREA, 2, OUT), 1300000, 0, 10000000, 1300000, 0, 0, 0);
    ROOT_IS(0, 8700000, 1300000, 128, 0);
}

/* Waits, a sleeper, results, and a kill that ends a wait; goes on from there. */
static void waits(void) {
    REFUSED(CARV_REFUSED_CODE, carv_block_current(AREA, 6, 12, OUT));
    DONE(carv_block_current(AREA, CARV_WAIT_SLEEP, 12, OUT));
    REFUSED(CARV_REFUSED_STATE, carv_block_current(AREA, CARV_WAIT_SLEEP, 12, OUT));
    SEVEN_IS(CARV_STATE_BLOCKED, CARV_WAIT_SLEEP, 12, 2);
    READS(carv_is_blocked_on(AREA, 7, CARV_WAIT_SLEEP, 12, OUT), 1);
    READS(carv_is_blocked_on(AREA, 7, CARV_WAIT_SLEEP, 11, OUT), 0);
    READS(carv_is_blocked_on(AREA, 7, CARV_WAIT_SEND, 12, OUT), 0);
    READS(carv_is_blocked_on(AREA, 9, CARV_WAIT_SEND, 12, OUT), 0);
    REFUSED(CARV_REFUSED_CODE, carv_is_blocked_on(AREA, 9, 0, 12, OUT));
    ANSWER(carv_plan(AREA, 10, OUT), 1, 7, 0, 0);
    DONE(carv_tick(AREA, 11, OUT));
    SEVEN_IS(CARV_STATE_BLOCKED, CARV_WAIT_SLEEP, 12, 2);
    DONE(carv_tick(AREA, 12, OUT));
    SEVEN_IS(CARV_STATE_READY, 0, 0, 2);
    REFUSED(CARV_REFUSED_STATE, carv_wake(AREA, 7, 0, 0, 0, OUT));
    DONE(carv_block_current(AREA, CARV_WAIT_RECV, 3, OUT));
    ANSWER(carv_plan(AREA, 12, OUT), 1, 0, 7, 1, 40);
    DONE(carv_wake(AREA, 0, 1, 2, 3, OUT));
    THREAD_IS(0, CARV_STATE_READY, 0, 0, 0, 0, 0, 0, 0, 0, 0, 0, FRESH_RFLAGS, 0, 0, 0, 0, 1, 2, 3,
              2);
    ANSWER(carv_plan(AREA, 12, OUT), 1, 7, 0, 0);
    DONE(carv_block_current(AREA, CARV_WAIT_REPLY, 5, OUT));
    ANSWER(carv_plan(AREA, 12, OUT), 1, 0, 7, 1, 40);
    ANSWER(carv_kill(AREA, 0, CARV_CAUSE_FAULTED, OUT), CARV_WAIT_REPLY, 5);
    READS(carv_exit_of(AREA, 0, OUT), CARV_CAUSE_FAULTED);
    READS(carv_exit_of(AREA, 7, OUT), CARV_CAUSE_NONE);
    DONE(carv_remove(AREA, 2, 12000000, OUT));
    ROOT_IS(10000000, 8700000, 0, 0, 0);
    DONE(carv_tick(AREA, 13, OUT));
    SEVEN_IS(CARV_STATE_RUNNING, 0, 0, 3);
    ANSWER(carv_plan(AREA, 13, OUT), 1, 7, CARV_IDLE, 0);
    SEVEN_IS(CARV_STATE_READY, 0, 0, 3);
}

/* Two sleepers wake by rising id. */
static void sleepers(void) {
    open_board(1000000);
    create_thread(9, 1);
    create_thread(8, 1);
    DONE(START(9));
    DONE(START(8));
    DONE(carv_block_current(AREA, CARV_WAIT_NOTIFICATION, 0, OUT));
    ANSWER(carv_plan(AREA, 0, OUT), 1, 0, 9, 1, 40);
    DONE(carv_block_current(AREA, CARV_WAIT_SLEEP, 5, OUT));
    ANSWER(carv_plan(AREA, 0, OUT), 1, 9, 8, 1, 40);
    DONE(carv_block_current(AREA, CARV_WAIT_SLEEP, 4, OUT));
    ANSWER(carv_plan(AREA, 0, OUT), 1, 8, CARV_IDLE, 0);
    DONE(carv_tick(AREA, 5, OUT));
    CHECK(word(QUEUE_LENGTH) == 2 && word(QUEUE) == 8 && word(QUEUE + 8) == 9);
    ANSWER(carv_plan(AREA, 5, OUT), 1, CARV_IDLE, 8, 1, 40);
    READS(carv_switches(AREA, OUT), 4);
}

/* A sleep ends with results 0, 0, 0, also of a thread that is current; idle stays Running. */
static void results(void) {
    open_board(1000000);
    DONE(carv_block_current(AREA, CARV_WAIT_SEND, 1, OUT));
    ANSWER(carv_plan(AREA, 0, OUT), 1, 0, CARV_IDLE, 0);
    DONE(carv_wake(AREA, 0, 1, 2, 3, OUT));
    ANSWER(carv_plan(AREA, 0, OUT), 1, CARV_IDLE, 0, 0);
    THREAD_IS(CARV_IDLE, FRESH(CARV_STATE_RUNNING));
    DONE(carv_block_current(AREA, CARV_WAIT_SLEEP, 4, OUT));
    DONE(carv_tick(AREA, 4, OUT));
    THREAD_IS(0, CARV_STATE_READY, 0, 0, 0, 0, 0, 0, 0, 0, 0, 0, FRESH_RFLAGS, 0, 0, 0, 0, 0, 0, 0,
              1);
    READS(carv_current(AREA, OUT), 0);
}

/* The last tick; counters modulo 2^64. */
static void last_tick(void) {
    open_board(1000000);
    DONE(carv_tick(AREA, CARV_LAST_TICK, OUT));
    REFUSED(CARV_REFUSED_TICK, carv_tick(AREA, CARV_LAST_TICK + 1, OUT));
    READS(carv_plan(AREA, CARV_LAST_TICK, OUT), 0);
    REFUSED(CARV_REFUSED_TICK, carv_plan(AREA, CARV_LAST_TICK + 1, OUT));
    REFUSED(CARV_REFUSED_TICK, carv_plan(AREA, UINT64_MAX, OUT));
    set_word(THREADS + 8 * (1 + CARV_THREAD_RUN_TICKS), UINT64_MAX);
    set_word(SWITCHES, UINT64_MAX);
    DONE(carv_tick(AREA, 0, OUT));
    THREAD_IS(0, FRESH(CARV_STATE_RUNNING));
    ANSWER(carv_kill(AREA, 0, CARV_CAUSE_DESTROYED, OUT), 0, 0);
    ANSWER(carv_plan(AREA, 0, OUT), 1, 0, CARV_IDLE, 0);
    READS(carv_switches(AREA, OUT), 0);
}

/* A full table of threads. */
static void full_threads(void) {
    open_board(1000000);
    for (uint64_t i = 2; i < CARV_MOST_THREADS; i++) {
        create_thread(1000 - i, 1);
        DONE(START(1000 - i));
    }
    CHECK(word(QUEUE_LENGTH) == 126 && word(QUEUE + 8 * 125) == 873);
    REFUSED(CARV_REFUSED_FULL, NEW_THREAD(1000, 1, true));
    REFUSED(CARV_REFUSED_FULL, NEW_THREAD(1000, 1, false));
    REFUSED(CARV_REFUSED_ID, NEW_THREAD(998, 1, true));
    ANSWER(carv_kill(AREA, 900, CARV_CAUSE_DESTROYED, OUT), 0, 0);
    CHECK(word(QUEUE_LENGTH) == 125);
    create_thread(1000, 99);
    ANSWER(carv_plan(AREA, 0, OUT), 1, 0, 998, 1, 40);
}

/* "33 kills: the first is forgotten." The oldest match is given. */
static void exits(void) {
    open_board(1000000);
    for (uint64_t id = 101; id <= 132; id++) {
        create_thread(id, 1);
        ANSWER(carv_kill(AREA, id, CARV_CAUSE_FAULTED, OUT), 0, 0);
    }
    READS(carv_exit_of(AREA, 101, OUT), CARV_CAUSE_FAULTED);
    create_thread(102, 1);
    ANSWER(carv_kill(AREA, 102, CARV_CAUSE_DESTROYED, OUT), 0, 0);
    READS(carv_exit_of(AREA, 101, OUT), CARV_CAUSE_NONE);
    READS(carv_exit_of(AREA, 102, OUT), CARV_CAUSE_FAULTED);
    CHECK(word(EXIT_COUNT) == CARV_MOST_EXITS && word(EXITS) == 102);
    CHECK(word(EXITS + 31 * EXIT_WIDTH) == 102 && word(EXITS + 31 * EXIT_WIDTH + 8) == 1);
}

int main(void) {
    lengths();
    images();
    layout();
    make_sound_board();
    damaged_objects();
    damaged_threads();
    damaged_order();
    budgets();
    missing();
    charges();
    kinds();
    carvings();
    charges_in_bulk();
    removals();
    totals();
    full_objects();
    thread_0();
    new_threads();
    ticks();
    waits();
    sleepers();
    results();
    last_tick();
    full_threads();
    exits();
    printf("C: %u checks, %u failures\n", checks, failures);
    return failures == 0 ? 0 : 1;
}
