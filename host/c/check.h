/*
 * What test.c lends, and how it checks what a call returns and leaves.
 */
#ifndef CARV_TEST_CHECK_H
#define CARV_TEST_CHECK_H

#include "../../include/carv.h"

#include <inttypes.h>
#include <stdio.h>
#include <string.h>

/* What is lent. There is more than that on both sides, and the area starts at an odd address. */
enum { SPARE = 65 };
static uint8_t area_room[CARV_AREA_BYTES + 2 * SPARE];
static uint8_t image_room[CARV_IMAGE_BYTES + 2 * SPARE];
static uint64_t out_room[CARV_ANSWER_WORDS + 2 * SPARE];
static uint8_t *const area = area_room + SPARE;
static uint8_t *const image = image_room + SPARE;
static uint64_t *const out = out_room + SPARE;

/* All of it before the call. Answer words and image have a mark in each byte. */
static uint8_t area_before[sizeof area_room];
static uint8_t image_before[sizeof image_room];
static uint64_t out_before[CARV_ANSWER_WORDS + 2 * SPARE];
enum { MARK = 0xa5 };

/* The arguments that lend. */
#define AREA area, CARV_AREA_BYTES
#define IMAGE image, CARV_IMAGE_BYTES
#define OUT out, CARV_ANSWER_WORDS

/* Offsets and widths in the area, in bytes. */
enum {
    NEXT_ID = 0,
    OBJECT_COUNT = 8,
    OBJECTS = 16,
    OBJECT_WIDTH = 88,
    CURRENT = 45072,
    SWITCHES = 45080,
    THREAD_COUNT = 45088,
    THREADS = 45096,
    THREAD_WIDTH = 168,
    QUEUE_LENGTH = 66600,
    QUEUE = 66608,
    EXIT_COUNT = 67624,
    EXITS = 67632,
    EXIT_WIDTH = 16
};

/* The flags of a thread that was not started. */
enum { FRESH_RFLAGS = 0x202 };

static unsigned checks;
static unsigned failures;

static void check(int line, const char *call, const char *fault, bool holds) {
    checks++;
    if (!holds) {
        failures++;
        printf("line %d: %s: %s\n", line, call, fault);
    }
}

#define CHECK(holds) check(__LINE__, #holds, "no", holds)

/* A word of the area, the least byte first. */
static void set_word(size_t offset, uint64_t value) {
    for (size_t i = 0; i < 8; i++) {
        area[offset + i] = (uint8_t)(value >> (8 * i));
    }
}

static uint64_t word(size_t offset) {
    uint64_t value = 0;
    for (size_t i = 8; i > 0; i--) {
        value = value << 8 | area[offset + i - 1];
    }
    return value;
}

/* Marks answer words and image, and keeps what is lent. */
static void lend(void) {
    memset(out_room, MARK, sizeof out_room);
    memset(image_room, MARK, sizeof image_room);
    memcpy(area_before, area_room, sizeof area_room);
    memcpy(image_before, image_room, sizeof image_room);
    memcpy(out_before, out_room, sizeof out_room);
}

static bool is_area_as_before(void) {
    return memcmp(area_room, area_before, sizeof area_room) == 0;
}

/* What stands around the area is as before. */
static bool is_around_as_before(void) {
    return memcmp(area_room, area_before, SPARE) == 0 &&
           memcmp(area + CARV_AREA_BYTES, area_before + SPARE + CARV_AREA_BYTES, SPARE) == 0;
}

static bool is_image_as_before(void) {
    return memcmp(image_room, image_before, sizeof image_room) == 0;
}

/* The first words are these, and all others as before. */
static bool are_words(const uint64_t *values, size_t count) {
    for (size_t i = 0; i < count; i++) {
        out_before[SPARE + i] = values[i];
    }
    return memcmp(out_room, out_before, sizeof out_room) == 0;
}

/* The image is the one of document 01, and what stands around it as before. */
static bool is_image_filled(void) {
    uint8_t *filled = image_before + SPARE;
    memset(filled, 0, CARV_IMAGE_BYTES);
    filled[0] = 0x7f;
    filled[1] = 0x03;
    filled[24] = 0x80;
    filled[25] = 0x1f;
    filled[28] = 0xbf;
    filled[29] = 0xff;
    return is_image_as_before();
}

static void number_is(int line, const char *call, uint64_t found, uint64_t number) {
    checks++;
    if (found != number) {
        failures++;
        printf("line %d: %s: the number is %" PRIu64 ", not %" PRIu64 "\n", line, call, found,
               number);
    }
}

/* The call is accepted, has these values, and leaves a sound board. */
static void accepted(int line, const char *call, uint64_t found, const uint64_t *values,
                     size_t count) {
    number_is(line, call, found, CARV_ACCEPTED);
    check(line, call, "the answer words differ", are_words(values, count));
    check(line, call, "bytes around the area changed", is_around_as_before());
    check(line, call, "the board is not sound", carv_is_sound(AREA));
}

/* The call is refused and leaves the answer words and the image. */
static void refused(int line, const char *call, uint64_t found, uint64_t number) {
    number_is(line, call, found, number);
    check(line, call, "the answer words changed", are_words(NULL, 0));
    check(line, call, "the image changed", is_image_as_before());
}

/* An accepted call without values; with values; a call that leaves the area besides. */
#define DONE(call) (lend(), accepted(__LINE__, #call, call, NULL, 0))
#define ANSWER(call, ...)                                                                         \
    do {                                                                                          \
        const uint64_t values[] = {__VA_ARGS__};                                                  \
        lend();                                                                                   \
        accepted(__LINE__, #call, call, values, sizeof values / sizeof *values);                  \
    } while (0)
#define READS(call, ...)                                                                          \
    do {                                                                                          \
        ANSWER(call, __VA_ARGS__);                                                                \
        check(__LINE__, #call, "the area changed", is_area_as_before());                          \
    } while (0)

/* A refused call, which leaves the area; one that leaves a renewal. */
#define REFUSED(number, call)                                                                     \
    (lend(), refused(__LINE__, #call, call, number),                                              \
     check(__LINE__, #call, "the area changed", is_area_as_before()))
#define REFUSED_RENEWING(number, call)                                                            \
    (lend(), refused(__LINE__, #call, call, number),                                              \
     check(__LINE__, #call, "the board is not sound", carv_is_sound(AREA)),                       \
     check(__LINE__, #call, "no renewal is left", !is_area_as_before()))

#endif
