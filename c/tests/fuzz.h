/* What the calls of fuzz.c share: the input, the pages for what is passed, and the comparisons. */
#ifndef FUZZ_H
#define FUZZ_H

#include "model.h"

#include <stdio.h>
#include <stdlib.h>

/* The pages for the bytes that are read, for a buffer, for a second array, and for each kind of output. */
enum { BYTES, BUFFER, EXTRA, OUT, CURSOR, FAULT, PLACES };

/* An input: a call, its arguments, and the bytes that it is about. */
enum { ARGUMENTS = 11, MAX_LEN = 1024 };

struct input {
    uint8_t args[ARGUMENTS];
    const uint8_t *bytes; /* at an edge of their pages; NULL sometimes if there are none */
    size_t len;
};

/* A page that can be used, and after it more bytes than a length of 32 bits counts, none of which can. */
enum { FAR_PAGE = PAGE };
static const size_t far_size = ((size_t)1 << 32) + ROOM;
static uint8_t *far_bytes;

/* The faults that no call writes, and the one that is passed. */
static const struct nlp_fault no_fault = { 99, 98, 97, 96 };
static struct nlp_fault *fault;
static uint32_t way;

static uint8_t *pages[PLACES];
static uint32_t edges; /* a bit for each of these places: at the end of its pages, or else at their start */
static const uint8_t *input_data;
static size_t input_size, call_number;
static unsigned long checks;
static unsigned long outcomes[64][64]; /* how often each call had each result */

/* Prints the input. */
static void show_input(void)
{
    fprintf(stderr, "call %lu, input ", (unsigned long)call_number);
    for (size_t i = 0; i < input_size; i++)
        fprintf(stderr, "%02x", (unsigned)input_data[i]);
    fprintf(stderr, "\n");
}

/* Ends the program at a difference. */
static inline void differ(const char *file, int line, const char *what)
{
    fprintf(stderr, "%s:%d: differs: %s\n", file, line, what);
    show_input();
    abort();
}

#define CHECK(holds) do { \
        checks++; \
        if (!(holds)) \
            differ(__FILE__, __LINE__, #holds); \
    } while (0)

/* Compares the result of a call with that of the model. */
#define RESULT(call, wanted) do { \
        const uint32_t model_result = (wanted); \
        CHECK((call) == model_result); \
        outcomes[call_number][model_result]++; \
    } while (0)

/* Calls a function with a fault: by itself, by its _opt form, or by its _opt form with NULL. */
#define OPT(name, ...) \
    (way == 0 ? name(__VA_ARGS__, fault) : name##_opt(__VA_ARGS__, way == 1 ? fault : NULL))

static inline void *place(size_t which, size_t size)
{
    return place_in(pages[which], size, edges >> which & 1);
}

/* Prepares the fault of a call. Returns what the model changes. */
static inline struct nlp_fault begin_fault(void)
{
    fault = place(FAULT, sizeof *fault);
    *fault = no_fault;
    return no_fault;
}

/* Compares the fault. If NULL was passed, nothing was written. */
static inline void check_fault(const struct nlp_fault *wanted)
{
    CHECK(same_fault(fault, way == 2 ? &no_fault : wanted));
}

/* Returns a size or an offset near 0, near the end, or near the largest one. */
static inline size_t near(uint8_t argument, size_t len)
{
    if (argument < 128)
        return argument % (len + 2);
    if (argument < 192)
        return argument % 64;
    return argument < 240 ? len - argument % 16 : SIZE_MAX - argument % 16;
}

/* Returns a capacity near a size, which is at most a page. */
static inline size_t capacity_near(uint8_t argument, size_t size)
{
    size_t capacity = argument < 160 ? size + argument % 64 : argument < 224 ? size - argument % 8 : argument % 32;
    return capacity > PAGE ? 0 : capacity;
}

static inline uint16_t kind_of(uint8_t low, uint8_t high)
{
    return (uint16_t)(low % 16 | (high < 128 ? 0 : (high & 3) << 14) | (high % 16 == 5 ? 0x3ff0 : 0));
}

#endif
