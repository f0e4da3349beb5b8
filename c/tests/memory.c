/* Fails each allocation of the functions that allocate, one after another: the result is NLP_NO_MEMORY, the
 * outputs are unchanged, and every block is freed. */
#include "netlink_packet.h"
#include "netlink_packet_route.h"

#include <stdio.h>
#include <stdlib.h>
#include <string.h>

void *__real_malloc(size_t size);
void *__real_realloc(void *block, size_t size);
void __real_free(void *block);
void *__wrap_malloc(size_t size);
void *__wrap_realloc(void *block, size_t size);
void __wrap_free(void *block);

/* How many allocations were made, which one fails (0: none), and how many blocks are not freed. */
static size_t made, failing, blocks;

void *__wrap_malloc(size_t size)
{
    if (++made == failing)
        return NULL;
    blocks++;
    return __real_malloc(size);
}

void *__wrap_realloc(void *block, size_t size)
{
    return ++made == failing ? NULL : __real_realloc(block, size);
}

void __wrap_free(void *block)
{
    blocks -= block != NULL;
    __real_free(block);
}

static int passed, failed;

static void expect(const char *what, size_t at, bool holds)
{
    if (holds) {
        passed++;
    } else {
        failed++;
        fprintf(stderr, "failed: %s, allocation %zu\n", what, at);
    }
}

/* A frame of type 18 with 8 bytes, and an attribute with dirty padding. */
static const uint8_t frame[24] = { 24, 0, 0, 0, 18, 0, 1, 3, 7, 0, 0, 0, 9, 0, 0, 0, 5, 0, 1, 0, 0xaa, 0, 0, 0 };
static const uint8_t done[20] = { 20, 0, 0, 0, 3, 0, 2, 0, 7, 0, 0, 0, 9, 0, 0, 0, 0, 0, 0, 0 };
static const uint8_t dirty[8] = { 5, 0, 1, 0, 0xaa, 1, 2, 3 };

/* The outputs of a call. */
static uint8_t buffer[256];
static size_t size;
static uint32_t canonical;
static struct nlp_fault fault;

static uint32_t normalizes_attributes(void)
{
    return nlp_attrs_normalize(dirty, sizeof dirty, buffer, sizeof buffer, &size, &fault);
}

static uint32_t asks_for_canonical_form(void)
{
    return nlp_frame_is_canonical(frame, sizeof frame, &canonical, &fault);
}

static uint32_t normalizes_a_frame(void)
{
    return nlp_frame_normalize(frame, sizeof frame, buffer, sizeof buffer, &size, &fault);
}

static uint32_t normalizes_a_done_message(void)
{
    return nlp_frame_normalize(done, sizeof done, buffer, sizeof buffer, &size, &fault);
}

static uint32_t prints_a_fault(void)
{
    const struct nlp_fault cut = { NLP_FRAME_CUT, 1, 23, 24 };
    return nlp_fault_text(&cut, buffer, sizeof buffer, &size);
}

static const struct nlp_route_error no_error;
static struct nlp_route_error error;

static uint32_t prints_an_error(void)
{
    const struct nlp_route_error short_header = { NLP_HEADER_SHORT, 0, 0, 0, 16, 9 };
    return nlp_route_error_text(&short_header, buffer, sizeof buffer, &size);
}

static uint32_t prints_a_message(void)
{
    return nlp_route_show(NLP_RTM_GETLINK, frame, 1, buffer, sizeof buffer, &size, &error);
}

static uint32_t prints_a_family(void)
{
    return nlp_generic_show(frame, 4, buffer, sizeof buffer, &size, &error);
}

static uint32_t outcome(uint32_t (*call)(void), size_t number)
{
    memset(buffer, 0x55, sizeof buffer);
    memset(&fault, 0, sizeof fault);
    size = 77;
    canonical = 88;
    made = 0;
    failing = number;
    blocks = 0;
    return call();
}

static bool is_unchanged(void)
{
    for (size_t i = 0; i < sizeof buffer; i++)
        if (buffer[i] != 0x55)
            return false;
    return size == 77 && canonical == 88;
}

static void fails(const char *what, bool has_fault, uint32_t (*call)(void))
{
    expect(what, 0, outcome(call, 0) == NLP_OK && made > 0 && blocks == 0);
    const size_t all = made;
    for (size_t number = 1; number <= all; number++) {
        const uint32_t result = outcome(call, number);
        expect(what, number, result == NLP_NO_MEMORY && made == number);
        expect(what, number, is_unchanged() && blocks == 0 && fault.cause == (has_fault ? NLP_NO_MEMORY : 0));
    }
}

int main(void)
{
    fails("attributes in canonical form", true, normalizes_attributes);
    fails("whether a frame is canonical", true, asks_for_canonical_form);
    fails("a frame in canonical form", true, normalizes_a_frame);
    fails("a done message in canonical form", true, normalizes_a_done_message);
    fails("the text of a fault", false, prints_a_fault);
    fails("the text of an error", false, prints_an_error);
    fails("the text of a message", false, prints_a_message);
    fails("the text of a family", false, prints_a_family);
    expect("no error is written", 0, memcmp(&error, &no_error, sizeof error) == 0);
    printf("%d passed, %d failed\n", passed, failed);
    return failed != 0;
}
