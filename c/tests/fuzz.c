/* Compares each function of the header, exported or inline, with a model: an input chooses the call, its arguments, and
 * the bytes that it is about. What is passed ends where a page begins that cannot be read or written, or begins where
 * such a page ends. A difference ends the program, and so does a use of such a page; both print the input.
 *
 *     fuzz INPUTS SEED   makes inputs from a seed, and prints how many inputs, comparisons, and different results of
 *                        calls there were
 *     fuzz HEX           tries one input
 *
 * With libFuzzer (-DLIBFUZZER -fsanitize=fuzzer), that makes the inputs. c/fuzz builds and runs both. */
#define _DEFAULT_SOURCE
#include "fuzz_inputs.h"
#include "fuzz_normal.h"
#include "fuzz_route.h"

#include <signal.h>

static const struct call {
    void (*run)(const struct input *in);
    enum shape shape;
    uint32_t weight; /* of 256 inputs that a seed makes */
} calls[] = {
    { walk_attrs, BLOCK, 9 },
    { find_attr, BLOCK, 9 },
    { fill_table, BLOCK, 9 },
    { validate, BLOCK, 10 },
    { get_value, BLOCK, 16 },
    { read_integers, ANY_BYTES, 2 },
    { write_attr, BLOCK, 9 },
    { normalize_attrs, BLOCK, 9 },
    { walk_frames, DATAGRAM, 8 },
    { walk_batches, MESSAGES, 5 },
    { read_messages, MESSAGES, 3 },
    { fill_attrs, ATTRIBUTES, 5 },
    { read_attrs, ATTRIBUTES, 3 },
    { find_attrs, DATAGRAM, 5 },
    { read_frame, DATAGRAM, 8 },
    { read_replies, DATAGRAM, 12 },
    { normalize_frame, DATAGRAM, 9 },
    { read_error, ERROR_BODY, 8 },
    { read_done, ERROR_BODY, 2 },
    { read_ack, BLOCK, 9 },
    { find_path, ACKNOWLEDGEMENT, 9 },
    { put_one, ANY_BYTES, 9 },
    { end_one, ANY_BYTES, 5 },
    { put_long, ANY_BYTES, 1 },
    { write_all, ANY_BYTES, 9 },
    { text_of_fault, ANY_BYTES, 5 },
    { text_of_frame, DATAGRAM, 4 },
    { text_of_attrs, DATAGRAM, 5 },
    { view_payload, PAYLOAD, 11 },
    { text_of_error, PAYLOAD, 3 },
    { get_from_view, PAYLOAD, 17 },
    { shape_of_kind, PAYLOAD, 5 },
    { walk_view, PAYLOAD, 8 },
    { check_value, PAYLOAD, 8 },
    { get_field, PAYLOAD, 5 },
    { show_payload, PAYLOAD, 2 },
};

static unsigned long inputs_tried;

enum { CALLS = sizeof calls / sizeof calls[0] };

int LLVMFuzzerTestOneInput(const uint8_t *data, size_t size);

/* Prints the input that used a page that cannot be used. The program then ends by the same signal. */
static void stop(int number)
{
    signal(number, SIG_DFL);
    fprintf(stderr, "a page is used that is not passed\n");
    show_input();
}

/* Makes the pages, once. */
static void begin(void)
{
    far_bytes = mmap(NULL, far_size, PROT_NONE, MAP_PRIVATE | MAP_ANONYMOUS, -1, 0);
    bool has_pages = far_bytes != MAP_FAILED && mprotect(far_bytes, FAR_PAGE, PROT_READ | PROT_WRITE) == 0;
    for (size_t i = 0; i < PLACES; i++)
        has_pages = (pages[i] = guarded_pages()) != NULL && has_pages;
    if (!has_pages) {
        fprintf(stderr, "there are no pages\n");
        abort();
    }
    signal(SIGSEGV, stop);
}

int LLVMFuzzerTestOneInput(const uint8_t *data, size_t size)
{
    struct input in;
    if (far_bytes == NULL)
        begin();
    if (size < 1 + ARGUMENTS || size > 1 + ARGUMENTS + MAX_LEN)
        return 0;
    inputs_tried++;
    input_data = data;
    input_size = size;
    call_number = data[0] % CALLS;
    memcpy(in.args, data + 1, ARGUMENTS);
    in.len = size - 1 - ARGUMENTS;
    edges = in.args[ARGUMENTS - 1] | (uint32_t)(in.args[ARGUMENTS - 2] % 4) << 8;
    way = in.args[ARGUMENTS - 2] / 4 % 3;
    uint8_t *bytes = place(BYTES, in.len);
    memcpy(bytes, data + 1 + ARGUMENTS, in.len);
    in.bytes = in.len == 0 && in.args[0] % 2 ? NULL : bytes;
    calls[call_number].run(&in);
    CHECK(memcmp(bytes, data + 1 + ARGUMENTS, in.len) == 0);
    return 0;
}

static unsigned long results_seen(void)
{
    unsigned long count = 0;
    for (size_t i = 0; i < CALLS; i++)
        for (size_t j = 0; j < 64; j++)
            count += outcomes[i][j] != 0;
    return count;
}

/* Returns the call that a number below 256 stands for, by the weights. */
static uint32_t call_at(uint32_t at)
{
    uint32_t call = 0;
    while (at >= calls[call].weight)
        at -= calls[call++].weight;
    return call;
}

/* Makes an input of any call. */
static void make_any(struct draft_input *draft)
{
    static uint8_t order[256];
    static bool has_order;
    for (uint32_t i = 0; i < 256 && !has_order; i++)
        order[i] = (uint8_t)call_at(i);
    has_order = true;
    const uint32_t call = order[below(256)];
    make_input(draft, call, calls[call].shape);
}

static void print_sums(void)
{
    printf("%lu inputs, %lu checks, %lu results\n", inputs_tried, checks, results_seen());
}

#ifdef LIBFUZZER

int LLVMFuzzerInitialize(int *count, char ***words);
size_t LLVMFuzzerMutate(uint8_t *data, size_t size, size_t max_size);
size_t LLVMFuzzerCustomMutator(uint8_t *data, size_t size, size_t max_size, unsigned int seed);

int LLVMFuzzerInitialize(int *count, char ***words)
{
    (void)count;
    (void)words;
    return atexit(print_sums);
}

/* One of eight inputs is made as in the plain loop, because bytes that libFuzzer changes are seldom valid. */
size_t LLVMFuzzerCustomMutator(uint8_t *data, size_t size, size_t max_size, unsigned int seed)
{
    static struct draft_input draft;
    if (seed % 8 != 0)
        return LLVMFuzzerMutate(data, size, max_size);
    begin_numbers(seed);
    make_any(&draft);
    size = draft.size < max_size ? draft.size : max_size;
    memcpy(data, draft.bytes, size);
    return size;
}

#else

static int run_hex(const char *text)
{
    static uint8_t data[1 + ARGUMENTS + MAX_LEN];
    const size_t size = strlen(text) / 2;
    for (size_t i = 0; i < size && i < sizeof data; i++) {
        const char two[3] = { text[2 * i], text[2 * i + 1], 0 };
        data[i] = (uint8_t)strtoul(two, NULL, 16);
    }
    return LLVMFuzzerTestOneInput(data, size < sizeof data ? size : sizeof data);
}

/* Without arguments: a few inputs, as c/mutants runs it. */
int main(int count, char **words)
{
    static struct draft_input draft;
    if (count == 2)
        return run_hex(words[1]);
    const unsigned long inputs = count < 2 ? 20000 : strtoul(words[1], NULL, 10);
    begin_numbers(count < 3 ? 1 : strtoul(words[2], NULL, 10));
    while (inputs_tried < inputs) {
        make_any(&draft);
        LLVMFuzzerTestOneInput(draft.bytes, draft.size);
    }
    print_sums();
    return 0;
}

#endif
