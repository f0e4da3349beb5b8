/* Calls one case on the bytes of a file.
 *
 *     calls CASE FILE TIMES     calls it that many times, and prints the sum of the results
 *     calls CASE FILE bytes     prints in hexadecimal what one call writes or finds
 *     calls CASE FILE time      prints the result of one call, its nanoseconds, and the peak of memory in KB
 *
 * bench/calls and bench/work build it. The cases of other libraries are weak: a library that is not linked has none. */
#include <stdint.h>
#include <stdio.h>
#include <stdlib.h>
#include <string.h>
#include <sys/resource.h>
#include <time.h>

typedef size_t call(const uint8_t *bytes, size_t len);
typedef size_t output(const uint8_t *bytes, size_t len, uint8_t *out, size_t room);

/* The exports of netlink_bench. Their parameter of type Global takes no bytes. */
call route_read, route_look, route_view_read, route_view_look, route_pass_look;
call message_read, message_normalize, message_is_canonical, raw_read, ethernet_convert;
call attributes_walk, attributes_append, attributes_are_canonical, attributes_normalize;
call frames_append, trees_read, trees_rewrite;
call attributes_find, attributes_place, attributes_fault, frames_walk, frames_error, replies_read, ack_text;
call path_count, family_find, family_count;
call route_error, route_show, route_first, route_indexed, route_hops, link_push;
size_t message_rewrite(const uint8_t *frame, size_t len, uint8_t *buffer, size_t size);
output attributes_walk_output, attributes_append_output, attributes_normalize_output;
output raw_read_output, frames_append_output, trees_output, route_output;

/* The cases of calls_c.c, calls_libmnl.c, calls_libnl.c and route/. */
#define WEAK __attribute__((weak))
WEAK call libmnl_look, libmnl_walk, libmnl_append, libnl_read;
WEAK output libmnl_walk_output, libmnl_append_output;
WEAK call c_five, libmnl_five, libnl_five, netlink_packet_route_five;
WEAK output c_five_output, libmnl_five_output, libnl_five_output, netlink_packet_route_five_output;
WEAK call netlink_packet_route_read, netlink_packet_route_look;
WEAK call rust_read, rust_normalize, rust_append_frames, rust_read_tree, rust_rewrite_tree;
WEAK output netlink_packet_route_output;
WEAK output rust_read_output, rust_normalize_output, rust_append_frames_output, rust_tree_output;

static size_t message_rewrite_here(const uint8_t *frame, size_t len)
{
    static uint8_t buffer[1 << 20];
    return message_rewrite(frame, len, buffer, sizeof buffer);
}

static const struct {
    const char *name;
    call *call;
    output *output;
} cases[] = {
    { "route_read", route_read, route_output },
    { "route_look", route_look, NULL },
    { "route_view_read", route_view_read, NULL },
    { "route_view_look", route_view_look, NULL },
    { "route_pass_look", route_pass_look, NULL },
    { "message_read", message_read, NULL },
    { "message_rewrite", message_rewrite_here, NULL },
    { "message_normalize", message_normalize, NULL },
    { "message_is_canonical", message_is_canonical, NULL },
    { "raw_read", raw_read, raw_read_output },
    { "ethernet_convert", ethernet_convert, NULL },
    { "attributes_walk", attributes_walk, attributes_walk_output },
    { "attributes_append", attributes_append, attributes_append_output },
    { "attributes_are_canonical", attributes_are_canonical, NULL },
    { "attributes_normalize", attributes_normalize, attributes_normalize_output },
    { "frames_append", frames_append, frames_append_output },
    { "trees_read", trees_read, trees_output },
    { "trees_rewrite", trees_rewrite, trees_output },
    { "attributes_find", attributes_find, NULL },
    { "attributes_place", attributes_place, NULL },
    { "attributes_fault", attributes_fault, NULL },
    { "frames_walk", frames_walk, NULL },
    { "frames_error", frames_error, NULL },
    { "replies_read", replies_read, NULL },
    { "ack_text", ack_text, NULL },
    { "path_count", path_count, NULL },
    { "family_find", family_find, NULL },
    { "family_count", family_count, NULL },
    { "route_error", route_error, NULL },
    { "route_show", route_show, NULL },
    { "route_first", route_first, NULL },
    { "route_indexed", route_indexed, NULL },
    { "route_hops", route_hops, NULL },
    { "link_push", link_push, NULL },
    { "c_five", c_five, c_five_output },
    { "libmnl_five", libmnl_five, libmnl_five_output },
    { "libnl_five", libnl_five, libnl_five_output },
    { "netlink_packet_route_five", netlink_packet_route_five, netlink_packet_route_five_output },
    { "libmnl_look", libmnl_look, NULL },
    { "libmnl_walk", libmnl_walk, libmnl_walk_output },
    { "libmnl_append", libmnl_append, libmnl_append_output },
    { "libnl_read", libnl_read, NULL },
    { "netlink_packet_route_read", netlink_packet_route_read, netlink_packet_route_output },
    { "netlink_packet_route_look", netlink_packet_route_look, NULL },
    { "rust_read", rust_read, rust_read_output },
    { "rust_normalize", rust_normalize, rust_normalize_output },
    { "rust_append_frames", rust_append_frames, rust_append_frames_output },
    { "rust_read_tree", rust_read_tree, rust_tree_output },
    { "rust_rewrite_tree", rust_rewrite_tree, rust_tree_output },
};

/* Reads a whole file into memory that is never freed. Ends the program if that fails. */
static uint8_t *contents(const char *path, size_t *len)
{
    FILE *file = fopen(path, "rb");
    if (!file || fseek(file, 0, SEEK_END) || ftell(file) < 0)
        exit(2);
    *len = (size_t)ftell(file);
    uint8_t *bytes = malloc(*len + 1);
    rewind(file);
    if (!bytes || fread(bytes, 1, *len, file) != *len)
        exit(2);
    fclose(file);
    return bytes;
}

static void print_bytes(output *output, const uint8_t *bytes, size_t len)
{
    size_t room = 4 * len + 4096;
    uint8_t *out = malloc(room);
    if (!out)
        exit(2);
    size_t size = output(bytes, len, out, room);
    for (size_t i = 0; i < size; i++)
        printf("%02x", out[i]);
    printf("\n");
}

static void print_time(call *call, const uint8_t *bytes, size_t len)
{
    struct timespec start, end;
    struct rusage usage;
    clock_gettime(CLOCK_MONOTONIC, &start);
    size_t result = call(bytes, len);
    clock_gettime(CLOCK_MONOTONIC, &end);
    getrusage(RUSAGE_SELF, &usage);
    long long nanoseconds = (end.tv_sec - start.tv_sec) * 1000000000LL + end.tv_nsec - start.tv_nsec;
    printf("%zu %lld %ld\n", result, nanoseconds, usage.ru_maxrss);
}

int main(int count, char **words)
{
    if (count != 4)
        return 2;
    size_t len, i = 0, most = sizeof cases / sizeof cases[0];
    const uint8_t *bytes = contents(words[2], &len);
    while (i < most && strcmp(words[1], cases[i].name))
        i++;
    if (i == most || !cases[i].call)
        return 2;
    if (!strcmp(words[3], "time")) {
        print_time(cases[i].call, bytes, len);
    } else if (!strcmp(words[3], "bytes")) {
        if (!cases[i].output)
            return 2;
        print_bytes(cases[i].output, bytes, len);
    } else {
        size_t sum = 0;
        for (long n = strtol(words[3], NULL, 10); n > 0; n--)
            sum += cases[i].call(bytes, len);
        printf("%zu\n", sum);
    }
    return 0;
}
