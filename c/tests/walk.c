/* Reads blocks in hexadecimal, one per line. Prints one line per attribute, and then the error text or ok. */
#include "netlink_packet.h"

#include <stdio.h>
#include <string.h>

static uint8_t block[1 << 20];
static char line[2 * sizeof block + 2];

static unsigned digit(char c)
{
    return c <= '9' ? (unsigned)(c - '0') : (unsigned)(c - 'a' + 10);
}

static size_t read_block(void)
{
    size_t size = 0;
    for (const char *at = line; at[0] > ' ' && at[0] != '-'; at += 2)
        block[size++] = (uint8_t)(digit(at[0]) << 4 | digit(at[1]));
    return size;
}

static void print_attribute(const struct nlp_attr *attr)
{
    printf("%04x %zu ", (unsigned)attr->kind, attr->size);
    for (size_t i = 0; i < attr->size; i++)
        printf("%02x", (unsigned)block[attr->offset + i]);
    puts(attr->size == 0 ? "-" : "");
}

static int print_end(uint32_t answer, const struct nlp_fault *fault)
{
    uint8_t text[200];
    size_t size;
    if (answer == NLP_END) {
        puts("= ok");
        return 0;
    }
    if (fault->cause != answer || nlp_fault_text(fault, text, sizeof text, &size) != NLP_OK)
        return 1;
    printf("= %.*s\n", (int)size, (const char *)text);
    return 0;
}

int main(void)
{
    while (fgets(line, sizeof line, stdin) != NULL) {
        size_t len = read_block();
        size_t at = 0;
        struct nlp_attr attr;
        struct nlp_fault fault;
        uint32_t answer;
        while ((answer = nlp_attrs_next(block, len, &at, &attr, &fault)) == NLP_OK)
            print_attribute(&attr);
        if (at != len || print_end(answer, &fault) != 0)
            return 1;
        if (nlp_attrs_next(block, len, &at, &attr, &fault) != NLP_END)
            return 1;
    }
    return 0;
}
