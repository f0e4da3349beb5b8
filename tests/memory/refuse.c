/* Preloaded into a program, makes its allocations fail by their number.

   The allocations are the calls of malloc, calloc and realloc, counted from 1 at the start of the process. With
   FAIL=N, only the Nth fails. With FAIL=marker, an allocation of exactly MARKER bytes fails, and so do all after it.
   When the process ends, it writes to the descriptor REPORT how many allocations it tried and how many of them failed.
   This file includes no headers, so that it compiles without any. */

#define MARKER 7654321ul

typedef unsigned long size;

void *__libc_malloc(size bytes);
void *__libc_calloc(size count, size bytes);
void *__libc_realloc(void *block, size bytes);
char *getenv(const char *name);
long strtol(const char *text, char **end, int base);
int dprintf(int descriptor, const char *format, ...);
int *__errno_location(void);

static size allocations, failures, failing;
static int is_ready, has_marker, is_after_marker;

/* Returns whether this allocation of the given number of bytes must fail. */
static int fails(size bytes)
{
    if (!is_ready) {
        const char *word = getenv("FAIL");
        is_ready = 1;
        has_marker = word && *word == 'm';
        failing = word && !has_marker ? (size)strtol(word, 0, 10) : 0;
    }
    allocations++;
    is_after_marker |= has_marker && bytes == MARKER;
    if (!is_after_marker && allocations != failing)
        return 0;
    failures++;
    *__errno_location() = 12; /* ENOMEM */
    return 1;
}

void *malloc(size bytes) { return fails(bytes) ? 0 : __libc_malloc(bytes); }

void *calloc(size count, size bytes) { return fails(count * bytes) ? 0 : __libc_calloc(count, bytes); }

void *realloc(void *block, size bytes) { return fails(bytes) ? 0 : __libc_realloc(block, bytes); }

__attribute__((destructor)) static void report(void)
{
    const char *descriptor = getenv("REPORT");
    if (descriptor)
        dprintf((int)strtol(descriptor, 0, 10), "%lu %lu\n", allocations, failures);
}
