/*
** Pages that no program may touch, around what is lent to the library, and the
** records that tell what is due.
*/
#define _DEFAULT_SOURCE

#include <signal.h>
#include <stdio.h>
#include <stdlib.h>
#include <string.h>
#include <sys/mman.h>
#include <unistd.h>

#include "areas.h"

unsigned long records, calls;

/* What an area is filled with where bytes lie at its start, and where at its end. */
static uint8_t patterns[2][MOST_FILLED];

void fail(const char *what)
{
    fprintf(stderr, "record %lu: %s\n", records, what);
    exit(1);
}

static void on_fault(int signal_number)
{
    static const char text[] = "a read or write beyond what was lent\n";
    (void)signal_number;
    if (write(2, text, sizeof text - 1) < 0) {
        _exit(3);
    }
    _exit(2);
}

void catch_faults(void)
{
    static uint8_t stack[65536];
    stack_t other = {0};
    struct sigaction action = {0};
    other.ss_sp = stack;
    other.ss_size = sizeof stack;
    action.sa_handler = on_fault;
    action.sa_flags = SA_ONSTACK;
    sigemptyset(&action.sa_mask);
    if (sigaltstack(&other, NULL) != 0 || sigaction(SIGSEGV, &action, NULL) != 0 ||
        sigaction(SIGBUS, &action, NULL) != 0) {
        fail("no handler of faults");
    }
}

void protect(void *pages, size_t bytes, int protection)
{
    if (mprotect(pages, bytes, protection) != 0) {
        fail("mprotect");
    }
}

static uint8_t *closed(size_t bytes)
{
    uint8_t *pages = mmap(NULL, bytes, PROT_NONE, MAP_PRIVATE | MAP_ANONYMOUS, -1, 0);
    if (pages == MAP_FAILED) {
        fail("mmap");
    }
    return pages;
}

struct area guarded(size_t bytes)
{
    struct area area;
    area.start = closed(GUARD + bytes + GUARD) + GUARD;
    area.bytes = bytes;
    protect(area.start, bytes, PROT_READ | PROT_WRITE);
    return area;
}

void *no_access(void)
{
    static uint8_t *pages;
    if (pages == NULL) {
        pages = closed(GUARD + GUARD);
    }
    return pages + GUARD;
}

const void *place(struct area area, const void *bytes, size_t count, int at_end)
{
    uint8_t *placed = area.start + (at_end ? area.bytes - count : 0);
    protect(area.start, area.bytes, PROT_READ | PROT_WRITE);
    memcpy(placed, bytes, count);
    protect(area.start, area.bytes, PROT_READ);
    return placed;
}

void *fill(struct area area, size_t count, int at_end)
{
    if (patterns[1][0] == 0) {
        memset(patterns[0], 0x5A, MOST_FILLED);
        memset(patterns[1], 0xA5, MOST_FILLED);
    }
    memcpy(area.start, patterns[at_end], area.bytes);
    return area.start + (at_end ? area.bytes - count : 0);
}

void compare(struct area area, int at_end, const void *from, const void *due, size_t written,
             const char *otherwise)
{
    const uint8_t *first = from;
    size_t before = (size_t)(first - area.start);
    size_t behind = area.bytes - before - written;
    if (memcmp(area.start, patterns[at_end], before) != 0 || memcmp(first, due, written) != 0 ||
        memcmp(first + written, patterns[at_end], behind) != 0) {
        fail(otherwise);
    }
}

int same(struct justification_verdict a, struct justification_verdict b)
{
    return a.kind == b.kind && a.first == b.first && a.second == b.second;
}

int next_record(void)
{
    int next = getchar();
    if (next == EOF) {
        return 0;
    }
    ungetc(next, stdin);
    records++;
    return 1;
}

void read_bytes(void *into, size_t bytes)
{
    if (fread(into, 1, bytes, stdin) != bytes) {
        fail("a record that ends early");
    }
}

uint16_t read_number(void)
{
    uint8_t bytes[2];
    read_bytes(bytes, 2);
    return (uint16_t)(bytes[0] | bytes[1] << 8);
}

size_t read_long(void)
{
    size_t low = read_number();
    return low | (size_t)read_number() << 16;
}

void read_numbers(uint16_t *into, size_t count)
{
    size_t i;
    for (i = 0; i < count; i++) {
        into[i] = read_number();
    }
}

struct justification_verdict read_verdict(void)
{
    struct justification_verdict verdict;
    verdict.kind = read_number();
    verdict.first = read_number();
    verdict.second = read_number();
    return verdict;
}
