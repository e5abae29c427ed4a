/*
** Pages that no program may touch, around what is lent to the library, and the
** records that tell what is due. guard.c and guard-night.c share it.
*/
#ifndef AREAS_H
#define AREAS_H

#include "justification.h"

/* Guards are larger than all a call may read or write. */
#define GUARD (4096 * 1024)

#define PAGE 4096

/* What areas are filled with is never longer: the longest room of a night. */
#define MOST_FILLED (2 * JUSTIFICATION_NIGHT_ROOM)

/* Pages between two guards. */
struct area {
    uint8_t *start;
    size_t bytes;
};

/* The records read so far, and the calls made. */
extern unsigned long records, calls;

/* Says what is wrong with this record, and ends with 1. */
void fail(const char *what);

/* From now on a read or write that no page allows ends with 2. */
void catch_faults(void);

void protect(void *pages, size_t bytes, int protection);

/* Pages of so many bytes, with a guard before and behind. */
struct area guarded(size_t bytes);

/* Bytes that nobody may touch, with as many before them. */
void *no_access(void);

/* Bytes at the end of an area or at its start, for reading only. */
const void *place(struct area area, const void *bytes, size_t count, int at_end);

/* So many bytes at the end of an area or at its start. The whole area is filled before a call. */
void *fill(struct area area, size_t count, int at_end);

/* The area has to be as it was filled but for these bytes from here on. */
void compare(struct area area, int at_end, const void *from, const void *due, size_t written,
             const char *otherwise);

int same(struct justification_verdict a, struct justification_verdict b);

/* Whether there is one more record, which is counted. */
int next_record(void);

void read_bytes(void *into, size_t bytes);

/* Numbers have 16 bits, long ones 32, low byte first. */
uint16_t read_number(void);
size_t read_long(void);
void read_numbers(uint16_t *into, size_t count);
struct justification_verdict read_verdict(void);

#endif
