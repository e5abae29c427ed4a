/*
** Checks case files between pages that no program may touch, sizes their
** formulas, indexes their logs, and checks them through the index. A read beyond
** the file, the book or the index that is lent, a write to them, or an access
** beyond the room, the column or the index room stops the program.
**
** Standard input has records of files, as `src/pack.rs` writes them, each with
** the verdict, the list, the sizes and the index that the separate checker gives.
*/
#include <stdio.h>

#include "areas.h"

/* A record's length has 16 bits; the largest file that is no refusal by 1 has 47,910 bytes. */
#define FILE_AREA 65536
#define ROOM_AREA 4096
#define COLUMN_AREA 4096
#define INDEX_AREA 40960

/* No index has more entries. */
#define INDEX_ENTRIES 16385

/* So many entries behind an index are lent with it at times. */
#define BEHIND 16

/* Numbers of refusals that only an index brings. */
#define INDEX_TOO_SHORT 29
#define INDEX_NOT_AS_BUILT 30

/* One record. */
static uint8_t content[FILE_AREA];
static size_t content_bytes;
static struct justification_verdict expected;
static uint16_t listed[JUSTIFICATION_ROOM];
static size_t listed_count;
static uint8_t book[FILE_AREA];
static size_t book_bytes;
static struct justification_admission expected_book;
static uint8_t sizes_due[JUSTIFICATION_SIZES];
static size_t sizes_count;
static struct justification_verdict expected_index;
static uint16_t index_due[INDEX_ENTRIES + BEHIND];
static size_t index_count;

/* A short index has the short area, which is soon filled and compared. */
static struct area file_area, room_area, short_area, long_area, lent_area, column_area;

/* The index through which a file is checked; none for a check without. */
static const uint16_t *lent_index;
static size_t lent_entries;

/* The verdict, through the index that is lent, if any. */
static struct justification_verdict answer(const uint8_t *file, uint16_t *room, size_t entries)
{
    calls++;
    if (lent_index == NULL) {
        return justification_check(file, content_bytes, room, entries);
    }
    return justification_check_indexed(file, content_bytes, lent_index, lent_entries, room, entries);
}

/* The verdict has to be this one, and the room's area as before but for so many entries. */
static void check(const uint8_t *file, int at_end, size_t entries,
                  struct justification_verdict due, size_t written)
{
    uint16_t *room = fill(room_area, 2 * entries, at_end);
    if (!same(answer(file, room, entries), due)) {
        fail("another verdict than the separate checker's");
    }
    compare(room_area, at_end, room, listed, 2 * written,
            "another room than the separate checker's");
}

/* Only a pass touches the room: any other verdict comes with one that nobody may touch. */
static void check_untouched(const uint8_t *file, struct justification_verdict due)
{
    if (!same(answer(file, no_access(), JUSTIFICATION_ROOM), due)) {
        fail("another verdict with a room that may not be touched");
    }
}

/* Whether checks 1 to 9 let the file pass. */
static int admitted(void)
{
    return expected.kind != JUSTIFICATION_REFUSED || expected.first > JUSTIFICATION_BAD_AUDIT;
}

static void check_admission(const uint8_t *file)
{
    struct justification_admission found = justification_admit(file, content_bytes);
    int bad = !admitted();
    calls++;
    if (found.number != (bad ? expected.first : 0) || found.place != (bad ? expected.second : 0)) {
        fail("another admission");
    }
}

static void check_rooms(const uint8_t *file, int at_end)
{
    struct justification_verdict short_room = {JUSTIFICATION_REFUSED, JUSTIFICATION_ROOM_TOO_SHORT, 0};
    check(file, at_end, JUSTIFICATION_ROOM, expected, listed_count);
    if (expected.kind != JUSTIFICATION_PASSED) {
        check(file, at_end, 0, expected, 0);
        check_untouched(file, expected);
        return;
    }
    check(file, at_end, listed_count, expected, listed_count);
    short_room.second = (uint16_t)listed_count;
    if (listed_count > 0) {
        check(file, at_end, listed_count - 1, short_room, 0);
        check(file, at_end, 0, short_room, 0);
    }
}

/* The answer has to be this one, and the index room's area as before but for so many entries. There
** may be more entries behind the room's, which nobody may touch. */
static void build(const uint8_t *file, int at_end, size_t entries, size_t more,
                  struct justification_verdict due, size_t written)
{
    struct area area = 2 * (entries + BEHIND) > short_area.bytes ? long_area : short_area;
    uint16_t *room = fill(area, 2 * entries, at_end);
    calls++;
    if (!same(justification_index(file, content_bytes, room, entries + more), due)) {
        fail("another answer to building than the separate checker's");
    }
    compare(area, at_end, room, index_due, 2 * written,
            "another index than the separate checker's");
}

/* A refusal touches no entry. */
static void build_untouched(const uint8_t *file, size_t entries, struct justification_verdict due)
{
    calls++;
    if (!same(justification_index(file, content_bytes, no_access(), entries), due)) {
        fail("another answer with an index room that may not be touched");
    }
}

static void check_building(const uint8_t *file, int at_end)
{
    struct justification_verdict short_room = {JUSTIFICATION_REFUSED, INDEX_TOO_SHORT, 0};
    if (expected_index.kind == JUSTIFICATION_REFUSED) {
        build(file, at_end, BEHIND, 0, expected_index, 0);
        build(file, at_end, 0, 0, expected_index, 0);
        build_untouched(file, INDEX_ENTRIES, expected_index);
        return;
    }
    build(file, at_end, index_count + BEHIND, 0, expected_index, index_count);
    build(file, at_end, index_count, 0, expected_index, index_count);
    if (at_end) {
        build(file, at_end, index_count, BEHIND, expected_index, index_count);
    }
    short_room.second = (uint16_t)index_count;
    build(file, at_end, index_count - 1, 0, short_room, 0);
    build(file, at_end, 0, 0, short_room, 0);
    build_untouched(file, index_count - 1, short_room);
}

/* Lends these entries, for reading only. */
static void lend(const uint16_t *entries, size_t count, int at_end)
{
    lent_index = place(lent_area, entries, 2 * count, at_end);
    lent_entries = count;
}

/* Through an index that is not as built an admitted file is refused. */
static void check_refused(const uint8_t *file, int at_end)
{
    struct justification_verdict not_as_built = {JUSTIFICATION_REFUSED, INDEX_NOT_AS_BUILT, 0};
    struct justification_verdict due = admitted() ? not_as_built : expected;
    check(file, at_end, JUSTIFICATION_ROOM, due, 0);
    check(file, at_end, 0, due, 0);
    check_untouched(file, due);
}

/* The index is lent with this entry changed. */
static void check_changed(const uint8_t *file, int at_end, size_t entry)
{
    index_due[entry]++;
    lend(index_due, index_count, at_end);
    index_due[entry]--;
    check_refused(file, at_end);
}

/* Through the index as built, with other entries behind it, and with ones that nobody may touch. */
static void check_as_built(const uint8_t *file, int at_end)
{
    size_t i;
    lend(index_due, index_count, at_end);
    check_rooms(file, at_end);
    if (at_end) {
        lent_entries += BEHIND;
        check_rooms(file, at_end);
    }
    for (i = 0; i < BEHIND; i++) {
        index_due[index_count + i] = (uint16_t)(0xFFFF - i);
    }
    lend(index_due, index_count + BEHIND, at_end);
    check(file, at_end, JUSTIFICATION_ROOM, expected, listed_count);
}

/* Checks through an index. A file that has none is lent one of no entries, and any entries. */
static void check_through(const uint8_t *file, int at_end)
{
    if (expected_index.kind == JUSTIFICATION_REFUSED) {
        lend(listed, 0, at_end);
        check_rooms(file, at_end);
        lend(listed, BEHIND, at_end);
        check_rooms(file, at_end);
    } else {
        check_as_built(file, at_end);
        check_changed(file, at_end, 0);
        check_changed(file, at_end, index_count / 2);
        check_changed(file, at_end, index_count - 1);
        lend(index_due, index_count - 1, at_end);
        check_refused(file, at_end);
        lend(index_due, 0, at_end);
        check_refused(file, at_end);
    }
    lent_index = NULL;
}

static void check_book(const uint8_t *placed, uint8_t *sizes)
{
    struct justification_admission found = formula_book_sizes(placed, book_bytes, sizes);
    calls++;
    if (found.number != expected_book.number || found.place != expected_book.place) {
        fail("another answer to the book");
    }
}

/* The column's area has to be as before but for the sizes due. */
static void check_sizes(int at_end)
{
    const uint8_t *placed = place(file_area, book, book_bytes, at_end);
    uint8_t *sizes = fill(column_area, JUSTIFICATION_SIZES, at_end);
    check_book(placed, sizes);
    compare(column_area, at_end, sizes, sizes_due, sizes_count,
            "another column than the separate checker's");
    /* Bytes that are no rows come with a column that nobody may touch. */
    if (expected_book.number == JUSTIFICATION_FAULTY_PART) {
        check_book(placed, no_access());
    }
}

static void read_file_record(void)
{
    content_bytes = read_number();
    expected = read_verdict();
    listed_count = expected.kind == JUSTIFICATION_PASSED ? (size_t)expected.first + expected.second : 0;
    if (listed_count > JUSTIFICATION_ROOM) {
        fail("a list longer than any room");
    }
    read_numbers(listed, listed_count);
    read_bytes(content, content_bytes);
}

static void read_book_record(void)
{
    book_bytes = read_number();
    expected_book.number = read_number();
    expected_book.place = read_number();
    sizes_count = read_number();
    if (sizes_count > JUSTIFICATION_SIZES) {
        fail("more sizes than any column has");
    }
    read_bytes(sizes_due, sizes_count);
    read_bytes(book, book_bytes);
}

static void read_index_record(void)
{
    expected_index = read_verdict();
    index_count = expected_index.kind == JUSTIFICATION_BUILT ? expected_index.first : 0;
    if (index_count > INDEX_ENTRIES) {
        fail("an index longer than any");
    }
    read_numbers(index_due, index_count);
}

static void check_record(int at_end)
{
    const uint8_t *file = place(file_area, content, content_bytes, at_end);
    check_rooms(file, at_end);
    check_admission(file);
    check_building(file, at_end);
    check_through(file, at_end);
    check_sizes(at_end);
}

int main(void)
{
    catch_faults();
    file_area = guarded(FILE_AREA);
    room_area = guarded(ROOM_AREA);
    short_area = guarded(ROOM_AREA);
    long_area = guarded(INDEX_AREA);
    lent_area = guarded(INDEX_AREA);
    column_area = guarded(COLUMN_AREA);
    while (next_record()) {
        read_file_record();
        read_book_record();
        read_index_record();
        check_record(1);
        check_record(0);
    }
    printf("%lu files, %lu calls\n", records, calls);
    return 0;
}
