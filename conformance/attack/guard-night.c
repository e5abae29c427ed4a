/*
** Checks a night's cases between pages that no program may touch. A read beyond
** the files or the list, between two files, or a write to them, or an access
** beyond the table of verdicts or the room stops the program. So does a touch of
** what the answer has no need of: with 33 the files, the table and the room; a
** file that its length refuses; the room where no file passes; verdicts behind
** the last file, and entries behind the last pass.
**
** Standard input has records of nights, as `src/pack.rs` writes them, each with
** what the separate checker gives in rooms of several lengths.
*/
#include <stdio.h>
#include <string.h>
#include <sys/mman.h>

#include "areas.h"

#define PAIR 8

/* Files that are all of the largest size, and a list with some pairs too many. */
#define FILES_AREA (749 * PAGE)
#define LIST_AREA PAGE
#define TABLE_AREA PAGE

/* A short night has the short areas, which are soon filled and compared. */
#define SHORT_AREA (4 * PAGE)

/* Files apart lie in so many bytes, with so many closed ones before each of them. */
#define APART_AREA (4 * GUARD)
#define GAP (16 * PAGE)

/* Rooms of no entries, half of those needed, one too few, just enough, some more, and the most. */
#define ROOMS 6

/* What is due in a room of so many entries. */
struct outcome {
    size_t entries;
    struct justification_verdict verdicts[JUSTIFICATION_NIGHT];
    uint16_t written[JUSTIFICATION_NIGHT_ROOM];
    size_t written_count;
};

/* One record. A list that is refused has no files. The last room is the longest one. */
static uint8_t content[FILES_AREA];
static size_t content_bytes;
static uint8_t list[LIST_AREA];
static size_t list_bytes;
static struct justification_verdict expected;
static size_t files;
static struct outcome outcomes[ROOMS];
static size_t rooms;
static const struct outcome *longest;

static struct area short_files, long_files, list_area, table_area, short_room, long_room;
static uint8_t *apart;

/* What is lent for reading. */
static const uint8_t *lent_files, *lent_list;
static size_t lent_bytes;

/* Lends these files and the record's list. */
static void lend(const uint8_t *placed, size_t bytes, int at_end)
{
    lent_files = placed;
    lent_bytes = bytes;
    lent_list = place(list_area, list, list_bytes, at_end);
}

static void ask(struct justification_verdict *table, uint16_t *room, size_t entries)
{
    calls++;
    if (!same(justification_night(lent_files, lent_bytes, lent_list, list_bytes, table, room, entries),
              expected)) {
        fail("another answer than the separate checker's");
    }
}

/* The areas of the table and of the room have to be as before but for what is due. So many verdicts
** and entries are there, and nobody may touch those behind them. */
static void check(const struct outcome *due, size_t verdicts, size_t entries, int at_end)
{
    struct area room_area = 2 * entries > short_room.bytes ? long_room : short_room;
    struct justification_verdict *table = fill(table_area, verdicts * sizeof *table, at_end);
    uint16_t *room = fill(room_area, 2 * entries, at_end);
    ask(table, room, due->entries);
    compare(table_area, at_end, table, due->verdicts, files * sizeof *table,
            "other verdicts than the separate checker's");
    compare(room_area, at_end, room, due->written, 2 * due->written_count,
            "another room than the separate checker's");
}

/* In the longest room, with no verdict and no entry there but those that are told. */
static void check_what_is_told(void)
{
    check(longest, files, longest->written_count, 1);
}

static void check_rooms(int at_end)
{
    size_t i;
    for (i = 0; i < rooms; i++) {
        check(&outcomes[i], JUSTIFICATION_NIGHT, outcomes[i].entries, at_end);
    }
}

/* Only a pass touches the room: without one it comes with a room that nobody may touch. */
static void check_untouched(int at_end)
{
    struct justification_verdict *table = fill(table_area, sizeof longest->verdicts, at_end);
    ask(table, no_access(), JUSTIFICATION_NIGHT_ROOM);
    compare(table_area, at_end, table, longest->verdicts, files * sizeof *table,
            "other verdicts with a room that may not be touched");
}

/* The list and the length of the files are all that 33 needs. */
static void check_refused(int at_end)
{
    lend(no_access(), content_bytes, at_end);
    ask(no_access(), no_access(), JUSTIFICATION_NIGHT_ROOM);
}

/* The number of 32 bits at this byte of the list. */
static size_t long_at(size_t at)
{
    return list[at] | (size_t)list[at + 1] << 8 | (size_t)list[at + 2] << 16 | (size_t)list[at + 3] << 24;
}

static void put_long(size_t at, size_t number)
{
    int byte;
    for (byte = 0; byte < 4; byte++) {
        list[at + (size_t)byte] = (uint8_t)(number >> 8 * byte);
    }
}

/* Whether the length alone refuses this file. */
static int refused_by_length(size_t file)
{
    struct justification_verdict verdict = longest->verdicts[file];
    return verdict.kind == JUSTIFICATION_REFUSED && verdict.first == JUSTIFICATION_FILE_LENGTH;
}

/* Puts this file on pages of its own from here on, at their end or at their start, and says so in the
** list. The pages of a file that its length refuses stay closed. Gives the end of the pages. */
static size_t lay_file(size_t file, size_t from, int at_end)
{
    size_t offset = long_at(PAIR * file), bytes = long_at(PAIR * file + 4);
    struct area pages;
    pages.start = apart + from;
    pages.bytes = (bytes + PAGE - 1) / PAGE * PAGE;
    if (from + pages.bytes > APART_AREA) {
        fail("files that are too long to lie apart");
    }
    if (!refused_by_length(file)) {
        place(pages, content + offset, bytes, at_end);
    }
    put_long(PAIR * file, from + (at_end ? pages.bytes - bytes : 0));
    return from + pages.bytes;
}

/* Each file on pages of its own, with closed ones before and behind it. Where the files lie changes
** no verdict and no entry. */
static void check_apart(int at_end)
{
    uint8_t as_read[LIST_AREA];
    size_t end = 0, i;
    memcpy(as_read, list, list_bytes);
    for (i = 0; i < files; i++) {
        end = lay_file(i, end + GAP, at_end);
    }
    lend(apart, end, at_end);
    check_what_is_told();
    check(longest, JUSTIFICATION_NIGHT, longest->entries, at_end);
    protect(apart, APART_AREA, PROT_NONE);
    memcpy(list, as_read, list_bytes);
}

static void read_outcome(struct outcome *due)
{
    size_t i;
    due->entries = read_long();
    due->written_count = read_long();
    if (due->entries > JUSTIFICATION_NIGHT_ROOM || due->written_count > due->entries) {
        fail("more entries than any room has");
    }
    for (i = 0; i < files; i++) {
        due->verdicts[i] = read_verdict();
    }
    read_numbers(due->written, due->written_count);
}

static void read_night(void)
{
    size_t i;
    content_bytes = read_long();
    list_bytes = read_long();
    expected = read_verdict();
    files = expected.kind == JUSTIFICATION_CHECKED ? expected.first : 0;
    rooms = read_number();
    if (content_bytes > FILES_AREA || list_bytes > LIST_AREA || files > JUSTIFICATION_NIGHT ||
        rooms == 0 || rooms > ROOMS) {
        fail("a record larger than any");
    }
    read_bytes(content, content_bytes);
    read_bytes(list, list_bytes);
    for (i = 0; i < rooms; i++) {
        read_outcome(&outcomes[i]);
    }
    longest = &outcomes[rooms - 1];
}

static void check_record(int at_end)
{
    struct area area = content_bytes > short_files.bytes ? long_files : short_files;
    lend(place(area, content, content_bytes, at_end), content_bytes, at_end);
    check_rooms(at_end);
    check_what_is_told();
    if (longest->written_count == 0) {
        check_untouched(at_end);
    }
    if (expected.kind == JUSTIFICATION_CHECKED) {
        check_apart(at_end);
    } else {
        check_refused(at_end);
    }
}

int main(void)
{
    catch_faults();
    short_files = guarded(SHORT_AREA);
    long_files = guarded(FILES_AREA);
    list_area = guarded(LIST_AREA);
    table_area = guarded(TABLE_AREA);
    short_room = guarded(SHORT_AREA);
    long_room = guarded(MOST_FILLED);
    apart = guarded(APART_AREA).start;
    protect(apart, APART_AREA, PROT_NONE);
    while (next_record()) {
        read_night();
        check_record(1);
        check_record(0);
    }
    printf("%lu nights, %lu calls\n", records, calls);
    return 0;
}
