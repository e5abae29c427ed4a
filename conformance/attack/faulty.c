/*
** Stands in for the library, to see that guard.c catches what it is for. It
** knows two files, which `tests/attack.rs` has: nothing is owed in them, their
** book has one formula, and agent 0 observes their one log row; the second has a
** duty that is expired and not done. It refuses every other file by 1, and admits
** every other book as if it had no formula. FAULT says what it does wrong: 0 for
** nothing.
*/
#include "justification.h"

/* Numbers of refusals that only an index brings. */
#define INDEX_TOO_SHORT 29
#define INDEX_NOT_AS_BUILT 30

/* The bytes of a header, which ends with the audit hour, of the book, of the log, and of an
** obligation; and the files that it knows. */
#define HEADER 38
#define KNOWN_BOOK 8
#define KNOWN_LOG 8
#define OBLIGATION 8
#define KNOWN (HEADER + KNOWN_BOOK + KNOWN_LOG)
#define WITH_DUTY (KNOWN + OBLIGATION)

/* The index of both. */
#define DUE 5
static const uint16_t due[DUE] = {1, 0, 4, 1, 0};

static const struct justification_verdict refused = {JUSTIFICATION_REFUSED,
                                                     JUSTIFICATION_FILE_LENGTH, 0};
static const struct justification_verdict none_owed = {JUSTIFICATION_NONE_OWED, 0, 0};
static const struct justification_verdict not_done = {JUSTIFICATION_REFUSED,
                                                      JUSTIFICATION_DUTY_NOT_DONE, 0};

static int is_known(size_t file_bytes)
{
    return file_bytes == KNOWN || file_bytes == WITH_DUTY;
}

/* The verdict of a check without an index. */
static struct justification_verdict plain_verdict(size_t file_bytes)
{
    if (file_bytes == WITH_DUTY) {
        return not_done;
    }
    return file_bytes == KNOWN ? none_owed : refused;
}

struct justification_verdict justification_check(const uint8_t *file, size_t file_bytes,
                                                 uint16_t *room, size_t room_entries)
{
    struct justification_verdict verdict = plain_verdict(file_bytes);
    volatile uint8_t *bytes = (volatile uint8_t *)(uintptr_t)file;
    volatile uint16_t *entries = room;
    switch (FAULT) {
    case 1: /* reads behind the file */
        (void)bytes[file_bytes];
        break;
    case 2: /* reads before the file */
        (void)*(bytes - 1);
        break;
    case 3: /* writes to the file */
        bytes[0] = 0;
        break;
    case 4: /* writes behind the room */
        entries[room_entries] = 0;
        break;
    case 5: /* writes before the room */
        *(entries - 1) = 0;
        break;
    case 6: /* reads the room */
        if (room_entries > 0) {
            (void)entries[0];
        }
        break;
    case 7: /* gives another place */
        verdict.second = 1;
        break;
    case 37: /* reads the audit hour of a file that has none */
        if (file_bytes < HEADER) {
            (void)bytes[HEADER - 1];
        }
        break;
    case 38: /* writes to the room before it knows what duties were done */
        if (file_bytes == WITH_DUTY && room_entries > 0) {
            entries[0] = 0;
        }
        break;
    case 39: /* does not look at duties where nothing is owed */
        verdict = is_known(file_bytes) ? none_owed : verdict;
        break;
    default:
        break;
    }
    return verdict;
}

struct justification_admission justification_admit(const uint8_t *file, size_t file_bytes)
{
    struct justification_admission admission = {JUSTIFICATION_FILE_LENGTH, 0};
    (void)file;
    if (is_known(file_bytes)) {
        admission.number = 0;
    }
    if (FAULT == 40 && file_bytes == WITH_DUTY) { /* 40: asks what duties were done */
        admission.number = JUSTIFICATION_DUTY_NOT_DONE;
    }
    return admission;
}

struct justification_admission formula_book_sizes(const uint8_t *book, size_t book_bytes,
                                                  uint8_t sizes[JUSTIFICATION_SIZES])
{
    struct justification_admission admission = {0, 0};
    volatile uint8_t *bytes = (volatile uint8_t *)(uintptr_t)book;
    volatile uint8_t *column = sizes;
    if (book_bytes == KNOWN_BOOK) {
        column[0] = 1;
    }
    switch (FAULT) {
    case 8: /* reads behind the book */
        (void)bytes[book_bytes];
        break;
    case 9: /* writes to the book */
        bytes[0] = 0;
        break;
    case 10: /* writes behind the column */
        column[JUSTIFICATION_SIZES] = 0;
        break;
    case 11: /* writes before the column */
        *(column - 1) = 0;
        break;
    case 12: /* changes a byte that is the size of no formula */
        column[JUSTIFICATION_SIZES - 1] = 0;
        break;
    case 13: /* gives another place */
        admission.place = 1;
        break;
    default:
        break;
    }
    return admission;
}

/* Whether the entries begin with the index of the files that it knows. */
static int is_as_built(const uint16_t *index, size_t index_entries)
{
    size_t looked_at = FAULT == 32 ? DUE - 1 : DUE; /* 32: does not look at the last entry */
    size_t i;
    if (FAULT == 33 && index_entries < looked_at) { /* 33: takes an index that is cut */
        looked_at = index_entries;
    }
    if (index_entries < looked_at || (FAULT == 34 && index_entries > DUE)) {
        return 0; /* 34: refuses an index that has entries behind it */
    }
    for (i = 0; i < looked_at; i++) {
        if (index[i] != due[i]) {
            return 0;
        }
    }
    return 1;
}

struct justification_verdict justification_index(const uint8_t *file, size_t file_bytes,
                                                 uint16_t *index, size_t index_entries)
{
    struct justification_verdict built = {JUSTIFICATION_PASSED, DUE, 0};
    struct justification_verdict too_short = {JUSTIFICATION_REFUSED, INDEX_TOO_SHORT, DUE};
    volatile uint8_t *bytes = (volatile uint8_t *)(uintptr_t)file;
    volatile uint16_t *entries = index;
    size_t written = is_known(file_bytes) && index_entries >= DUE ? DUE : 0;
    size_t i;
    switch (FAULT) {
    case 14: /* reads behind the file */
        (void)bytes[file_bytes];
        break;
    case 15: /* writes to the file */
        bytes[0] = 0;
        break;
    case 16: /* writes behind the index room */
        entries[index_entries] = 0;
        break;
    case 17: /* writes before the index room */
        *(entries - 1) = 0;
        break;
    case 18: /* writes an entry of a file that is refused */
        written = !is_known(file_bytes) && index_entries > 0 ? 1 : written;
        break;
    case 19: /* writes entries before it knows that they are too few */
        written = is_known(file_bytes) && index_entries < DUE ? index_entries : written;
        break;
    case 20: /* writes an entry behind the index */
        if (written == DUE && index_entries > DUE) {
            entries[DUE] = 0;
        }
        break;
    case 21: /* reads an entry behind the index */
        if (written == DUE && index_entries > DUE) {
            (void)entries[DUE];
        }
        break;
    case 22: /* tells the entries that are there, and not those needed */
        too_short.second = (uint16_t)index_entries;
        break;
    case 23: /* tells the entries of the room, and not those written */
        built.first = (uint16_t)index_entries;
        break;
    case 24: /* leaves the last entry out */
        written = written == DUE ? DUE - 1 : written;
        break;
    default:
        break;
    }
    for (i = 0; i < written; i++) {
        entries[i] = due[i];
    }
    if (!is_known(file_bytes)) {
        return refused;
    }
    return index_entries >= DUE ? built : too_short;
}

struct justification_verdict justification_check_indexed(const uint8_t *file, size_t file_bytes,
                                                         const uint16_t *index,
                                                         size_t index_entries, uint16_t *room,
                                                         size_t room_entries)
{
    struct justification_verdict not_as_built = {JUSTIFICATION_REFUSED, INDEX_NOT_AS_BUILT, 0};
    volatile uint8_t *bytes = (volatile uint8_t *)(uintptr_t)file;
    volatile uint16_t *lent = (volatile uint16_t *)(uintptr_t)index;
    volatile uint16_t *entries = room;
    int as_built = is_as_built(index, index_entries);
    switch (FAULT) {
    case 25: /* reads behind the file */
        (void)bytes[file_bytes];
        break;
    case 26: /* writes to the file */
        bytes[0] = 0;
        break;
    case 27: /* writes to the index */
        if (index_entries > 0) {
            lent[0] = 0;
        }
        break;
    case 28: /* reads an entry behind the index */
        if (as_built) {
            (void)lent[DUE];
        }
        break;
    case 29: /* reads before the index */
        (void)*(lent - 1);
        break;
    case 30: /* writes behind the room */
        entries[room_entries] = 0;
        break;
    case 31: /* writes to the room where the index is not as built */
        if (!as_built && room_entries > 0) {
            entries[0] = 0;
        }
        break;
    case 35: /* gives another place */
        not_as_built.second = 1;
        break;
    case 36: /* looks at the index before the file */
        if (!as_built) {
            return not_as_built;
        }
        break;
    case 41: /* writes to the room before it knows what duties were done */
        if (as_built && file_bytes == WITH_DUTY && room_entries > 0) {
            entries[0] = 0;
        }
        break;
    case 42: /* asks what duties were done before it looks at the index */
        if (file_bytes == WITH_DUTY) {
            return not_done;
        }
        break;
    default:
        break;
    }
    return is_known(file_bytes) && !as_built ? not_as_built : plain_verdict(file_bytes);
}
