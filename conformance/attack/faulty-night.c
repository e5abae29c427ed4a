/*
** Stands in for the library, to see that guard-night.c catches what it is for. It
** knows three files by their lengths, which `tests/attack.rs` has: Grant, which
** passes and lists one entry, Twice with a second obligation, which passes and
** lists three, and Creator, which owes nothing. It refuses every other file by 1.
** FAULT says what it does wrong: 0 for nothing.
*/
#include "justification.h"

#define PAIR 8

#define GRANT 108
#define CREATOR 86
#define TWICE 214

/* What Twice lists, and of which Grant lists the first. */
static const uint16_t listed[3] = {0, 1, 0};

/* What is lent. */
struct night {
    volatile uint8_t *files;
    uint64_t files_bytes;
    volatile uint8_t *list;
    size_t list_bytes;
    volatile struct justification_verdict *verdicts;
    volatile uint16_t *room;
    size_t room_entries;
};

/* ---- Faults of every call ---- */

static void touch(const struct night *night)
{
    switch (FAULT) {
    case 1: /* reads behind the files */
        (void)night->files[night->files_bytes];
        break;
    case 2: /* reads before the files */
        (void)*(night->files - 1);
        break;
    case 3: /* writes to the files */
        night->files[0] = 0;
        break;
    case 4: /* reads behind the list */
        (void)night->list[night->list_bytes];
        break;
    case 5: /* reads before the list */
        (void)*(night->list - 1);
        break;
    case 6: /* writes to the list */
        night->list[0] = 0;
        break;
    case 7: /* writes behind the table */
        night->verdicts[JUSTIFICATION_NIGHT].kind = 0;
        break;
    case 8: /* writes before the table */
        (night->verdicts - 1)->second = 0;
        break;
    case 9: /* writes behind the room */
        night->room[night->room_entries] = 0;
        break;
    case 10: /* writes before the room */
        *(night->room - 1) = 0;
        break;
    default:
        break;
    }
}

/* ---- The list ---- */

static uint64_t number_at(const struct night *night, size_t at)
{
    size_t bytes = FAULT == 11 ? 2 : 4; /* 11: reads half of each number */
    uint64_t number = 0;
    while (bytes-- > 0) {
        number = number << 8 | night->list[at + bytes];
    }
    return number;
}

static uint64_t offset_of(const struct night *night, size_t place)
{
    return number_at(night, PAIR * place);
}

static uint64_t bytes_of(const struct night *night, size_t place)
{
    return number_at(night, PAIR * place + 4);
}

static uint64_t end_of(const struct night *night, size_t place)
{
    uint64_t end = offset_of(night, place) + bytes_of(night, place);
    return FAULT == 12 ? (uint32_t)end : end; /* 12: takes sums in 32 bits */
}

/* The end of the pair before this one. */
static uint64_t last_end(const struct night *night, size_t place)
{
    while (FAULT == 13 && place > 0 && bytes_of(night, place - 1) == 0) {
        place--; /* 13: passes over empty files */
    }
    return place == 0 ? 0 : end_of(night, place - 1);
}

static size_t pairs_of(const struct night *night)
{
    size_t cut = FAULT == 14 ? 0 : PAIR - 1; /* 14: passes over a pair that is cut short */
    return (night->list_bytes + cut) / PAIR;
}

static int is_bad(const struct night *night, size_t place)
{
    uint64_t offset, end, last;
    if (place >= JUSTIFICATION_NIGHT + (FAULT == 15) - (FAULT == 16)) {
        return 1; /* 15: takes the 65th; 16: refuses the 64th */
    }
    if (night->list_bytes - PAIR * place < PAIR) {
        return 1;
    }
    offset = offset_of(night, place);
    end = end_of(night, place);
    last = last_end(night, place);
    switch (FAULT) {
    case 17: /* refuses a pair that adjoins the last one */
        return end > night->files_bytes || offset < last || (place > 0 && offset == last);
    case 18: /* refuses a pair that does not adjoin the last one */
        return end > night->files_bytes || offset != last;
    case 19: /* takes a pair that begins before the last one's end */
        return end > night->files_bytes;
    case 20: /* takes a pair that ends beyond the files */
        return offset > night->files_bytes || offset < last;
    case 21: /* refuses a pair that ends with the files */
        return end >= night->files_bytes || offset < last;
    case 22: /* refuses an empty file */
        return end > night->files_bytes || offset < last || offset == end;
    default:
        return end > night->files_bytes || offset < last;
    }
}

/* The lowest bad pair, or the number of pairs. */
static size_t first_bad(const struct night *night)
{
    size_t pairs = pairs_of(night), bad = pairs, place;
    for (place = pairs; place-- > 0;) {
        if (is_bad(night, place) && (FAULT != 23 || bad == pairs)) {
            bad = place; /* 23: tells the highest */
        }
    }
    return bad;
}

/* ---- Faults where 33 comes ---- */

static void touch_refused(const struct night *night, size_t bad)
{
    size_t place;
    switch (FAULT) {
    case 24: /* reads the files */
        (void)night->files[0];
        break;
    case 25: /* reads the table */
        (void)night->verdicts[0].kind;
        break;
    case 26: /* reads the room */
        (void)night->room[0];
        break;
    case 27: /* tells the verdicts of the files before the bad pair */
        for (place = 0; place < bad && place < JUSTIFICATION_NIGHT; place++) {
            night->verdicts[place].kind = JUSTIFICATION_NONE_OWED;
        }
        break;
    case 28: /* writes to the room */
        if (night->room_entries > 0) {
            night->room[0] = 0;
        }
        break;
    default:
        break;
    }
}

/* ---- Faults where the files are checked ---- */

static void touch_file(const struct night *night, size_t place)
{
    volatile uint8_t *file = night->files + offset_of(night, place);
    uint64_t bytes = bytes_of(night, place);
    switch (FAULT) {
    case 29: /* reads a byte before a file */
        if (bytes > 0) {
            (void)*(file - 1);
        }
        break;
    case 30: /* reads a byte behind a file */
        if (bytes > 0) {
            (void)file[bytes];
        }
        break;
    case 31: /* reads a file that its length refuses */
        if (bytes > 0 && bytes < CREATOR) {
            (void)file[0];
        }
        break;
    default:
        break;
    }
}

/* So many files were checked, and so many entries written. */
static void touch_checked(const struct night *night, size_t files, size_t written)
{
    switch (FAULT) {
    case 32: /* tells a verdict behind the last file */
        if (files < JUSTIFICATION_NIGHT) {
            night->verdicts[files].kind = 0;
        }
        break;
    case 33: /* reads a verdict behind the last file */
        if (files < JUSTIFICATION_NIGHT) {
            (void)night->verdicts[files].kind;
        }
        break;
    case 34: /* writes an entry behind the last pass */
        if (written < night->room_entries) {
            night->room[written] = 0;
        }
        break;
    case 35: /* reads an entry behind the last pass */
        if (written < night->room_entries) {
            (void)night->room[written];
        }
        break;
    case 36: /* reads the room where no file passes */
        if (written == 0 && night->room_entries > 0) {
            (void)night->room[0];
        }
        break;
    default:
        break;
    }
}

/* ---- The files ---- */

static size_t needed_by(uint64_t bytes)
{
    if (bytes == TWICE) {
        return 3;
    }
    return bytes == GRANT ? 1 : 0;
}

/* The verdict on a file alone, with so many entries left, and so many written before. */
static struct justification_verdict plain_verdict(uint64_t bytes, size_t left, size_t written)
{
    struct justification_verdict verdict = {JUSTIFICATION_REFUSED, JUSTIFICATION_FILE_LENGTH, 0};
    size_t needed = needed_by(bytes);
    if (needed > left) {
        verdict.first = JUSTIFICATION_ROOM_TOO_SHORT;
        verdict.second = (uint16_t)needed;
        if (FAULT == 37) { /* 37: counts what was written before, too */
            verdict.second = (uint16_t)(needed + written);
        }
    } else if (needed > 0) {
        verdict.kind = JUSTIFICATION_PASSED;
        verdict.first = (uint16_t)(needed - 1);
        verdict.second = 1;
    } else if (bytes == CREATOR) {
        verdict.kind = JUSTIFICATION_NONE_OWED;
        verdict.first = 0;
    }
    return verdict;
}

/* Where the room of the next file begins, after this verdict on a file. */
static size_t next_room(const struct night *night, size_t written, uint64_t bytes,
                        struct justification_verdict verdict)
{
    int passed = verdict.kind == JUSTIFICATION_PASSED;
    int too_short = verdict.first == JUSTIFICATION_ROOM_TOO_SHORT;
    if (FAULT == 38 && passed) { /* 38: one entry late */
        written++;
    }
    if (FAULT == 39) { /* 39: from the start of the room */
        return 0;
    }
    if (FAULT == 40 && too_short) { /* 40: a file that does not fit uses the room up */
        return night->room_entries;
    }
    return passed ? written + needed_by(bytes) : written;
}

/* Whether no file is checked behind this verdict. */
static int stops(struct justification_verdict verdict)
{
    int refused = verdict.kind == JUSTIFICATION_REFUSED;
    switch (FAULT) {
    case 41: /* a refused file stops the others */
        return refused;
    case 42: /* a file that does not fit stops the others */
        return refused && verdict.first == JUSTIFICATION_ROOM_TOO_SHORT;
    case 43: /* a file that owes nothing stops the others */
        return verdict.kind == JUSTIFICATION_NONE_OWED;
    default:
        return 0;
    }
}

/* Lists what this file cites from here on, if it passes. */
static void list_entries(const struct night *night, size_t written, uint64_t bytes,
                         struct justification_verdict verdict)
{
    size_t entries = verdict.kind == JUSTIFICATION_PASSED ? needed_by(bytes) : 0;
    size_t left = written < night->room_entries ? night->room_entries - written : 0;
    size_t i;
    if (FAULT == 44 && needed_by(bytes) > left) { /* 44: lists what fits of a pass that does not */
        entries = left;
    }
    if (FAULT == 45 && needed_by(bytes) == 0 && left > 0) { /* 45: lists an entry of any file */
        entries = 1;
    }
    for (i = 0; i < entries; i++) {
        night->room[written + i] = listed[i];
    }
}

/* Checks a file with the room from here on. Gives where the room of the next one begins. */
static size_t check_file(const struct night *night, size_t place, size_t written,
                         struct justification_verdict *verdict)
{
    uint64_t bytes = bytes_of(night, place);
    size_t left = written < night->room_entries ? night->room_entries - written : 0;
    if (FAULT == 46) { /* 46: takes the whole room for what is left */
        left = night->room_entries;
    }
    touch_file(night, place);
    *verdict = plain_verdict(bytes, left, written);
    list_entries(night, written, bytes, *verdict);
    return next_room(night, written, bytes, *verdict);
}

/* Checks the files. Gives how many there are. */
static size_t check_files(const struct night *night)
{
    static size_t kept;
    size_t files = pairs_of(night), passes = 0, place;
    size_t written = FAULT == 47 ? kept : 0; /* 47: goes on where the last night stopped */
    for (place = 0; place < files; place++) {
        struct justification_verdict verdict;
        size_t row = FAULT == 48 ? files - 1 - place : place; /* 48: tells the last one first */
        written = check_file(night, place, written, &verdict);
        if (FAULT == 49 && verdict.kind == JUSTIFICATION_NONE_OWED) {
            continue; /* 49: tells no verdict of a file that owes nothing */
        }
        night->verdicts[row].kind = verdict.kind;
        night->verdicts[row].first = verdict.first;
        night->verdicts[row].second = verdict.second;
        passes += verdict.kind == JUSTIFICATION_PASSED;
        if (stops(verdict)) {
            break;
        }
    }
    kept = written;
    touch_checked(night, files, written);
    return FAULT == 50 ? passes : files; /* 50: counts the files that pass */
}

struct justification_verdict
justification_night(const uint8_t *files, size_t files_bytes, const uint8_t *list,
                    size_t list_bytes,
                    struct justification_verdict verdicts[JUSTIFICATION_NIGHT], uint16_t *room,
                    size_t room_entries)
{
    struct justification_verdict answer = {JUSTIFICATION_CHECKED, 0, 0};
    struct night night;
    size_t bad;
    night.files = (volatile uint8_t *)(uintptr_t)files;
    night.files_bytes = files_bytes;
    night.list = (volatile uint8_t *)(uintptr_t)list;
    night.list_bytes = list_bytes;
    night.verdicts = verdicts;
    night.room = room;
    night.room_entries = room_entries;
    touch(&night);
    bad = first_bad(&night);
    if (bad == pairs_of(&night)) {
        answer.first = (uint16_t)check_files(&night);
        answer.second = FAULT == 51 ? 1 : 0; /* 51: tells more than the number of files */
    } else {
        touch_refused(&night, bad);
        answer.kind = JUSTIFICATION_REFUSED;
        answer.first = JUSTIFICATION_BAD_PAIR;
        answer.second = (uint16_t)(FAULT == 52 ? bad + 1 : bad); /* 52: counts pairs from 1 */
    }
    return answer;
}
