/*
** The desk console: checks one case file and says the verdict in words, also
** through an index by observer; checks many files, up to 64 in one call, with a
** line for each; and writes the index of a file's log.
**
** usage: console [FILE]                  without FILE it reads standard input
**        console FILE FILE...            a line for each file, and a count
**        console --night LIST [FILES]    the same for files that lie in one
**        console --index [FILE]          writes the index to standard output
**        console --through INDEX [FILE]  checks through the index in that file
** exit status: 0 passed, 1 none owed, 2 refused, 3 usage, reading or writing;
** of many files the highest
**
** A file of many that cannot be read is told on standard error, and the others
** are checked. LIST has the offset and the length of each file in FILES, as
** justification.h tells it; where 33 refuses it, no file is checked.
**
** An index is 16-bit numbers, low byte first. The status is 0 where it is
** written; where it is refused, the words go to standard error and nothing to
** standard output. Of INDEX no more is read than an index can have, and half a
** number there is trouble. The index is the desk's and not the agent's: it
** shows rows that the agent does not see. No file's name may begin with "--".
*/
#include "justification.h"

#include <stdio.h>
#include <stdlib.h>
#include <string.h>

enum { EXIT_TROUBLE = 3 };

/* One byte more than a file may have is enough to have it refused. */
enum { MOST_READ = JUSTIFICATION_LARGEST_FILE + 1 };

/* The bytes of the longest index. */
enum { INDEX_BYTES = 2 * JUSTIFICATION_INDEX };

/* The bytes of a pair of a night's list, and one of a 65th, to be refused. */
enum { PAIR_BYTES = 8, LIST_BYTES = PAIR_BYTES * JUSTIFICATION_NIGHT + 1 };

/* Where the header has the offset of the steps, and the bytes of a step. */
enum { STEPS_OFFSET = 28, STEP_BYTES = 10 };

/* More than any number of a file. */
enum { NO_NUMBER = 65536 };

/* The parts of a file, by place. */
static const char *const parts[] = {"formulas",   "log rows",    "observers",
                                    "conditions", "obligations", "labels",
                                    "steps",      "premises"};

/* A refusal in words: what its place counts, and what is wrong. */
struct refusal {
    const char *counts;
    const char *meaning;
};

/* By number. */
static const struct refusal refusals[] = {
    [JUSTIFICATION_NO_REFUSAL] = {"", "No such refusal."},
#define REFUSAL(number, name, counts, meaning) [number] = {counts, meaning},
    JUSTIFICATION_REFUSALS(REFUSAL)
#undef REFUSAL
};

/* A refusal of a step in words, by the rule of the step. */
struct step_fault {
    unsigned number;
    unsigned rule;
    const char *meaning;
};

static const struct step_fault step_faults[] = {
#define STEP_FAULT(number, rule, meaning) {number, rule, meaning},
    JUSTIFICATION_STEP_FAULTS(STEP_FAULT)
#undef STEP_FAULT
};

/*
** How the console is called. A name that is not given is NULL; files are the
** names from the first on, and a NULL behind them.
*/
struct call {
    int builds_index;
    const char *index;
    const char *list;
    char **files;
};

/* Files for one call, end to end, with the list of where they are. */
struct night {
    uint8_t files[JUSTIFICATION_NIGHT * MOST_READ];
    uint8_t list[LIST_BYTES];
    const char *names[JUSTIFICATION_NIGHT];
    size_t bytes;
    size_t count;
};

/* How many files have a verdict of each kind, and how many cannot be read. */
struct tally {
    unsigned long kinds[JUSTIFICATION_REFUSED + 1];
    unsigned long unread;
};

/* Takes the next argument if it is this option. */
static int take_option(char ***arguments, const char *option)
{
    if (**arguments == NULL || strcmp(**arguments, option) != 0)
        return 0;
    (*arguments)++;
    return 1;
}

/* Takes the next argument if it is a file's name; NULL if it is none. */
static const char *take_name(char ***arguments)
{
    if (**arguments == NULL || strncmp(**arguments, "--", 2) == 0)
        return NULL;
    return *(*arguments)++;
}

/* Takes all arguments; 0 if they are not as the usage says. */
static int take_call(char **arguments, struct call *call)
{
    int through, night, names = 0;

    call->builds_index = take_option(&arguments, "--index");
    through = !call->builds_index && take_option(&arguments, "--through");
    night = !call->builds_index && !through &&
            take_option(&arguments, "--night");
    call->index = through ? take_name(&arguments) : NULL;
    call->list = night ? take_name(&arguments) : NULL;
    call->files = arguments;
    while (take_name(&arguments) != NULL)
        names++;
    return *arguments == NULL && (call->index != NULL || !through) &&
           (call->list != NULL || !night) &&
           (names < 2 || !(call->builds_index || through || night));
}

/* Reads what is left of the stream, up to so many bytes; -1 if it cannot. */
static long read_stream(FILE *stream, uint8_t *bytes, size_t most)
{
    size_t count;

    /* Without a buffer the stream takes no byte that is not asked for. */
    setvbuf(stream, NULL, _IONBF, 0);
    count = fread(bytes, 1, most, stream);
    return ferror(stream) ? -1 : (long)count;
}

/* Reads the file of this name, or standard input; complains if it cannot. */
static long read_file(const char *name, uint8_t *bytes, size_t most)
{
    FILE *stream = name == NULL ? stdin : fopen(name, "rb");
    long count = stream == NULL ? -1 : read_stream(stream, bytes, most);

    if (count < 0)
        perror(name == NULL ? "standard input" : name);
    if (stream != NULL && stream != stdin)
        fclose(stream);
    return count;
}

/*
** Reads all of the file of this name, or of standard input, to memory of its
** own; NULL and a complaint if it cannot.
*/
static uint8_t *read_all(const char *name, size_t *bytes)
{
    FILE *stream = name == NULL ? stdin : fopen(name, "rb");
    size_t room = MOST_READ;
    uint8_t *all = stream == NULL ? NULL : malloc(room), *longer = all;

    *bytes = 0;
    while (longer != NULL) {
        all = longer;
        *bytes += fread(all + *bytes, 1, room - *bytes, stream);
        if (*bytes < room)
            break;
        room *= 2;
        longer = realloc(all, room);
    }
    if (longer == NULL || ferror(stream)) {
        perror(name == NULL ? "standard input" : name);
        free(all);
        all = NULL;
    }
    if (stream != NULL && stream != stdin)
        fclose(stream);
    return all;
}

/* The file's number at this byte; NO_NUMBER where the file has no two bytes. */
static unsigned number_at(const uint8_t *file, size_t bytes, size_t at)
{
    if (at >= bytes || bytes - at < 2)
        return NO_NUMBER;
    return file[at] | (unsigned)file[at + 1] << 8;
}

/* Reads an index and tells its entries; -1 and a complaint if it cannot. */
static long read_index(const char *name, uint16_t *index)
{
    static uint8_t bytes[INDEX_BYTES];
    long count = read_file(name, bytes, INDEX_BYTES), entry;

    if (count < 0)
        return -1;
    if (count % 2 != 0) {
        fprintf(stderr, "%s: no index, the last number has one byte\n", name);
        return -1;
    }
    for (entry = 0; entry < count / 2; entry++)
        index[entry] =
            (uint16_t)number_at(bytes, (size_t)count, 2 * (size_t)entry);
    return count / 2;
}

/* Writes the entries, low byte first. */
static void write_index(const uint16_t *index, size_t entries)
{
    size_t entry;

    for (entry = 0; entry < entries; entry++) {
        putchar(index[entry] & 0xFF);
        putchar(index[entry] >> 8);
    }
}

static void print_passed(struct justification_verdict verdict,
                         const uint16_t *room)
{
    unsigned obligations = verdict.first, rows = verdict.second, entry;

    printf("passed %u %u\n", obligations, rows);
    puts("The justification proves what is owed.");
    for (entry = 0; entry < obligations; entry++)
        printf("Obligation %u is discharged.\n", (unsigned)room[entry]);
    for (entry = obligations; entry < obligations + rows; entry++)
        printf("Log row %u is cited.\n", (unsigned)room[entry]);
}

/* The rule of a step; NO_NUMBER where the file has no such step. */
static unsigned rule_of(const uint8_t *file, size_t bytes, unsigned step)
{
    size_t steps = number_at(file, bytes, STEPS_OFFSET);

    return number_at(file, bytes, steps + (size_t)STEP_BYTES * step);
}

static const struct refusal *refusal_of(unsigned number)
{
    const size_t known = sizeof refusals / sizeof refusals[0];

    return &refusals[number < known ? number : JUSTIFICATION_NO_REFUSAL];
}

/*
** What is wrong, by the rule of the step where the refusal tells it so. Only
** then is the place taken for a step.
*/
static const char *meaning_of(unsigned number, unsigned place,
                              const uint8_t *file, size_t bytes)
{
    const size_t known = sizeof step_faults / sizeof step_faults[0];
    size_t entry;

    for (entry = 0; entry < known; entry++)
        if (step_faults[entry].number == number &&
            step_faults[entry].rule == rule_of(file, bytes, place))
            return step_faults[entry].meaning;
    return refusal_of(number)->meaning;
}

/* What is wrong, and where. */
static void print_fault(FILE *out, unsigned number, unsigned place,
                        const uint8_t *file, size_t bytes)
{
    const char *counts = refusal_of(number)->counts;
    int has_place = counts[0] != '\0';

    if (has_place)
        fprintf(out, "%s %u", counts, place);
    if (number == JUSTIFICATION_FAULTY_PART && place < 8)
        fprintf(out, " (%s)", parts[place]);
    fprintf(out, "%s%s\n", has_place ? ": " : "",
            meaning_of(number, place, file, bytes));
}

static void print_refused(FILE *out, unsigned number, unsigned place,
                          const uint8_t *file, size_t bytes)
{
    fprintf(out, "refused %u %u\n", number, place);
    print_fault(out, number, place, file, bytes);
}

static void print_verdict(struct justification_verdict verdict,
                          const uint16_t *room, const uint8_t *file,
                          size_t bytes)
{
    switch (verdict.kind) {
    case JUSTIFICATION_PASSED:
        print_passed(verdict, room);
        break;
    case JUSTIFICATION_NONE_OWED:
        puts("none owed");
        puts("This action asks nothing of this agent.");
        break;
    default:
        print_refused(stdout, verdict.first, verdict.second, file, bytes);
    }
}

/* The verdict in one line, without the entries of the room. */
static void print_line(struct justification_verdict verdict,
                       const uint8_t *file, size_t bytes)
{
    unsigned first = verdict.first, second = verdict.second;

    switch (verdict.kind) {
    case JUSTIFICATION_PASSED:
        printf("passed %u %u\n", first, second);
        break;
    case JUSTIFICATION_NONE_OWED:
        puts("none owed");
        break;
    default:
        printf("refused %u %u: ", first, second);
        print_fault(stdout, first, second, file, bytes);
    }
}

/* The 32-bit number at this byte of a list. */
static uint32_t long_at(const uint8_t *list, size_t at)
{
    return (uint32_t)list[at] | (uint32_t)list[at + 1] << 8 |
           (uint32_t)list[at + 2] << 16 | (uint32_t)list[at + 3] << 24;
}

static void put_long(uint8_t *list, size_t at, size_t number)
{
    int byte;

    for (byte = 0; byte < 4; byte++)
        list[at + (size_t)byte] = (uint8_t)(number >> 8 * byte);
}

/*
** Checks a night's files, and prints a line for each, by its name or else by
** its number. Where the list is refused, it says so, and gives that answer.
*/
static struct justification_verdict
tell_files(const uint8_t *files, size_t bytes, const uint8_t *list,
           size_t list_bytes, const char *const *names, struct tally *tally)
{
    static uint16_t room[JUSTIFICATION_NIGHT_ROOM];
    struct justification_verdict verdicts[JUSTIFICATION_NIGHT], answer;
    size_t pair;

    answer = justification_night(files, bytes, list, list_bytes, verdicts, room,
                                 JUSTIFICATION_NIGHT_ROOM);
    if (answer.kind != JUSTIFICATION_CHECKED) {
        print_refused(stdout, answer.first, answer.second, files, bytes);
        return answer;
    }
    for (pair = 0; pair < answer.first; pair++) {
        if (names != NULL)
            printf("%s: ", names[pair]);
        else
            printf("file %lu: ", (unsigned long)pair);
        print_line(verdicts[pair], files + long_at(list, PAIR_BYTES * pair),
                   long_at(list, PAIR_BYTES * pair + 4));
        tally->kinds[verdicts[pair].kind]++;
    }
    return answer;
}

/* The counts, in the last line; gives the exit status, that of the worst. */
static int tell_counts(const struct tally *tally)
{
    printf("%lu passed, %lu none owed, %lu refused",
           tally->kinds[JUSTIFICATION_PASSED],
           tally->kinds[JUSTIFICATION_NONE_OWED],
           tally->kinds[JUSTIFICATION_REFUSED]);
    if (tally->unread != 0)
        printf(", %lu not read", tally->unread);
    puts("");
    if (tally->unread != 0)
        return EXIT_TROUBLE;
    if (tally->kinds[JUSTIFICATION_REFUSED] != 0)
        return JUSTIFICATION_REFUSED;
    return tally->kinds[JUSTIFICATION_NONE_OWED] != 0;
}

/* Puts the file of this name behind those that are there; 0 if it cannot. */
static int add_file(struct night *night, const char *name)
{
    uint8_t *place = night->files + night->bytes;
    long bytes = read_file(name, place, MOST_READ);
    size_t pair = PAIR_BYTES * night->count;

    if (bytes < 0)
        return 0;
    put_long(night->list, pair, night->bytes);
    put_long(night->list, pair + 4, (size_t)bytes);
    night->names[night->count++] = name;
    night->bytes += (size_t)bytes;
    return 1;
}

/* Checks many files, as many in a call as there may be. */
static int tell_many(char **names)
{
    static struct night night;
    struct tally tally = {{0, 0, 0}, 0};

    while (*names != NULL) {
        night.bytes = night.count = 0;
        while (*names != NULL && night.count < JUSTIFICATION_NIGHT)
            tally.unread += !add_file(&night, *names++);
        tell_files(night.files, night.bytes, night.list,
                   PAIR_BYTES * night.count, night.names, &tally);
    }
    return tell_counts(&tally);
}

/* Checks the files that lie in one, where the list says. */
static int tell_night(const char *list_name, const char *name)
{
    static uint8_t list[LIST_BYTES];
    struct tally tally = {{0, 0, 0}, 0};
    long list_bytes = read_file(list_name, list, LIST_BYTES);
    size_t bytes;
    uint8_t *files = list_bytes < 0 ? NULL : read_all(name, &bytes);
    struct justification_verdict answer;

    if (files == NULL)
        return EXIT_TROUBLE;
    answer = tell_files(files, bytes, list, (size_t)list_bytes, NULL, &tally);
    free(files);
    return answer.kind == JUSTIFICATION_CHECKED ? tell_counts(&tally)
                                                : answer.kind;
}

/* Checks the file, through an index if one is named; gives the exit status. */
static int tell_verdict(const char *index_name, const uint8_t *file,
                        size_t bytes)
{
    static uint16_t index[JUSTIFICATION_INDEX], room[JUSTIFICATION_ROOM];
    struct justification_verdict verdict;
    long entries;

    if (index_name == NULL) {
        verdict = justification_check(file, bytes, room, JUSTIFICATION_ROOM);
    } else {
        entries = read_index(index_name, index);
        if (entries < 0)
            return EXIT_TROUBLE;
        verdict = justification_check_indexed(
            file, bytes, index, (size_t)entries, room, JUSTIFICATION_ROOM);
    }
    print_verdict(verdict, room, file, bytes);
    return verdict.kind;
}

/* Writes the index of the file's log; gives the exit status. */
static int tell_index(const uint8_t *file, size_t bytes)
{
    static uint16_t index[JUSTIFICATION_INDEX];
    struct justification_verdict answer =
        justification_index(file, bytes, index, JUSTIFICATION_INDEX);

    if (answer.kind == JUSTIFICATION_BUILT)
        write_index(index, answer.first);
    else
        print_refused(stderr, answer.first, answer.second, file, bytes);
    return answer.kind;
}

/* Checks or indexes one file; gives the exit status. */
static int tell_one(const struct call *call)
{
    static uint8_t file[MOST_READ];
    long bytes = read_file(call->files[0], file, MOST_READ);

    if (bytes < 0)
        return EXIT_TROUBLE;
    return call->builds_index ? tell_index(file, (size_t)bytes)
                              : tell_verdict(call->index, file, (size_t)bytes);
}

int main(int argc, char **argv)
{
    struct call call;
    int status;

    if (!take_call(argv + (argc > 0), &call)) {
        fprintf(stderr,
                "usage: %s [--index | --through INDEX | --night LIST] [FILE]\n"
                "       %s FILE FILE...\n",
                argv[0], argv[0]);
        return EXIT_TROUBLE;
    }
    if (call.list != NULL)
        status = tell_night(call.list, call.files[0]);
    else if (call.files[0] != NULL && call.files[1] != NULL)
        status = tell_many(call.files);
    else
        status = tell_one(&call);
    if (fflush(stdout) != 0 || ferror(stdout)) {
        perror("standard output");
        return EXIT_TROUBLE;
    }
    return status;
}
