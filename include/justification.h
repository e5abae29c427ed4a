/*
** justification.h: check one justification for an audit log, or a night's
** cases in one call. This is the interface for C and its manual.
**
** An agent has acted. The case file holds the grounds: the audited action, the
** shared log, readings that were certified, obligations with the hour by which
** each is due, and the steps of a justification. justification_check tells
** whether the steps prove what the agent owes for the action, and whether the
** obligations due before the audit hour were carried out; and if not, which
** check fails first and where.
**
** Link with libjustification.a. The verdict and every entry of the room are
** proved to be what the rules give, for every file, damaged ones too, and every
** room. What C has to keep is said at "What the caller keeps".
**
**     uint16_t room[JUSTIFICATION_ROOM];
**     struct justification_verdict v =
**         justification_check(file, file_bytes, room, JUSTIFICATION_ROOM);
**     if (v.kind == JUSTIFICATION_PASSED) {
**         first v.first entries of room: obligations; next v.second: log rows
**     }
*/
#ifndef JUSTIFICATION_H
#define JUSTIFICATION_H

#include <stddef.h>
#include <stdint.h>

#ifdef __cplusplus
extern "C" {
#endif

/*
** Limits.
**
** A file has at most 47,910 bytes; a longer one is refused by 1, so a caller
** never needs to read more than one byte beyond. A pass never writes more than
** 1,088 entries (64 obligations and 1,024 rows): a room of that many is always
** long enough. A shorter one will do if fewer are cited; see refusal 23.
*/
#define JUSTIFICATION_LARGEST_FILE 47910
#define JUSTIFICATION_ROOM 1088

/* The most entries of an index by observer; see justification_index. */
#define JUSTIFICATION_INDEX 16385

/*
** The most files of a night, and the entries of a room that is always long
** enough for them; see justification_night.
*/
#define JUSTIFICATION_NIGHT 64
#define JUSTIFICATION_NIGHT_ROOM 69632

/*
** A verdict: kind, and two values whose meaning depends on it.
**
** kind 0, passed. The justification proves what is owed. first is the number
**     of obligations it discharges, second the number of log rows it cites.
**     The room's first entries hold the obligations, the entries after them
**     the rows: ascending, each once, numbered from 0 as in the file. For the
**     desk: the action was allowed. The duties listed are used up or relied
**     on, and the rows listed are what the agent's right rests on.
** kind 1, none owed. This action asks no proof of this agent, the file claims
**     none, and no duty is overdue. first and second are 0. For the desk:
**     nothing to do.
** kind 2, refused. first is the number of the first check that fails, second
**     its place; both are told below. For the desk: the action is not
**     justified by this file. It may be by another.
*/
struct justification_verdict {
    uint16_t kind;
    uint16_t first;
    uint16_t second;
};

#define JUSTIFICATION_PASSED 0
#define JUSTIFICATION_NONE_OWED 1
#define JUSTIFICATION_REFUSED 2

/*
** Refusals, in the order in which the checks are made: 1 to 11 by number, the
** lowest place first, and 30 between 9 and 10; then step by step, each through
** 12 to 17, then 27, 24, 25 and 26, then 18, 19 and 28; then 20 to 22, 31, 32
** and 23. Where nothing is owed and there are no steps, 31 and 32 come directly
** before "none owed". A number is a name and tells no order. One exception:
** where a step cites a log row that is struck out, 16 is tried before 14. All
** places are counted from 0. 33 is of a night's list, before all files.
**
** A night's list. Of no function but justification_night is it ever the answer.
**
** 33  A pair of the list begins before the last one's end, ends beyond the
**     buffer, is cut short, or is the 65th. No file was checked; mend the list,
**     or check fewer files at a time. Place: the lowest such pair.
**
** The file is damaged or not a case file. Ask whoever sent it for a good one.
** A file of the layout with 36 bytes of header, as it was before duties had due
** hours, is refused by 1 or 2, and never read by the new one.
**
**  1  It has under 38 or over 47,910 bytes. Place: 0.
**  2  A part is not where it is due, has no whole number of records or too
**     many, or goes beyond the end of the file, or the last part ends before
**     it; or there are observers without log rows, or premises without steps.
**     Place: the part (0 formulas, 1 log rows, 2 observers, 3 conditions, 4
**     obligations, 5 labels, 6 steps, 7 premises).
**  3  A formula is not well made. Place: the formula's row.
**  4  A formula stands there a second time. Place: the second row.
**  5  A log row holds no action that could have happened, or its observers are
**     out of order or not its own. Place: the log row.
**  6  A condition is no reading that could be certified. Place: the condition.
**  7  An obligation has no mark 1 or 2, no action or no due hour, or names a
**     row that the log does not have. Place: the obligation.
**  8  A label's mark and formula do not go together. Place: the label.
**  9  The agent is no agent, the audited action no action, or the audit hour is
**     absent. Place: 0.
**
** The index by observer. Of justification_check neither is ever the answer.
**
** 29  justification_index only, after 5: the room is too short for the index.
**     Place: the entries needed. Call again with a room of so many.
** 30  justification_check_indexed only, after 9: what was lent does not begin
**     with the index of this file's log. The log may have grown since; build
**     the index anew, from this file. Place: 0.
**
** The file is sound, and does not fit what is owed.
**
** 10  Something is owed, and there is no justification. Ask the agent for one.
**     Place: 0.
** 11  There is a justification, and nothing is owed. Most often the wrong
**     agent or the wrong action is named. Place: 0.
**
** A step fails. Place: the step, but for 27 a formula. All steps before it are
** in order. Send it back to the agent with the place, and for 24 to 26 with the
** sentence that JUSTIFICATION_STEP_FAULTS has for the step's rule: it names what
** is wrong.
**
** 12  The step is not well made: no such rule, no closed policy, premises not
**     where they are due or not as many as the rule takes, or an argument where
**     there must be none.
** 13  A premise is no earlier step, or was used before.
** 14  What the step rests on is absent: no argument is given, no reading was
**     certified for the condition, or the log row is struck out. A reading or
**     the row may still be found.
** 15  There is no such label, condition, log row or obligation.
** 16  The agent is not among the observers of the log row. The agent cannot
**     rest on it, whatever it holds.
** 17  A duty owed at each use is used twice. A second such duty is needed.
** 27  The formula of an owner step (rule 5) has a data variable in it, one that
**     a "for all" binds. An owner grants data by name; rule 4 can lead on to a
**     formula that the grant implies. Place: not the step, but a formula's row:
**     of the step's formula and all that it is made of, actions too, the lowest
**     that itself holds a data variable. The step is the first one by rule 5
**     whose formula has this row in it.
** 24  A premise is not of the kind that the rule takes, say, no conjunction for
**     a rule that takes one apart. Most often the wrong step is named as
**     premise, two are in the wrong order, or the wrong rule is named.
** 25  A premise is about somebody else. Rule 3 takes what was said to the
**     agent, rule 4 what the agent said, rule 5 what the agent owns.
** 26  "For all" and its instance do not agree (rules 14 and 15): the body with
**     the argument put in is not what stands there. Most often the argument
**     names another object than the formula does.
** 18  The rule does not give the step's formula from its premises and its
**     argument, and the fault is none of the four above. So also where a log
**     row tells this agent nothing; where the step's own formula is by another
**     than the agent, or to another than its premise (rules 4 and 5), or is no
**     "for all" (rule 14); where the data owned are not just those of the
**     formula (rule 5); where the argument is none that rule 14 or 15 admits;
**     and where an obligation's mark or action is not the one demanded.
** 19  "For all" was concluded from something assumed of one: the parameter
**     still stands in the formula, or in what is supposed there.
** 28  A statement is refined (rule 4) by more than a tautology, so that what is
**     granted would outlive its grounds. The first premise, "F implies G", has
**     to hold whatever was logged, certified or done: neither it nor any step
**     that it rests on, by premises of premises, may cite a log row, a
**     condition or an obligation, and it leaves no label open. To find the
**     fault, go through these steps: one of rule 1, 2 or 12 cites; if there is
**     none, one of rule 0 or 13 takes a label that no step by rule 9 or 11
**     closes from there down to the first premise, this one included. The
**     second premise may rest on anything. A reading C belongs in the grant:
**     refine to "C implies G", and cite the reading where the grant is used.
**
** Every step is in order, and the whole is not.
**
** 20  A step is used by none. Place: the lowest such step, the last excepted.
** 21  Something is still only supposed at the end. Place: the lowest label
**     still open.
** 22  What is proved is not what is owed. Place: the last step.
**
** A duty was not carried out, or one deed stands for two duties. These look at
** all obligations of the file, also at those that no step cites. Place: the
** lowest such obligation.
**
** 31  The obligation was due before the audit hour, and the file does not show
**     that it was done: it names no log row, or the agent does not observe the
**     row, or the row is struck out or has another action. Due at the audit
**     hour is not yet expired. Which of these it is does not show: a row that
**     the agent does not observe counts as not done, whatever it holds. Ask
**     the agent for the row in which it was done.
** 32  An obligation owed at each use names the row that an earlier one, owed at
**     each use too, names: one deed is claimed for two uses. Expired or not, and
**     whether or not the agent observes the row. A row of its own is needed.
**
** All is in order but for the room.
**
** 23  The justification is good and the room is too short. Place: the entries
**     needed. Call again with a room of so many.
*/

/*
** The same as a list, to be used with a macro of four parameters: number, name,
** what the place counts ("" where it has none), and what is wrong in words.
** The console prints refusals by it.
*/
#define JUSTIFICATION_REFUSALS(REFUSAL)                                        \
    REFUSAL(33, BAD_PAIR, "Pair",                                              \
            "it begins before the last one's end, ends beyond the files, is "  \
            "cut short, or is the 65th.")                                      \
    REFUSAL(1, FILE_LENGTH, "", "The file has under 38 or over 47,910 bytes.") \
    REFUSAL(2, FAULTY_PART, "Part",                                            \
            "it is not where it is due, or its length is not right.")          \
    REFUSAL(3, BAD_FORMULA, "Formula", "it is not well made.")                 \
    REFUSAL(4, REPEATED_FORMULA, "Formula",                                    \
            "it stands in the book a second time.")                            \
    REFUSAL(5, BAD_LOG_ROW, "Log row",                                         \
            "its action or its observers are not well made.")                  \
    REFUSAL(6, BAD_CONDITION, "Condition",                                     \
            "it is no reading that could be certified.")                       \
    REFUSAL(7, BAD_OBLIGATION, "Obligation",                                   \
            "its mark, its action, its due hour or its row is not well made.") \
    REFUSAL(8, BAD_LABEL, "Label",                                             \
            "its mark and its formula do not go together.")                    \
    REFUSAL(9, BAD_AUDIT, "",                                                  \
            "The agent is no agent, the audited action is no action, or the "  \
            "audit hour is absent.")                                           \
    REFUSAL(29, INDEX_ROOM_TOO_SHORT, "Entries needed",                        \
            "the room for the index is too short.")                            \
    REFUSAL(30, NOT_THE_INDEX, "",                                             \
            "The index is not that of this file's log.")                       \
    REFUSAL(10, NO_STEPS, "",                                                  \
            "Something is owed, and no justification is given.")               \
    REFUSAL(11, STEPS_NOT_OWED, "",                                            \
            "A justification is given, and nothing is owed.")                  \
    REFUSAL(12, BAD_STEP, "Step",                                              \
            "its rule, formula, premises or argument are not well made.")      \
    REFUSAL(13, BAD_PREMISE, "Step",                                           \
            "a premise is no earlier step, or was used before.")               \
    REFUSAL(14, ABSENT, "Step",                                                \
            "what it rests on is absent: not given, not certified, or "        \
            "struck out.")                                                     \
    REFUSAL(15, NO_SUCH_ENTRY, "Step", "it cites an entry that is not there.") \
    REFUSAL(16, NOT_SEEN, "Step",                                              \
            "the agent is not among the observers of the log row.")            \
    REFUSAL(17, USED_TWICE, "Step", "a duty owed at each use is used twice.")  \
    REFUSAL(27, DATA_VARIABLE, "Formula",                                      \
            "it holds a data variable, and stands in the formula of an "       \
            "owner step (rule 5), which may hold none.")                       \
    REFUSAL(24, WRONG_PREMISE_KIND, "Step",                                    \
            "a premise is not of the kind that the rule takes.")               \
    REFUSAL(25, WRONG_PARTY, "Step",                                           \
            "a premise is about another than the agent.")                      \
    REFUSAL(26, WRONG_INSTANCE, "Step",                                        \
            "\"for all\" and its instance do not agree.")                      \
    REFUSAL(18, MISFIT, "Step", "the rule does not give this formula.")        \
    REFUSAL(19, PARAMETER_NOT_FREE, "Step",                                    \
            "\"for all\" is concluded from something assumed of one.")         \
    REFUSAL(28, NO_TAUTOLOGY, "Step",                                          \
            "the first premise of rule 4 (refine) is not proved by logic "     \
            "alone: it, or a step that it rests on, cites a log row, a "       \
            "condition or an obligation, or it leaves a label open.")          \
    REFUSAL(20, STEP_NOT_USED, "Step", "no later step uses it.")               \
    REFUSAL(21, LABEL_OPEN, "Label", "it is still open at the end.")           \
    REFUSAL(22, NOT_WHAT_IS_OWED, "Step",                                      \
            "it is the last one, and does not prove what is owed.")            \
    REFUSAL(31, DUTY_NOT_DONE, "Obligation",                                   \
            "it was due before the audit hour, and it names no log row that "  \
            "the agent observes with its action.")                             \
    REFUSAL(32, ROW_NAMED_TWICE, "Obligation",                                 \
            "it is owed at each use, and an earlier one owed at each use "     \
            "names the same log row.")                                         \
    REFUSAL(23, ROOM_TOO_SHORT, "Entries needed", "the room is too short.")

/*
** Refusals that say more by the rule of the step, as a list, to be used with a
** macro of three parameters: number, rule, and what is wrong in words, which
** stand in place of the general ones above. No other rule is refused by these
** numbers. The place of each is the step, so 27 is not among them; nor is 28,
** which is of one rule. The rule of step k is the 16-bit number, low byte
** first, at byte s + 10 * k of the file, and s is the one at byte 28.
*/
#define JUSTIFICATION_STEP_FAULTS(STEP_FAULT)                                  \
    STEP_FAULT(24, 3,                                                          \
               "the premise of rule 3 (says) is no statement, \"X says F "     \
               "to Y\".")                                                      \
    STEP_FAULT(24, 4,                                                          \
               "a premise of rule 4 (refine) is of the wrong kind: the "       \
               "first must be an implication, \"F implies G\", the second "    \
               "a statement, \"X says F to Y\".")                              \
    STEP_FAULT(24, 5,                                                          \
               "a premise of rule 5 (owner) is no ownership, \"X owns D\".")   \
    STEP_FAULT(24, 7,                                                          \
               "the premise of rule 7 (left) is no conjunction, \"F and "      \
               "G\".")                                                         \
    STEP_FAULT(24, 8,                                                          \
               "the premise of rule 8 (right) is no conjunction, \"F and "     \
               "G\".")                                                         \
    STEP_FAULT(24, 10,                                                         \
               "the first premise of rule 10 (implied) is no implication, "    \
               "\"F implies G\".")                                             \
    STEP_FAULT(24, 12,                                                         \
               "the premise of rule 12 (by obligation) demands no duty, as "   \
               "\"!action implies F\" and \"?action implies F\" do.")          \
    STEP_FAULT(24, 13,                                                         \
               "the premise of rule 13 (by label) demands no duty, as "        \
               "\"!action implies F\" and \"?action implies F\" do.")          \
    STEP_FAULT(24, 15, "the premise of rule 15 (instance) is no \"for all\".") \
    STEP_FAULT(25, 3,                                                          \
               "the premise of rule 3 (says) is said to another than the "     \
               "agent.")                                                       \
    STEP_FAULT(25, 4,                                                          \
               "the second premise of rule 4 (refine) is said by another "     \
               "than the agent.")                                              \
    STEP_FAULT(25, 5,                                                          \
               "a premise of rule 5 (owner) has another owner than the "       \
               "agent.")                                                       \
    STEP_FAULT(26, 14,                                                         \
               "the premise of rule 14 (for all) is not the body of the "      \
               "\"for all\" with the parameter put in.")                       \
    STEP_FAULT(26, 15,                                                         \
               "its formula is not what rule 15 (instance) gives: the body "   \
               "of the \"for all\" with the argument put in.")

/* JUSTIFICATION_FILE_LENGTH is 1, and so on down the list. */
enum justification_refusal {
#define JUSTIFICATION_NUMBER(number, name, counts, meaning) \
    JUSTIFICATION_##name = number,
    JUSTIFICATION_REFUSALS(JUSTIFICATION_NUMBER) JUSTIFICATION_NO_REFUSAL = 0
#undef JUSTIFICATION_NUMBER
};

/*
** The verdict on a case file.
**
** file and file_bytes are the whole file. room and room_entries are where a
** pass lists what it cites.
**
** What it never does. It never writes to the file. It never changes the room
** unless the verdict is "passed", and then no entry after the two lists. It
** never reads an entry of the room: no answer depends on what was there. It
** takes no memory from the heap, opens nothing, prints nothing, keeps nothing
** from one call to the next, and always returns. The tests run the largest
** files on a stack of 64 KiB.
**
** Threads. There is no shared state. Any number of threads may call at once,
** on the same file too, each with a room of its own.
**
** Hidden rows. A log row that the agent does not observe never shows. Put any
** other action in that row, strike it out, or change its other observers: the
** kind, the number, the place, the counts and every entry of the room stay the
** same, also where a step cites the row, which is 16 in each case, or an
** obligation names it, which then counts as not done in each case. The answer is
** the one for the log with all such rows struck out. The audit hour is not
** hidden: it is the file's own. Two things of the log are not hidden: how many
** rows it has, and that a file is damaged. A refusal by 1, 2 or 5 may come from
** a row that the agent does not observe: keep it at the desk. Nothing is
** promised of the time that a call takes.
**
** What the caller keeps. file is valid for file_bytes bytes, room for
** room_entries entries of two bytes each, aligned for uint16_t, and the two do
** not overlap. Nobody writes to them during the call. For a length of 0 pass
** any pointer but null, such as one to a local variable; null is allowed for
** neither.
*/
struct justification_verdict justification_check(const uint8_t *file,
                                                 size_t file_bytes,
                                                 uint16_t *room,
                                                 size_t room_entries);

/*
** Checks 1 to 9 alone: is this a case file that can be checked at all?
**
** number 0 and place 0: it is. Otherwise number is that of the first of
** checks 1 to 9 that fails and place is its place: the same that
** justification_check would refuse it with. For a console that takes in files
** by day and has them checked at night.
**
** What is said above of the file, the heap, the stack, threads and the caller
** holds here too.
*/
struct justification_admission {
    uint16_t number;
    uint16_t place;
};

struct justification_admission justification_admit(const uint8_t *file,
                                                   size_t file_bytes);

/*
** The index by observer.
**
** The index of a log says which rows each agent observes. It is a table of
** 16-bit numbers: entry 0 is how many agents observe any row; then come three
** entries for each of them, agents ascending: its number, where in the table
** its list begins, counted from entry 0, and how long the list is; then the
** lists, in the same order, each the numbers of the rows that the agent
** observes, ascending, struck ones too. An agent that observes no row is not
** in it. A log without rows has the index of one entry, 0. There are at most
** JUSTIFICATION_INDEX entries: 1, three for each agent, and one for each
** observer of each row.
**
** The index is the desk's own, and never the agent's: it shows all rows of the
** log, who observes them, and how many there are, also to an agent that
** observes none. Keep it where the log is kept. What the agent may get is the
** verdict of justification_check_indexed with its room, in which no row shows
** that the agent does not observe; but for a refusal by 30, which tells that the
** log is not the one of the index, and that may be by such a row. Keep 30 at the
** desk, as 1, 2 and 5, build the index anew, and check again.
**
** justification_index builds it from the log of a case file, by checks 1 to 5
** alone: agent, conditions, obligations, labels and steps do not matter.
**
** kind JUSTIFICATION_BUILT: the index stands in the first entries of index.
**     first is how many they are, second is 0.
** kind JUSTIFICATION_REFUSED: first is the number of the first check that
**     fails, 1 to 5 or 29, second its place.
**
** It never reads an entry of index. It changes none where it refuses, and none
** behind the index.
**
** justification_check_indexed is justification_check for a caller that has the
** index: what the agent sees is read from its own list. It believes nothing in
** it: where checks 1 to 9 pass, all its entries are first compared with those
** due, and a table that is shorter or has another entry is refused by 30.
** Entries behind the index are not looked at. Else the verdict and every entry
** of the room are those of justification_check. One index serves all files
** with the same log, whoever is the agent.
**
**     uint16_t index[JUSTIFICATION_INDEX];
**     struct justification_verdict b =
**         justification_index(file, file_bytes, index, JUSTIFICATION_INDEX);
**     if (b.kind == JUSTIFICATION_BUILT)
**         v = justification_check_indexed(file, file_bytes, index, b.first,
**                                         room, JUSTIFICATION_ROOM);
**
** The check through an index is no faster than justification_check: check 5
** reads all observers in any case, and the whole index is compared before it
** is believed. Use it where the index is what the log is kept by.
**
** Hidden rows. Put any other action in a row that the agent does not observe,
** strike it out, or change its other observers, and lend each file its own
** index: the answer of justification_check_indexed stays the same, but for 1,
** 2 and 5, as it is said at justification_check. 30 never comes then.
**
** What is said there of the file, the heap, the stack, threads and the caller
** holds here too; index is valid for index_entries entries of two bytes each,
** aligned for uint16_t, overlaps neither file nor room, and may be of length 0
** as they may.
*/
#define JUSTIFICATION_BUILT 0

struct justification_verdict justification_index(const uint8_t *file,
                                                 size_t file_bytes,
                                                 uint16_t *index,
                                                 size_t index_entries);

struct justification_verdict
justification_check_indexed(const uint8_t *file, size_t file_bytes,
                            const uint16_t *index, size_t index_entries,
                            uint16_t *room, size_t room_entries);

/*
** A night's cases in one call.
**
** Up to JUSTIFICATION_NIGHT case files lie in one buffer, files. The list says
** where: eight bytes for each, the offset of the file in the buffer and its
** length in bytes, as 32-bit numbers, low byte first. Each pair begins where
** the last one ended, or later. Bytes that belong to no file are not looked
** at. A file may have no bytes; it is refused by 1.
**
** kind JUSTIFICATION_CHECKED: first is the number of files, second is 0. The
**     first entries of verdicts are their verdicts, in the list's order. The
**     room holds what the files that pass list, one behind the other: what is
**     said at "passed" of the room's first entries is of those behind the last
**     pass before it, that is, behind first + second entries for each.
** kind JUSTIFICATION_REFUSED: first is 33, second the pair. No file is checked,
**     and no verdict and no entry of the room changes.
**
** Each verdict, and what is then written, are those of justification_check of
** the file alone, with the part of the room that the passes before it leave. A
** file that is refused or owes nothing writes no entry and stops no other. 23
** tells the entries that the file itself needs; a file behind it may need fewer
** and pass. In a room of JUSTIFICATION_NIGHT_ROOM entries 23 never comes, and
** no verdict depends on another file.
**
** It never reads a verdict or an entry that was there, and changes none behind
** those it tells. It writes to neither files nor list.
**
**     for (k = 0; k < count; k++)
**         for (b = 0; b < 4; b++) {
**             list[8 * k + b] = (uint8_t)(offsets[k] >> 8 * b);
**             list[8 * k + 4 + b] = (uint8_t)(lengths[k] >> 8 * b);
**         }
**     n = justification_night(files, files_bytes, list, 8 * count, verdicts,
**                             room, JUSTIFICATION_NIGHT_ROOM);
**
** Hidden rows. What is said at justification_check holds of each file: change
** what the file's agent does not observe, and its verdict and entries stay the
** same, where the verdicts before it are the same and 33 does not come; but for
** 1, 2 and 5, as it is said there. Where the files lie may change too. A
** verdict with its entries is for the agent of that file alone: keep those of
** the others at the desk.
**
** What is said there of the file, the heap, the stack, threads and the caller
** holds of files and list; verdicts is valid for JUSTIFICATION_NIGHT verdicts,
** aligned for uint16_t, and nothing that is written overlaps anything else.
*/
#define JUSTIFICATION_CHECKED 0

struct justification_verdict
justification_night(const uint8_t *files, size_t files_bytes,
                    const uint8_t *list, size_t list_bytes,
                    struct justification_verdict verdicts[JUSTIFICATION_NIGHT],
                    uint16_t *room, size_t room_entries);

/*
** The sizes of formulas.
**
** The formulas of a case are its book, rows of eight bytes: part 0 of the file.
** Its offset is the 16-bit number, low byte first, at byte 4 of the file, its
** length in bytes the one at byte 6. The size of a formula is the number of
** nodes of its tree: the formula written out, the formulas and actions that it
** is made of counted each time they stand there, terms not counted. No formula
** of a sound book has over 64.
**
** formula_book_sizes makes checks 3 and 4 on any bytes as a book, and fills the
** column sizes, JUSTIFICATION_SIZES bytes: byte k is the size of formula k.
**
** number 0 and place 0: the book is sound, and all its formulas have their
**     sizes, from 1 to 64.
** number 3: formula place is not well made. The formulas before it have their
**     sizes.
** number 4: formula place stands there a second time. All have their sizes.
** number 2 and place 0: the bytes are no whole number of rows, or there are
**     over 1,024. None has a size.
**
** Every other byte of the column stays as it was, and no answer depends on what
** was there. In a file that passes 1 and 2 the first fault of the book is the
** one that justification_admit tells.
**
**     uint8_t sizes[JUSTIFICATION_SIZES];
**     const uint8_t *book = file + (file[4] | file[5] << 8);
**     size_t book_bytes = (size_t)(file[6] | file[7] << 8);
**     struct justification_admission a =
**         formula_book_sizes(book, book_bytes, sizes);
**
** (That is for a file which justification_admit has let pass: then its book is
** there.) No log row shows in the sizes: the book is all that is read.
**
** What is said above of the file, the heap, the stack, threads and the caller
** holds of the book too; sizes is valid for JUSTIFICATION_SIZES bytes, and does
** not overlap the book.
*/
#define JUSTIFICATION_SIZES 1024

struct justification_admission
formula_book_sizes(const uint8_t *book, size_t book_bytes,
                   uint8_t sizes[JUSTIFICATION_SIZES]);

#ifdef __cplusplus
}
#endif

#endif
