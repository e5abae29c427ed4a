//! Case files as text: there and back to the same bytes, the readable form, and faults by line.

use std::collections::BTreeSet;
use std::fs;
use std::process::{Command, Output};

use conformance::builder::{user_action, CaseFile, FormulaRow, Obligation};
use conformance::cases::{examples_and_vectors, grant, ROOM};
use conformance::checker::{check, number_at, pair_at, Verdict};
use conformance::checker::{ABSENT, ACTION_AT, AGENT_AT, HEADER_BYTES, HOUR_AT, PARTS};
use conformance::damages::damaged;
use conformance::desk::reading::read;
use conformance::desk::{records::RULES, show::show, text::text, words, write::write};
use conformance::examples::{all, folder};
use conformance::full_size::full_size;
use conformance::justifications::{failing_duties, passing, refining_on_grounds, slipping};
use conformance::misfits;
use conformance::random::{damage, Random};
use conformance::streams;

/// A file whose header is sound goes to text and back; the text comes back too. Any file is shown,
/// with its verdict. Tells whether the header is sound.
fn assert_there_and_back(file: &[u8]) -> bool {
    let verdict = check(file, &mut [0; ROOM]);
    assert!(show(file).contains(&format!("\nVerdict: {verdict}\n")));
    let sound = !matches!(verdict, Verdict::Refused { number: 1 | 2, .. });
    let there = text(file);
    assert_eq!(there.is_some(), sound);
    if let Some(there) = there {
        let back = write(there.as_bytes()).unwrap_or_else(|fault| panic!("{fault}\n{there}"));
        assert_eq!(back, file, "{there}");
        assert_eq!(text(&back), Some(there));
    }
    sound
}

#[test]
fn every_example_and_vector() {
    let vectors = examples_and_vectors().into_iter().chain(all());
    let sound = vectors.filter(|vector| assert_there_and_back(&vector.file)).count();
    assert!(sound > 350, "{sound}");
}

/// Each misfit that the header tells by the rule is shown in its words, which name the rule.
#[test]
fn misfits_by_rule() {
    let mut told = BTreeSet::new();
    for case in misfits::misfits() {
        let shown = show(&case.file);
        let found = words::step_faults().iter().filter(|fault| shown.contains(&fault.wrong));
        told.extend(found.map(|fault| (fault.number, fault.rule)));
    }
    let listed = words::step_faults().iter().map(|fault| (fault.number, fault.rule));
    assert_eq!(told, listed.collect());
    for fault in words::step_faults() {
        let (name, _) = RULES[fault.rule as usize];
        let name = match name {
            "for all by" | "instance by" => name.trim_end_matches(" by"),
            _ => name,
        };
        let rule = format!("rule {} ({name})", fault.rule);
        assert!(fault.wrong.contains(&rule), "{}", fault.wrong);
    }
}

/// A misfit of another rule than those that the header lists has the general words. So have 27 and
/// 28.
#[test]
fn misfits_in_general() {
    let told = [(25, 0, "Step"), (27, 0, "Formula"), (27, 1, "Formula"), (28, 1, "Step")];
    for (number, place, counts) in told {
        let said = words::words(&grant().to_bytes(), Verdict::Refused { number, place }, &[]);
        assert_eq!(said, [format!("{counts} {place}: {}", words::meaning(number).wrong)]);
    }
}

/// 29, 30 and 33, which no check of a case by itself gives, have their words too.
#[test]
fn words_of_indexes_and_nights() {
    let told = [
        (29, 25, "Entries needed 25: the room for the index is too short."),
        (30, 0, "The index is not that of this file's log."),
        (
            33,
            64,
            "Pair 64: it begins before the last one's end, ends beyond the files, is cut short, or \
             is the 65th.",
        ),
    ];
    for (number, place, line) in told {
        let said = words::words(&grant().to_bytes(), Verdict::Refused { number, place }, &[]);
        assert_eq!(said, [line]);
    }
}

/// At the end of a case refused by 27 stands the formula that it tells, as in the list of formulas,
/// and no step.
#[test]
fn formulas_with_a_data_variable() {
    let mut found = 0;
    for example in examples_and_vectors().into_iter().chain(all()) {
        let Verdict::Refused { number: 27, place } = example.verdict else { continue };
        let shown = show(&example.file);
        let (_, listed) = shown.split_once("\nFormulas\n").expect("it has formulas");
        let (number, row) = listed
            .lines()
            .nth(place as usize)
            .and_then(|line| line.trim_start().split_once("  "))
            .expect("a row");
        assert_eq!(number, place.to_string());
        let wrong = &words::meaning(27).wrong;
        let end = format!("\nVerdict: refused 27 {place}\n  Formula {place}: {wrong}\n  {row}\n");
        assert!(shown.ends_with(&end), "{shown}");
        found += 1;
    }
    assert!(found > 10, "{found}");
}

/// At the end of a case refused by 28 stand the refine step and, below it, one that cites or supposes
/// above its first premise, both as in the tree of steps.
#[test]
fn refinements_on_other_grounds() {
    let known = examples_and_vectors().into_iter().chain(all()).map(|example| example.file);
    let mut random = Random(0x6A09_E667_F3BC_C908);
    let made = (0..500).map(|_| refining_on_grounds(&mut random).to_bytes());
    let mut found = BTreeSet::new();
    for file in known.chain(made) {
        let Verdict::Refused { number: 28, place } = check(&file, &mut []) else { continue };
        let shown = show(&file);
        let lines: Vec<&str> = shown.lines().collect();
        let [.., step, ground] = lines[..] else { panic!("{shown}") };
        assert!(step.starts_with(&format!("  {place} refine: ")), "{shown}");
        let (words, ground) = ground.split_once(" step ").expect("a step");
        assert!(["  Its first premise rests on", "  Its first premise is"].contains(&words));
        assert_eq!(lines.iter().filter(|line| line.trim_start() == ground).count(), 1, "{shown}");
        let rules = ["condition", "seen row", "by obligation", "suppose label", "by label"];
        let (_, rule) = ground.split_once(' ').expect("a rule");
        let rule = rules.into_iter().find(|name| rule.starts_with(name)).expect("one of these");
        found.insert((words.to_string(), rule));
    }
    assert_eq!(found.len(), 8, "{found:?}");
}

/// Agent 0's duty to report, once for each of these hours and rows, over a log of five rows: agent 0
/// sees a row of another action, a report and a row that is struck out, and does not see a report and
/// a row that is struck out.
fn to_report(duties: &[(u16, u16)]) -> CaseFile {
    let mut case = grant().formula("0 reports", user_action(3, &[0]));
    let action = case.number("0 reports");
    for observers in [[0], [0], [1], [1]] {
        case = case.row("0 reports", &observers);
    }
    for row in [2, 4] {
        case.rows[row].action = ABSENT;
    }
    case.obligations = duties
        .iter()
        .map(|(due, row)| Obligation { mark: 1, action, due: *due, row: *row })
        .collect();
    case
}

/// The obligations of a file as they are shown, without their numbers.
fn shown_obligations(file: &[u8]) -> Vec<String> {
    let shown = show(file);
    let lines = shown.lines().skip_while(|line| *line != "Obligations").skip(1);
    let lines = lines.take_while(|line| !line.is_empty());
    lines.map(|line| line.trim_start().split_once("  ").expect("a number").1.to_string()).collect()
}

/// Done, overdue or neither, by every kind of row, and due before, at and after the audit hour.
#[test]
fn obligations_as_shown() {
    let told = [
        (49, ABSENT, "overdue   !act3(a0)  [due 49, expired; no row]"),
        (0, 0, "overdue   !act3(a0)  [due 0, expired; row 0, seen: a0 creates d0]"),
        (49, 1, "done      !act3(a0)  [due 49, expired; row 1, seen: act3(a0)]"),
        (49, 2, "overdue   !act3(a0)  [due 49, expired; row 2, seen: struck out]"),
        (49, 3, "overdue   !act3(a0)  [due 49, expired; row 3, hidden: act3(a0)]"),
        (49, 4, "overdue   !act3(a0)  [due 49, expired; row 4, hidden: struck out]"),
        (49, 5, "overdue   !act3(a0)  [due 49, expired; row 5, not in the log]"),
        (50, ABSENT, "not done  !act3(a0)  [due 50, not expired; no row]"),
        (50, 1, "done      !act3(a0)  [due 50, not expired; row 1, seen: act3(a0)]"),
        (65_534, 3, "not done  !act3(a0)  [due 65534, not expired; row 3, hidden: act3(a0)]"),
        (ABSENT, ABSENT, "not done  !act3(a0)  [no due hour; no row]"),
        (ABSENT, 1, "done      !act3(a0)  [no due hour; row 1, seen: act3(a0)]"),
    ];
    let mut case = to_report(&told.map(|(due, row, _)| (due, row)));
    assert_eq!(shown_obligations(&case.to_bytes()), told.map(|(_, _, line)| line));
    case.hour = ABSENT;
    let of_no_hour = told.map(|(_, _, line)| {
        let line = line.replace(", expired", "").replace(", not expired", "");
        line.replace("overdue ", "not done")
    });
    assert_eq!(shown_obligations(&case.to_bytes()), of_no_hour);
    assert!(show(&case.to_bytes()).contains("\nAudit hour: absent\n"));
}

/// A row that is struck out does not do what an absent action asks for.
#[test]
fn an_absent_action_is_not_done() {
    let case = to_report(&[(49, 2)]).change(|case| case.obligations[0].action = ABSENT);
    let line = "overdue   !#65535  [due 49, expired; row 2, seen: struck out]";
    assert_eq!(shown_obligations(&case.to_bytes()), [line]);
}

/// Each case that is refused by 31 or 32, of those that are known and of many that are made.
fn failing_in_duties(number: u16) -> impl Iterator<Item = (Vec<u8>, u16)> {
    let known = examples_and_vectors().into_iter().chain(all()).map(|example| example.file);
    let by_row = [ABSENT, 0, 2, 3, 4].map(|row| to_report(&[(50, 1), (49, row)]).to_bytes());
    // Only obligations 1 and 2 are owed at each use.
    let by_mark = to_report(&[(50, 3); 3]).change(|case| case.obligations[0].mark = 2).to_bytes();
    let mut random = Random(0xBB67_AE85_84CA_A73B);
    let made = (0..1_000).map(move |_| failing_duties(&mut random).to_bytes());
    known.chain(by_row).chain([by_mark]).chain(made).filter_map(move |file| {
        match check(&file, &mut [0; ROOM]) {
            Verdict::Refused { number: found, place } if found == number => Some((file, place)),
            _ => None,
        }
    })
}

/// At the end of a case refused by 31 stand the obligation, as in the list, and why it is not done.
#[test]
fn duties_not_done() {
    let mut found = BTreeSet::new();
    for (file, place) in failing_in_duties(31) {
        let case = read(&file).expect("its header is sound").case;
        let (row, agent) = (case.obligations[place as usize].row, format!("a{}", case.agent));
        let named = case.rows.get(row as usize);
        let seen = named.map(|row| (row.observers.contains(&case.agent), row.action == ABSENT));
        let why = match seen {
            None => format!("It names no row. Ask {agent} for the one in which it was done."),
            Some((false, _)) => {
                format!("{agent} does not see row {row}, so it counts as not done.")
            }
            Some((true, true)) => format!("Row {row} is struck out."),
            Some((true, false)) => format!("Row {row} has another action."),
        };
        let listed = &shown_obligations(&file)[place as usize];
        assert!(listed.starts_with("overdue "), "{listed}");
        let end = format!("{}\n  {listed}\n  {why}\n", words::meaning(31).wrong);
        assert!(show(&file).ends_with(&end), "{}", show(&file));
        found.insert(seen);
    }
    assert_eq!(found.len(), 5, "{found:?}");
}

/// At the end of a case refused by 32 stand the obligation and the first one that names its row, both
/// as in the list.
#[test]
fn rows_named_twice() {
    let mut found = BTreeSet::new();
    for (file, place) in failing_in_duties(32) {
        let case = read(&file).expect("its header is sound").case;
        let row = case.obligations[place as usize].row;
        let names_it = |duty: &Obligation| duty.mark == 1 && duty.row == row;
        let first = case.obligations.iter().position(names_it).expect("an earlier one");
        assert!(first < place as usize);
        let listed = shown_obligations(&file);
        let end = format!(
            "{}\n  {}\n  Obligation {first} names row {row} already: {}\n",
            words::meaning(32).wrong,
            listed[place as usize],
            listed[first]
        );
        assert!(show(&file).ends_with(&end), "{}", show(&file));
        found.insert((first, place));
    }
    assert!(found.contains(&(1, 2)) && found.len() > 3, "{found:?}");
}

/// Hours and rows at their limits, and their words.
const LIMITS: [(u16, &str); 4] = [(0, "0"), (1, "1"), (65_534, "65534"), (ABSENT, "absent")];

/// In every way, there and back. A row that is absent is left out of the text.
#[test]
fn hours_and_rows_at_their_limits() {
    let triples = LIMITS.into_iter().flat_map(|hour| {
        LIMITS.into_iter().flat_map(move |due| LIMITS.map(|row| (hour, due, row)))
    });
    let mut files = BTreeSet::new();
    for ((hour, at), (due, by), (row, number)) in triples {
        let file = to_report(&[(due, row)]).change(|case| case.hour = hour).to_bytes();
        assert!(assert_there_and_back(&file));
        let done = if row == ABSENT { String::new() } else { format!("; done by row {number}") };
        let text = text(&file).expect("its header is sound");
        for line in [format!("hour {at}"), format!("obligation 0: !act3(a0); due {by}{done}")] {
            assert_eq!(text.lines().filter(|found| *found == line).count(), 1, "{line}\n{text}");
        }
        files.insert(file);
    }
    assert_eq!(files.len(), 64);
}

/// A text without obligations may leave the hour out, and its verdict stays. It is then the last one.
#[test]
fn texts_without_an_hour() {
    let mut without = 0;
    for example in examples_and_vectors().into_iter().chain(all()) {
        let Some(text) = text(&example.file) else { continue };
        let case = read(&example.file).expect("its header is sound").case;
        let lines = text.lines().filter(|line| !line.starts_with("hour "));
        let shorter = lines.flat_map(|line| [line, "\n"]).collect::<String>();
        assert!(shorter.len() < text.len());
        if !case.obligations.is_empty() {
            let fault = write(shorter.as_bytes()).expect_err("it has obligations");
            assert_eq!(fault.what, "there are obligations, and no line \"hour\"");
        } else if case.hour != ABSENT {
            let file = write(shorter.as_bytes()).expect("it is a text");
            assert_eq!(number_at(&file, HOUR_AT), 65_534);
            let verdict = |file: &[u8]| check(file, &mut vec![0; example.room]);
            assert_eq!(verdict(&file), verdict(&example.file), "{}", example.name);
            without += 1;
        }
    }
    assert!(without > 100, "{without}");
}

#[test]
fn full_size_file() {
    assert!(assert_there_and_back(&full_size().to_bytes()));
}

#[test]
fn random_and_damaged_files() {
    let mut random = Random(0x0123_4567_89AB_CDEF);
    let mut sound = 0;
    for turn in 0..6_000 {
        let case = if turn % 4 == 0 { slipping(&mut random) } else { passing(&mut random) };
        let file = match turn % 3 {
            0 => case.to_bytes(),
            1 => damaged(&case, &mut random).1,
            _ => damage(&case.to_bytes(), &mut random),
        };
        sound += usize::from(assert_there_and_back(&file));
    }
    assert!(sound > 4_000, "{sound}");
}

/// A sound header over bytes of no sense: small numbers, telling ones, and any.
fn senseless(random: &mut Random) -> Vec<u8> {
    let mut file = vec![0; HEADER_BYTES];
    for (place, (record, _)) in PARTS.into_iter().enumerate() {
        let offset = file.len();
        let orphan = matches!(place, 2 | 7) && length(&file, place - 1) == 0;
        let records = if orphan { 0 } else { random.below(12) };
        for _ in 0..records * record / 2 {
            file.extend(some_number(random).to_le_bytes());
        }
        let pair = [offset, file.len() - offset].map(|number| (number as u16).to_le_bytes());
        file[pair_at(place)..][..4].copy_from_slice(&pair.concat());
    }
    for field in [AGENT_AT, ACTION_AT, HOUR_AT] {
        file[field..field + 2].copy_from_slice(&some_number(random).to_le_bytes());
    }
    file
}

fn length(file: &[u8], place: usize) -> u16 {
    number_at(file, pair_at(place) + 2)
}

fn some_number(random: &mut Random) -> u16 {
    let telling = [ABSENT, ABSENT - 1, 16_384, 32_768, 32_800, 40_960, 40_961, 40_968, 40_975];
    match random.below(8) {
        0 => random.below(65_536) as u16,
        1 | 2 => random.pick(&telling),
        _ => random.below(11) as u16,
    }
}

#[test]
fn senseless_records() {
    let mut random = Random(0xFEDC_BA98_7654_3210);
    for _ in 0..20_000 {
        assert!(assert_there_and_back(&senseless(&mut random)));
    }
}

/// Each row is the "and" of the last with itself: written out, the last would have 2^1,023 parts.
#[test]
fn no_formula_is_too_large() {
    let mut case = CaseFile::new(0);
    case.formulas.push(FormulaRow { kind: 0, code: 0, fields: [ABSENT; 3] });
    for number in 0..1_023 {
        case.formulas.push(FormulaRow { kind: 3, code: 0, fields: [number, number, ABSENT] });
    }
    assert!(assert_there_and_back(&case.to_bytes()));
}

/// What can be read of a cut file is shown.
#[test]
fn cut_files() {
    let file = grant().to_bytes();
    for length in 0..file.len() {
        assert!(!assert_there_and_back(&file[..length]));
    }
    assert_eq!(show(&[]), "Case file of 0 bytes\n\nVerdict: refused 1 0\n  The file has under 38 or over 47,910 bytes.\n");
    let (log, length) = grant().pairs()[1];
    let shown = show(&file[..(log + length - 2) as usize]);
    assert!(shown.contains("\n  4  a0 communicates p7(a1, d0) to a1\n"));
    assert!(shown.ends_with(
        "
Not shown: log rows, observers, conditions, obligations, labels, steps, premises

Verdict: refused 2 1
  Part 1 (log rows): it is not where it is due, or its length is not right.
  The header says: offset 78, length 6.
"
    ));
}

/// Steps that the last one does not use, a premise used again, and premises that are no earlier
/// steps; each step stands once.
#[test]
fn steps_out_of_place() {
    let shows = |case: CaseFile, lines: &str| {
        let shown = show(&case.to_bytes());
        assert!(shown.contains(&format!("\nSteps\n{lines}\n")), "{shown}");
    };
    let seen = "seen row 0 [a0 creates d0]: a0 owns d0";
    let says = "owner: a0 says p7(a1, d0) to a1";
    let doubled = grant().change(|case| case.steps.insert(1, case.steps[0].clone()));
    let lines = format!("  2 {says}\n    0 {seen}\n  not used by step 2:\n  1 {seen}\n");
    shows(doubled, &lines);
    let strange = grant().change(|case| case.steps[1].premises = vec![0, 0, 1, 9]);
    let again =
        "    0, as above\n    1, which is no earlier step\n    9, which is no earlier step\n";
    shows(strange, &format!("  1 {says}\n    0 {seen}\n{again}"));
}

/// A bad row is told by its numbers, another formula that holds it names it by its row.
#[test]
fn rows_without_words() {
    let case = grant().change(|case| case.formulas[2].kind = 12);
    let shown = show(&case.to_bytes());
    assert!(shown.contains("\n  2  kind 12 code 7 fields 1, 16384, 65535\n"), "{shown}");
    assert!(shown.contains("\nAudited action: a0 communicates #2 to a1\n"), "{shown}");
    let end =
        "refused 3 2\n  Formula 2: it is not well made.\n  kind 12 code 7 fields 1, 16384, 65535\n";
    assert!(shown.ends_with(end), "{shown}");
}

/// Where the observers or the premises are not sound, rows and steps are shown without them.
#[test]
fn faulty_lists() {
    let with_length = |place: usize, length| {
        grant().change(|case| case.header[place] = Some((case.pairs()[place].0, length)))
    };
    let observers = with_length(2, 3);
    let shown = show(&observers.to_bytes());
    assert!(shown.contains("\nLog\n  0  a0 creates d0\n\nNot shown: observers, "), "{shown}");
    let premises = with_length(7, 1);
    let shown = show(&premises.to_bytes());
    let steps = "\nSteps\n  0 seen row 0 [a0 creates d0]: a0 owns d0\n  1 owner, span 0 1: a0 says";
    assert!(shown.contains(steps) && shown.contains("\nNot shown: premises\n"), "{shown}");
}

/// A formula that is well written comes back as it was.
#[test]
fn brackets() {
    let formulas = [
        "p1() and p2() and p3(a0, d0, a'1)",
        "p1() and (p2() and p3())",
        "p1() implies p2() implies p3()",
        "(p1() implies p2()) implies p3()",
        "p1() and (p2() implies p3())",
        "p1() implies p2() and p3()",
        "for all agents x. for all data y. p1(x, y, d'31) and x owns y",
        "(for all agents x. p1(x)) and (for all data x. p1(x, a^7))",
        "p1() implies for all data x. p2(x) implies p3(x)",
        "a0 says (a1 says (p1() and p2()) to a2) to a3",
        "a0 says p1() to a1 and a1 owns d16383",
        "!act3(a1, d0) implies ?(a1 creates d0) implies p1()",
        "?(a0 communicates (p1() implies p2()) to a1) implies p255()",
        "for all agents x. !act1(x) implies for all data y. act2(a16383, x, y)",
        "!(!act1(a0) implies p1()) implies p2()",
    ];
    for formula in formulas {
        let file = write(format!("agent a0\naction {formula}").as_bytes()).expect(formula);
        let back = text(&file).expect("the header is sound");
        assert_eq!(back.lines().nth(1), Some(format!("action {formula}").as_str()));
    }
}

/// Written by hand, without a book, in any order, with remarks.
#[test]
fn a_text_by_hand() {
    let by_hand = "
        -- Agent 0 created data 0 and grants agent 1 its use.
        step: a0 owns d0; seen row 0
        step 1: a0 says p7(a1,d0) to a1; owner; from 0  -- premise 0
        agent a0
        hour 50
        action a0 communicates ((p7(a1, d0))) to a1
        row: a0 creates d0; seen by a0
        formula: a0 creates d0
        formula 1: a0 owns d0
        formula 3: a0 says p7(a1, d0) to a1
    ";
    let file = write(by_hand.as_bytes()).expect("the text is sound");
    assert_eq!(file, grant().to_bytes());
}

#[test]
fn faults_name_the_line() {
    let long = "formula: p0()\n".repeat(1_025);
    let deep = format!("agent a0\naction {}", "(".repeat(100_000));
    let faults = [
        ("", "line 1: there is no line \"agent\""),
        ("agent a0\n", "line 2: there is no line \"action\""),
        ("agent a0\nagent a1", "line 2: there is such a line already"),
        ("agent a16384", "line 1: \"a16384\" is no term"),
        ("agent 65536", "line 1: \"65536\" is no number up to 65535"),
        ("\n\nagents a0", "line 3: expected agent, action, hour, formula, row, condition, obligation, label or step, found \"agents\""),
        ("hour 1\nhour 1", "line 2: there is such a line already"),
        ("hour", "line 1: expected an hour, found the end of the line"),
        ("hour a5", "line 1: expected an hour, found \"a5\""),
        ("hour 65535", "line 1: 65535 means absent, and is not an hour"),
        ("hour 65536", "line 1: \"65536\" is no number up to 65535"),
        ("hour 1 2", "line 1: expected the end of the line, found \"2\""),
        ("obligation: !act3(a1)", "line 1: expected \"; due\" and an hour, found the end of the line"),
        ("obligation: !act3(a1) due 5", "line 1: expected \"; due\" and an hour, found \"due\""),
        ("obligation: !act3(a1);", "line 1: expected \"due\", found the end of the line"),
        ("obligation: !act3(a1); done by row 1", "line 1: expected \"due\", found \"done\""),
        ("obligation: !act3(a1); due", "line 1: expected an hour, found the end of the line"),
        ("obligation: !act3(a1); due d0", "line 1: expected an hour, found \"d0\""),
        ("obligation: !act3(a1); due 65535", "line 1: 65535 means absent, and is not an hour"),
        ("obligation: !act3(a1); due 65536", "line 1: \"65536\" is no number up to 65535"),
        ("obligation: !act3(a1); due 5; due 6", "line 1: expected \"done by row\", found \"due\""),
        ("obligation: !act3(a1); due 5; row 1", "line 1: expected \"done by row\", found \"row\""),
        ("obligation: !act3(a1); due 5; done by row", "line 1: expected a row's number, found the end of the line"),
        ("obligation: !act3(a1); due 5; done by row absent", "line 1: expected a row's number, found \"absent\""),
        ("obligation: !act3(a1); due 5; done by row 65535", "line 1: 65535 means absent, and is not a row's number"),
        ("obligation: !act3(a1); due 5; done by row 65536", "line 1: \"65536\" is no number up to 65535"),
        ("obligation: !act3(a1); due 5; done by row 1; due 5", "line 1: expected the end of the line, found \";\""),
        ("agent a0\nobligation: !act3(a1); due 5\naction absent", "line 3: there are obligations, and no line \"hour\""),
        ("label: !act3(a1); due 5", "line 1: expected the end of the line, found \";\""),
        ("row: absent seen by a0", "line 1: expected the end of the line, found \"seen\""),
        ("row: absent; seen a0", "line 1: expected \"seen by\" or \"span\", found \"seen\""),
        ("condition 1: p1()", "line 1: this is condition 0, not 1"),
        ("formula 0: p1() and p2()", "line 1: this is formula 2, not 0"),
        ("formula: #1", "line 1: #1 alone makes no formula"),
        ("formula: kind 256 code 0 fields 0, 0, 0", "line 1: 256 is over 255"),
        ("formula: kind 11 code 0 fields 0, 0", "line 1: a formula row has three fields"),
        ("action p1(x)", "line 1: no \"for all\" binds x here"),
        ("action p1(a0", "line 1: expected \")\", found the end of the line"),
        ("action p1(a0, a0, a0, a0)", "line 1: there are more than three terms"),
        ("action a0 sees d0", "line 1: expected a verb: owns, says, communicates or creates, found \"sees\""),
        ("action a0 says p1()", "line 1: expected \"to\", found the end of the line"),
        ("action for all agents a. p1()", "line 1: expected a variable (u to z), found \"a\""),
        ("action p1() or p2()", "line 1: expected the end of the line, found \"or\""),
        ("action @", "line 1: \"@\" has no meaning here"),
        ("step: p1(); magic", "line 1: expected a rule, found \"magic\""),
        ("step: p1(); seen row", "line 1: expected a term, found the end of the line"),
        (&long, "line 1025: there are more than 1024 formulas"),
        (&deep, "line 2: the formula is nested too deep"),
    ];
    for (text, expected) in faults {
        let fault = write(text.as_bytes()).expect_err(expected);
        assert_eq!(fault.to_string(), expected);
    }
    let fault = write(b"agent a0\n\xFF").expect_err("it is no text");
    assert_eq!(fault.to_string(), "line 2: this is no plain text");
}

#[test]
fn limits_name_the_line() {
    let limits = [
        ("row: absent", 1_024),
        ("condition: absent", 64),
        ("obligation: #0; due 0", 64),
        ("label: #0", 32),
        ("step: #0; says", 2_048),
    ];
    for (line, most) in limits {
        let header = "agent a0\naction absent\nhour absent\n";
        let text = format!("{header}{}", format!("{line}\n").repeat(most));
        assert!(write(text.as_bytes()).is_ok(), "{line}");
        let fault = write((text + line).as_bytes()).expect_err(line);
        assert_eq!(fault.line, most + 4);
    }
    let lists = [("row: absent; seen by ", 4_096), ("step: #0; says; from ", 2_048)];
    for (line, most) in lists {
        let text = format!("agent a0\naction absent\n{line}{}", vec!["0"; most].join(", "));
        assert!(write(text.as_bytes()).is_ok(), "{line}");
        assert_eq!(write((text + ", 0").as_bytes()).expect_err(line).line, 3);
    }
}

#[test]
fn programs() {
    let (show_case, write_case) =
        (env!("CARGO_BIN_EXE_show-case"), env!("CARGO_BIN_EXE_write-case"));
    let run = |program: &str, arguments: &[&str], input: &[u8]| {
        streams::run(Command::new(program).args(arguments), input)
    };
    let file = grant().to_bytes();
    assert_eq!(run(show_case, &[], &file).stdout, show(&file).into_bytes());
    let exact = run(show_case, &["--text"], &file).stdout;
    assert_eq!(run(write_case, &[], &exact).stdout, file);
    let trouble = |output: Output, words: &str| {
        assert_eq!((output.status.code(), output.stdout), (Some(1), Vec::new()));
        assert_eq!(String::from_utf8_lossy(&output.stderr), words);
    };
    trouble(
        run(write_case, &[], b"agent a0\naction b0"),
        "write-case: line 2: \"b0\" is no term\n",
    );
    trouble(run(show_case, &["--other"], &file), "show-case: usage: show-case [--text] < FILE\n");
    let unsound = "show-case: the header is not sound, so no text carries this file\n";
    trouble(run(show_case, &["--text"], &file[..80]), unsound);
}

/// The first text of a case in a page, which is indented.
fn text_in(page: &str) -> (String, String) {
    let page = fs::read_to_string(folder().join("..").join(page)).expect("it is there");
    let lines = page.lines().skip_while(|line| !line.starts_with("    agent "));
    let lines = lines.take_while(|line| line.is_empty() || line.starts_with("    "));
    (lines.map(|line| format!("{line}\n")).collect(), page)
}

/// The page has what is shown of a file from this beginning to the next empty line, each line
/// indented.
fn assert_quoted(page: &str, file: &[u8], beginning: &str) {
    let shown = show(file);
    let lines = shown.lines().skip_while(|line| !line.starts_with(beginning));
    let lines: Vec<&str> = lines.take_while(|line| !line.is_empty()).collect();
    let quoted: String = lines.iter().map(|line| format!("    {line}\n")).collect();
    assert!(!lines.is_empty() && page.contains(&quoted), "{quoted}");
}

/// The texts in the pages are such, and the page on the notation has all rules.
#[test]
fn pages() {
    let (text, page) = text_in("README.md");
    let file = write(text.as_bytes()).expect("it is a text");
    assert_eq!(check(&file, &mut [0; ROOM]), Verdict::Passed { obligations: 0, rows: 1 });
    assert_quoted(&page, &file, "Steps");
    let (text, page) = text_in("docs/NOTATION.md");
    let file = write(text.as_bytes()).expect("it is a text");
    assert_eq!(check(&file, &mut [0; ROOM]), Verdict::Refused { number: 22, place: 1 });
    for (words, _) in RULES {
        assert!(page.contains(&format!("`{words}")), "{words}");
    }
    for name in QUOTED {
        assert_quoted(&page, &example(name), "Verdict: ");
    }
    assert_quoted(&page, &example("twice-report-unseen"), "Obligations");
}

/// The examples of which the page on the notation quotes the verdict.
const QUOTED: [&str; 4] =
    ["grant-swap", "grant-refined-by-reading", "twice-report-unseen", "twice-one-report"];

/// The file of the example of this name.
fn example(name: &str) -> Vec<u8> {
    let found = all().into_iter().find(|example| example.name == name);
    found.expect("there is such an example").file
}

/// Some examples as they are shown.
#[test]
fn shown() {
    let expected = [
        ("grant", include_str!("shown/grant.txt")),
        ("visit-condition-absent", include_str!("shown/visit-condition-absent.txt")),
        ("000-example-2", include_str!("shown/000-example-2.txt")),
        ("twice-report-unseen", include_str!("shown/twice-report-unseen.txt")),
    ];
    for (name, expected) in expected {
        assert_eq!(show(&example(name)), expected, "{name}");
    }
}
