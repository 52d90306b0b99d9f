// The calls on document 01's worked plan, its table of refusals, every condition, the preferred ticks of windows, the
// greatest numbers, slices of every length, and several threads at once.

use bovkact_planner::*;
use std::fs;
use std::path::Path;
use std::thread;

const WORKED: &str = include_str!("../../../examples/worked.plan");
const REPORT: &str = include_str!("../../../examples/worked.report");
const FILLED: Interval = Interval { first: 0xa5a5_a5a5, last: 0x5a5a_5a5a };

// Line 1 of the worked plan (P) or line 2 (A) with one field changed, counted from 0.
fn changed(line: usize, field: usize, value: &str) -> String {
    let mut fields: Vec<&str> = WORKED.lines().nth(line - 1).unwrap().split('\t').collect();
    fields[field] = value;
    fields.join("\t") + "\n"
}

fn p() -> String {
    changed(1, 0, "plan")
}

fn a() -> String {
    changed(2, 0, "act")
}

// P and activities with the ids 1 to `count`.
fn many(count: usize) -> String {
    (1..=count).fold(p(), |plan, id| plan + &changed(2, 1, &id.to_string()))
}

// The plans of document 01's table of refusals, and one of 13 (document 02, [2]).
fn refused_plans() -> Vec<(String, Reason, u32)> {
    vec![
        ("a".repeat(PLAN_MOST + 1), Reason::PlanTooLong, 0),
        ("".into(), Reason::LineWrong, 1),
        (p() + &changed(2, 1, "07"), Reason::Malformed, 2),
        (changed(1, 1, "4097"), Reason::OutOfRange, 1),
        (many(ACTIVITIES_MOST + 1), Reason::TooManyActivities, 66),
        (p() + &a() + &a(), Reason::IdRepeated, 3),
        (p() + &changed(2, 6, "7"), Reason::AfterNotEarlier, 2),
        (p() + &changed(2, 5, "9:9:8"), Reason::ListWrong, 2),
        (changed(1, 7, "61"), Reason::HandoverUnmet, 0),
        (p() + &changed(2, 5, "3:2:8"), Reason::OutOfWindow, 2),
    ]
}

fn refusal<T>(reason: Reason) -> Result<T, Refusal> {
    Err(Refusal { reason, line: 0 })
}

#[test]
fn outcomes_of_the_worked_plan() {
    let outcomes: Vec<Outcome> = (0..4).map(|place| outcome(WORKED.as_bytes(), place).unwrap()).collect();
    let refused = |conditions| Outcome::Refused { conditions };
    let expected = [
        Outcome::Placed { start: 10 },
        refused(Condition::W | Condition::D),
        refused(Condition::V.into()),
        Outcome::Placed { start: 15 },
    ];
    assert_eq!(outcomes, expected);
}

#[test]
fn starts_of_the_worked_plan() {
    let runs = |place, set: Conditions| starts(WORKED.as_bytes(), place, set).unwrap();
    for (place, last) in [15, 17, 18, 18].into_iter().enumerate() {
        assert_eq!(runs(place, Conditions::NONE), [0..=last]);
    }
    assert_eq!(runs(0, Condition::H.into()), [4..=15]);
    assert_eq!(runs(1, Condition::W.into()), [0..=8]);
    assert_eq!(runs(1, Conditions::ALL), []);
    assert_eq!(runs(3, Conditions::ALL), [15..=18]);
}

#[test]
fn plans_refused() {
    let reasons: Vec<Reason> = refused_plans().iter().map(|refused| refused.1).collect();
    assert_eq!(reasons, [&Reason::ALL[..9], &[Reason::OutOfWindow]].concat());
    for (plan, reason, line) in refused_plans() {
        let plan = plan.as_bytes();
        let refusal = Refusal { reason, line };
        let mut bytes = [0xa5; REPORT_MOST];
        let mut records = [FILLED; RUNS_MOST];
        assert_eq!(outcome(plan, 0), Err(refusal));
        assert_eq!(outcome(plan, usize::MAX), Err(refusal));
        assert_eq!(report(plan, &mut bytes), Err(refusal));
        assert_eq!(report(plan, &mut []), Err(refusal));
        assert_eq!(starts(plan, 0, Conditions::ALL), Err(refusal));
        assert_eq!(starts_into(plan, 0, Conditions::ALL, &mut records), Err(refusal));
        assert_eq!(starts_into(plan, usize::MAX, Conditions::from_bits(512), &mut []), Err(refusal));
        assert!(bytes.iter().all(|&byte| byte == 0xa5));
        assert!(records.iter().all(|&record| record == FILLED));
    }
}

#[test]
fn calls_refused() {
    let plan = WORKED.as_bytes();
    let over = Conditions::from_bits(512);
    let mut records = [FILLED; RUNS_MOST];
    assert_eq!(report(plan, &mut []), refusal(Reason::SliceTooShort));
    assert_eq!(starts_into(plan, 0, Conditions::ALL, &mut []), refusal(Reason::SliceTooShort));
    for place in [4, 1 << 32, usize::MAX] {
        assert_eq!(outcome(plan, place), refusal(Reason::NoSuchPlace));
        assert_eq!(starts(plan, place, Conditions::NONE), refusal(Reason::NoSuchPlace));
        assert_eq!(starts_into(plan, place, over, &mut records), refusal(Reason::NoSuchPlace));
    }
    for set in [512, 65_536, 65_536 + 511, u32::MAX].map(Conditions::from_bits) {
        assert_eq!(starts(plan, 3, set), refusal(Reason::SetTooLarge));
        assert_eq!(starts_into(plan, 3, set, &mut records), refusal(Reason::SetTooLarge));
        assert_eq!(starts_into(plan, 3, set, &mut []), refusal(Reason::SetTooLarge));
    }
    assert!(records.iter().all(|&record| record == FILLED));
}

#[test]
fn reports_into_slices_of_every_length() {
    for room in (0..=REPORT_MOST + 1).chain([5_000]) {
        let mut bytes = [0xa5; 5_001];
        let answer = report(WORKED.as_bytes(), &mut bytes[..room]);
        let written = if room < REPORT.len() {
            assert_eq!(answer, refusal(Reason::SliceTooShort));
            0
        } else {
            assert_eq!(answer, Ok(REPORT.as_bytes()));
            REPORT.len()
        };
        assert!(bytes[written..].iter().all(|&byte| byte == 0xa5), "{room} bytes");
    }
}

// The longest plan, with activities of one tick that share a unit, each placed where it wants to be.
fn five_activities() -> String {
    [1000, 2000, 3000, 4000, 4095].iter().fold(changed(1, 1, "4096"), |plan, tick| {
        plan + &format!("act\t{tick}\t0\t1\t{tick}\t-\t-\t0\t-\t-\t0\t0\t0\t0\t0\n")
    })
}

#[test]
fn starts_up_to_the_last_tick() {
    let plan = five_activities();
    assert_eq!(outcome(plan.as_bytes(), 3), Ok(Outcome::Placed { start: 4000 }));
    assert_eq!(outcome(plan.as_bytes(), 4), Ok(Outcome::Placed { start: 4095 }));
    assert_eq!(starts(plan.as_bytes(), 4, Conditions::NONE), Ok(vec![0..=4095]));
}

#[test]
fn starts_into_slices_of_every_length() {
    let plan = five_activities();
    let runs = [(0, 999), (1001, 1999), (2001, 2999), (3001, 3999), (4001, 4095)];
    let runs = runs.map(|(first, last)| Interval { first, last });
    for room in (0..=RUNS_MOST + 1).chain([5_000]) {
        let mut records = [FILLED; 5_001];
        let answer = starts_into(plan.as_bytes(), 4, Condition::U, &mut records[..room]);
        let written = if room < 5 {
            assert_eq!(answer, refusal(Reason::SliceTooShort));
            0
        } else {
            assert_eq!(answer, Ok(&runs[..]));
            5
        };
        assert!(records[written..].iter().all(|&record| record == FILLED), "{room} records");
    }
    assert_eq!(starts(plan.as_bytes(), 4, Condition::U), Ok(runs.map(|run| run.first..=run.last).to_vec()));
}

// The longest report that a plan can have (tests/README.md says why): 64 lines of 23 bytes and an end line of 46.
#[test]
fn the_longest_report() {
    let plan = include_bytes!("../../../tests/plans/longest_report.plan");
    let lines: String = (0..64).map(|k| format!("{}\tplaced\t{}\t{}\n", 10_000 + k, 1_000 + k, 1_001 + k)).collect();
    let text = lines + "end\t64\t0\t1000000000\t1000000000\t999999999\t1001\n";
    assert_eq!(text.len(), 1_518);
    for room in [1_518, 1_519, REPORT_MOST] {
        let mut bytes = [0xa5; REPORT_MOST];
        assert_eq!(report(plan, &mut bytes[..room]), Ok(text.as_bytes()));
        assert!(bytes[1_518..].iter().all(|&byte| byte == 0xa5));
    }
    let mut bytes = [0xa5; REPORT_MOST];
    assert_eq!(report(plan, &mut bytes[..1_517]), refusal(Reason::SliceTooShort));
    assert!(bytes.iter().all(|&byte| byte == 0xa5));
}

// The most runs that we could make (tests/README.md says how).
#[test]
fn the_most_runs() {
    let plan = include_bytes!("../../../tests/plans/most_runs.plan");
    let mut records = [FILLED; RUNS_MOST];
    let all = starts_into(plan, 63, Conditions::ALL, &mut records[..98]).unwrap().to_vec();
    assert_eq!(all.len(), 98);
    assert_eq!((all[0].first, all[97].last), (0, 1899));
    assert!(all.iter().all(|run| run.first <= run.last));
    assert!(all.windows(2).all(|pair| pair[0].last + 1 < pair[1].first));
    assert!(records[98..].iter().all(|&record| record == FILLED));
    records.fill(FILLED);
    assert_eq!(starts_into(plan, 63, Conditions::ALL, &mut records[..97]), refusal(Reason::SliceTooShort));
    assert!(records.iter().all(|&record| record == FILLED));
    assert_eq!(starts(plan, 63, Conditions::ALL).unwrap().len(), 98);
    assert_eq!(starts(plan, 63, Conditions::all_but(Condition::W)).unwrap().len(), 95);
}

// The place of an id, where the scheduling order isn't that of the lines: priorities 3, 1, 2 and 1.
#[test]
fn places_of_ids() {
    let activity = |(id, priority)| changed(2, 1, id).replacen("\t1\t", &format!("\t{priority}\t"), 1);
    let lines = [("20", 3), ("2", 1), ("0", 2), ("200", 1)].map(activity).concat();
    let plan = p() + &lines;
    let mut room = [0; REPORT_MOST];
    let text = report(plan.as_bytes(), &mut room).unwrap();
    assert_eq!([2, 200, 0, 20].map(|id| place_of(text, id)), [Some(0), Some(1), Some(2), Some(3)]);
    assert_eq!([1, 3, 21, 2_000, u32::MAX].map(|id| place_of(text, id)), [None; 5]);
    assert_eq!(place_of(b"", 0), None);
    assert_eq!(place_of(b"end\t0\t0\t60\t0\t40\t0\n", 0), None);
}

// Behind one that has unit 0 in every tick, nine activities that are refused with one condition each, W to H.
const NINE_REFUSED: &str = "\
act\t0\t0\t20\t0\t-\t-\t0\t-\t-\t0\t0\t0\t0\t0
act\t1\t1\t1\t0\t20:20:20\t-\t-\t-\t-\t0\t0\t0\t0\t0
act\t2\t1\t1\t0\t-\t1\t-\t-\t-\t0\t0\t0\t0\t0
act\t3\t1\t1\t0\t-\t-\t0\t-\t-\t0\t0\t0\t0\t0
act\t4\t1\t1\t0\t-\t-\t-\t1=3\t-\t0\t0\t0\t0\t0
act\t5\t1\t1\t0\t-\t-\t-\t-\t-\t2\t0\t0\t0\t0
act\t6\t1\t1\t0\t-\t-\t-\t-\t-\t0\t11\t0\t0\t0
act\t7\t1\t1\t0\t-\t-\t-\t-\t-\t0\t0\t99\t0\t0
act\t8\t1\t1\t0\t-\t-\t-\t-\t-\t0\t0\t0\t51\t0
act\t9\t1\t17\t0\t-\t-\t-\t-\t-\t0\t0\t0\t0\t1
";

// No start meets the one condition, and every start the eight others.
#[test]
fn conditions_apart() {
    let plan = p() + NINE_REFUSED;
    for (place, one) in (1..).zip(Condition::ALL) {
        let others = Conditions::all_but(one);
        let last = if one == Condition::H { 3 } else { 19 };
        assert_eq!(outcome(plan.as_bytes(), place), Ok(Outcome::Refused { conditions: one.into() }));
        assert_eq!(starts(plan.as_bytes(), place, one), Ok(vec![]));
        assert_eq!(starts(plan.as_bytes(), place, others), Ok(vec![0..=last]));
    }
}

// The forms of a window, a:p:b, and its faults in the order of checks: 3, 4, 8, 13.
#[test]
fn windows() {
    let answer = |windows| report((p() + &changed(2, 5, windows)).as_bytes(), &mut [0; REPORT_MOST]).map(drop);
    for windows in ["-", "0:0:8", "2:2:8", "2:8:8", "8:8:8", "4095:4095:4095", "0:1:2,3:4:4,5:5:6,7:8:9"] {
        assert_eq!(answer(windows), Ok(()), "{windows}");
    }
    let refused = [
        (Reason::Malformed, &["", "8", "0:8", "0:4:8:9", "0::8", "0:4:8,-", "9:4096:8,2"][..]),
        (Reason::OutOfRange, &["4096:9:8", "9:4096:8", "9:9:4096", "0:9:8,0:4096:4096"]),
        (Reason::ListWrong, &["9:9:8", "0:9:8,8:8:8", "0:9:8,9:9:9,10:10:10,11:11:11,12:12:12"]),
        (Reason::OutOfWindow, &["0:9:8", "2:1:8", "0:4095:4094", "0:0:0,1:0:8", "0:0:0,1:9:8,9:9:9"]),
    ];
    for (reason, lists) in refused {
        for windows in lists {
            assert_eq!(answer(windows), Err(Refusal { reason, line: 2 }), "{windows}");
        }
    }
}

// Where an activity of one tick is placed that has unit 0 and prefers tick 9 on its line, with these windows, where two
// others have the unit from a start on for so many ticks.
fn placed_beside(others: [(u32, u32); 2], windows: &str) -> Result<Outcome, Refusal> {
    let other = |(start, duration)| format!("act\t{start}\t0\t{duration}\t{start}\t-\t-\t0\t-\t-\t0\t0\t0\t0\t0\n");
    let candidate = format!("act\t30\t1\t1\t9\t{windows}\t-\t0\t-\t-\t0\t0\t0\t0\t0\n");
    outcome((p() + &others.map(other).concat() + &candidate).as_bytes(), 2)
}

// The start nearest to the preferred tick of its own window, and of two equally near the earlier; without windows the
// one nearest to the preferred tick of the line.
#[test]
fn preferred_ticks_of_windows() {
    let at = |start| Ok(Outcome::Placed { start });
    assert_eq!(placed_beside([(0, 3), (12, 1)], "0:0:3,6:12:12"), at(11));
    assert_eq!(placed_beside([(0, 2), (11, 2)], "0:0:3,6:12:12"), at(2));
    assert_eq!(placed_beside([(0, 2), (11, 2)], "0:0:3,6:6:12"), at(6));
    assert_eq!(placed_beside([(0, 2), (11, 2)], "-"), at(9));
    assert_eq!(placed_beside([(0, 2), (9, 1)], "-"), at(8));
}

// The worked plan cut off at every byte: accepted behind a line's end alone.
#[test]
fn plans_of_every_length() {
    for length in 0..=WORKED.len() {
        let plan = WORKED[..length].to_string().into_boxed_str();
        let lines = plan.matches('\n').count();
        let answer =
            report(plan.as_bytes(), &mut [0; REPORT_MOST]).map(|text| text.iter().filter(|&&b| b == b'\n').count());
        if plan.ends_with('\n') {
            assert_eq!(answer, Ok(lines));
        } else {
            assert_eq!(answer, Err(Refusal { reason: Reason::LineWrong, line: lines as u32 + 1 }));
        }
    }
}

#[test]
fn the_most_activities() {
    let plan = many(ACTIVITIES_MOST);
    assert!(outcome(plan.as_bytes(), ACTIVITIES_MOST - 1).is_ok());
    assert_eq!(outcome(plan.as_bytes(), ACTIVITIES_MOST), refusal(Reason::NoSuchPlace));
    assert_eq!(outcome("a".repeat(PLAN_MOST).as_bytes(), 0), Err(Refusal { reason: Reason::LineWrong, line: 1 }));
}

// Each example's plan and what the program prints for it.
fn examples() -> Vec<(Vec<u8>, Vec<u8>)> {
    let folder = Path::new(env!("CARGO_MANIFEST_DIR")).join("../../examples");
    let paths = fs::read_dir(folder).unwrap().map(|entry| entry.unwrap().path());
    let plans = paths.filter(|path| path.extension().is_some_and(|extension| extension == "plan"));
    plans.map(|path| (fs::read(&path).unwrap(), fs::read(path.with_extension("report")).unwrap())).collect()
}

fn printed(plan: &[u8]) -> Vec<u8> {
    match report(plan, &mut [0; REPORT_MOST]) {
        Ok(text) => text.to_vec(),
        Err(refusal) => format!("no\t{}\t{}\n", refusal.reason.number(), refusal.line).into(),
    }
}

#[test]
fn examples_in_eight_threads() {
    let examples = examples();
    assert!(examples.len() >= 8);
    thread::scope(|scope| {
        for first in 0..8 {
            let examples = &examples;
            scope.spawn(move || {
                for (plan, expected) in examples.iter().cycle().skip(first).take(20 * examples.len()) {
                    assert_eq!(printed(plan), *expected);
                }
            });
        }
    });
}

#[test]
fn threads_may_share_what_is_given() {
    fn shared<T: Send + Sync + 'static>() {}
    shared::<(Outcome, Interval, Condition, Conditions)>();
    shared::<(Reason, Refusal)>();
    let _: Box<dyn std::error::Error + Send + Sync> = outcome(b"", 0).unwrap_err().into();
}

// Document 01's words for the refusals, with "charge at horizon T" for c(T), and words for 13.
const TEXTS: [&str; 13] = [
    "over 60,000 bytes",
    "first word or field count wrong, or no LF",
    "malformed number or item, or an empty field",
    "number out of range",
    "65th activity line",
    "id of an earlier line",
    "`after` names no activity at an earlier place",
    "list not rising, a > b, or too many items",
    "charge at horizon T with nothing placed is under the handover charge",
    "lent slice too short for the answer",
    "place not below the activity count",
    "set over 511",
    "preferred tick outside its window",
];

#[test]
fn words() {
    assert_eq!(Reason::ALL.map(|reason| reason.to_string()), TEXTS);
    let refusal = Refusal { reason: Reason::SetTooLarge, line: 0 };
    assert_eq!(refusal.to_string(), "refusal 12: set over 511");
    assert_eq!(Condition::ALL.map(Condition::bit), [1, 2, 4, 8, 16, 32, 64, 128, 256]);
    assert_eq!(Condition::ALL.map(|condition| condition.to_string()).concat(), "WDUSEPBVH");
}

#[test]
fn sets() {
    let every = Condition::ALL.into_iter().fold(Conditions::NONE, |set, condition| set | condition);
    assert_eq!(every, Conditions::ALL);
    assert_eq!((every.bits(), every.to_string().as_str()), (511, "WDUSEPBVH"));
    assert_eq!(Conditions::NONE.to_string(), "");
    assert_eq!(Condition::H | (Condition::W | Condition::D), Conditions::from_bits(259));
    for one in Condition::ALL {
        assert_eq!(Conditions::all_but(one).bits() + one.bit(), 511);
        assert!(!Conditions::all_but(one).contains(one));
    }
}
