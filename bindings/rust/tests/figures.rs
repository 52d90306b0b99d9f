// The numbers of include/planner.h and of this crate are those of the specification. Each is read from the text of the
// specification, where it stands under a name; if it no longer stands there, the test fails.

use bovkact_planner::*;

const HEADER: &str = include_str!("../../../include/planner.h");
const UNPACKING: &str = include_str!("../../../crates/station/specs/Unpacking.antt");
const PROMISE: &str = include_str!("../../../crates/station/specs/Promise.antt");
const STATION_VERSION: &str = include_str!("../../../crates/station/specs/Version.antt");
const PLAN: &str = include_str!("../../../crates/rules/specs/Plan.antt");
const CONDITIONS: &str = include_str!("../../../crates/rules/specs/Conditions.antt");
const FORMS: &str = include_str!("../../../crates/rules/specs/Forms.antt");
const FAULTS: &str = include_str!("../../../crates/rules/specs/Faults.antt");

// The one line that begins with these words, without them.
fn behind<'a>(text: &'a str, words: &str) -> &'a str {
    let lines: Vec<&str> = text.lines().filter_map(|line| line.trim_start().strip_prefix(words)).collect();
    assert_eq!(lines.len(), 1, "lines that begin with `{words}`");
    lines[0]
}

// The number that a line is.
fn number(text: &str) -> u64 {
    text.trim().parse().unwrap_or_else(|_| panic!("no number: `{text}`"))
}

// The value of a definition, as `report_most = 1584`.
fn defined(text: &str, name: &str) -> u64 {
    number(behind(text, &format!("{name} = ")))
}

// The number at the end of what a name states, where `rest` stands behind it.
fn stated(text: &str, name: &str, rest: &str) -> u64 {
    let statement = behind(text, &format!("{name} : "));
    let until = statement.strip_suffix(rest).unwrap_or_else(|| panic!("`{rest}` doesn't end {name}: {statement}"));
    number(until.rsplit(' ').next().unwrap())
}

// A number of the header: the whole definition, but for a comment.
fn in_header(name: &str) -> u64 {
    number(behind(HEADER, &format!("#define PLANNER_{name} ")).split("/*").next().unwrap())
}

// A value of an enum of the header.
fn valued(name: &str) -> u64 {
    let value = behind(HEADER, &format!("PLANNER_{name} = "));
    number(value.split("/*").next().unwrap().trim().trim_end_matches(','))
}

// Specification, header and crate agree.
fn same(what: &str, specified: u64, header: u64, here: u64) {
    assert_eq!((header, here), (specified, specified), "{what}: header and crate, beside the specification");
}

#[test]
fn sizes() {
    same("report", defined(UNPACKING, "report_most"), in_header("REPORT_MOST"), REPORT_MOST as u64);
    same("runs", defined(UNPACKING, "runs_most"), in_header("RUNS_MOST"), RUNS_MOST as u64);
    same("activities", defined(PLAN, "most_activities"), in_header("ACTIVITIES_MOST"), ACTIVITIES_MOST as u64);
    let longest = behind(FAULTS, "too_long : ").strip_suffix(" < length s → Fault s 1 0").expect("the longest plan");
    same("plan", number(longest), in_header("PLAN_MOST"), PLAN_MOST as u64);
}

// The promises that the sizes are enough are stated with these names, and starts says the number, too.
#[test]
fn the_sizes_are_those_proved_enough() {
    behind(UNPACKING, "pub report_room : (room : ℕ) → report_most ≤ room → ");
    behind(UNPACKING, "pub starts_room : (k m room : ℕ) → runs_most ≤ room → ");
    let runs = behind(PROMISE, "pub runs : ");
    assert!(runs.contains(&format!("(length rs ≤ {RUNS_MOST})")), "{runs}");
}

// No proof has the stack: header and crate have the same.
#[test]
fn stack() {
    assert_eq!(in_header("STACK_MOST"), STACK_MOST as u64);
}

#[test]
fn versions() {
    same("version", defined(STATION_VERSION, "version"), in_header("VERSION"), VERSION as u64);
    assert_eq!(version(), VERSION);
}

// The bit of a condition is its position in the specification's list, and its letter that of the same position.
#[test]
fn conditions() {
    let count = defined(CONDITIONS, "condition_count");
    assert_eq!(behind(CONDITIONS, "all_conditions = "), "2 ^ condition_count - 1");
    same("all", (1 << count) - 1, valued("CONDITIONS_ALL"), Conditions::ALL.bits() as u64);
    let letters = behind(CONDITIONS, "condition_letters = bytes ").trim_matches('"');
    let list: Vec<String> = letters.chars().map(|letter| format!("meets_{}", letter.to_ascii_lowercase())).collect();
    assert_eq!(behind(CONDITIONS, "conditions = "), list.join(" ∷ ") + " ∷ []");
    assert_eq!((letters.len() as u64, Condition::ALL.len() as u64), (count, count));
    for (c, letter) in letters.chars().enumerate() {
        assert_eq!(Condition::ALL[c].letter(), letter);
        same("bit", 1 << c, valued(&format!("CONDITION_{letter}")), Condition::ALL[c].bit() as u64);
    }
}

#[test]
fn refusals() {
    let numbers = [
        ("PLAN_TOO_LONG", Reason::PlanTooLong, stated(FAULTS, "too_long", " 0")),
        ("LINE_WRONG", Reason::LineWrong, stated(FAULTS, "act_line", "")),
        ("MALFORMED", Reason::Malformed, stated(FORMS, "no_number", "")),
        ("OUT_OF_RANGE", Reason::OutOfRange, stated(FORMS, "above", "")),
        ("TOO_MANY_ACTIVITIES", Reason::TooManyActivities, stated(FAULTS, "line_65", "")),
        ("ID_REPEATED", Reason::IdRepeated, stated(FAULTS, "same_id", "")),
        ("AFTER_NOT_EARLIER", Reason::AfterNotEarlier, stated(FAULTS, "no_earlier", " (suc (suc i))")),
        ("LIST_WRONG", Reason::ListWrong, stated(FORMS, "no_rise", "")),
        ("HANDOVER_UNMET", Reason::HandoverUnmet, stated(FAULTS, "not_reachable", " 0")),
        ("SLICE_TOO_SHORT", Reason::SliceTooShort, stated(PROMISE, "pub short", " 0) × (after ≡ lent)")),
        ("NO_SUCH_PLACE", Reason::NoSuchPlace, stated(PROMISE, "pub no_place", " 0")),
        ("SET_TOO_LARGE", Reason::SetTooLarge, stated(PROMISE, "pub no_set", " 0")),
        ("OUT_OF_WINDOW", Reason::OutOfWindow, stated(FORMS, "out_of_window", "")),
    ];
    assert_eq!(numbers.map(|(_, reason, _)| reason), Reason::ALL);
    assert_eq!(valued("REFUSAL_NONE"), 0);
    for (name, reason, specified) in numbers {
        same(name, specified, valued(&format!("REFUSAL_{name}")), reason.number().into());
    }
}
