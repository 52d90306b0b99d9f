// Plans worked by hand from documents 01 and 02, with the output that the program must give.

pub struct Case {
    pub name: String,
    pub plan: Vec<u8>,
    pub output: Vec<u8>,
}

pub const P: &str = "plan 20 840 100 20 40 1 0 1 10 50 1\n";
pub const A: &str = "act 7 1 5 10 - - 0 - 1=3 1 4 3 10 1\n";

// The input of document 01.
pub const EXAMPLE: &str = "plan 20 840 100 20 40 1 0 1 10 50 1
act 7 1 5 10 - - 0 - 1=3 1 4 3 10 1
act 8 2 3 0 0:0:8 7 - - - 0 0 0 0 0
act 9 3 2 12 - - 0 1=3 - 1 7 2 41 0
act 10 4 2 12 - - 0 1=3 - 1 7 2 40 0
";

const EXAMPLE_REPORT: &str = "7 placed 10 15
8 refused WD
9 refused V
10 placed 15 17
end 2 2 37 50 34 17
";

// Plans are written here with a blank for each tab.
pub fn tabs(text: &str) -> Vec<u8> {
    text.replace(' ', "\t").into_bytes()
}

fn case(name: &str, plan: &str, output: &str) -> Case {
    Case { name: name.to_string(), plan: tabs(plan), output: tabs(output) }
}

pub fn cases() -> Vec<Case> {
    let mut cases = vec![case("the input of document 01", EXAMPLE, EXAMPLE_REPORT)];
    cases.extend(refusal_table());
    cases.extend(order_of_checks());
    cases.extend(windows());
    let placings = [EDGES, CHARGE, STATE, HEATER, STARTS, WINDOWS, SHARED, LETTERS, LOWEST];
    for (name, plan, output) in placings.concat() {
        cases.push(case(name, plan, output));
    }
    cases
}

// P and an activity for each id from 1, asking for nothing.
fn many(count: usize) -> String {
    (1..=count).fold(P.to_string(), |text, id| text + &format!("act {id} 1 1 0 - - - - - 0 0 0 0 0\n"))
}

// Rows 1 to 9 of the table in document 01.
fn refusal_table() -> Vec<Case> {
    let mut cases = vec![
        case("row 2, empty file", "", "no 2 1\n"),
        case("row 3, id 07", &(P.to_string() + &A.replace("act 7", "act 07")), "no 3 2\n"),
        case("row 4, T 4097", &P.replace("plan 20", "plan 4097"), "no 4 1\n"),
        case("row 5, 65 activities", &many(65), "no 5 66\n"),
        case("row 6, P, A, A", &(P.to_string() + A + A), "no 6 3\n"),
        case("row 7, A with after 7", &(P.to_string() + &A.replace("10 - - 0", "10 - 7 0")), "no 7 2\n"),
        case("row 8, window 9:9:8", &(P.to_string() + &A.replace("10 - - 0", "10 9:9:8 - 0")), "no 8 2\n"),
        case("row 9, handover 61", &P.replace("40 1 0 1", "40 1 61 1"), "no 9 0\n"),
    ];
    let over = Case { name: "row 1, 60,001 bytes".to_string(), plan: padded(60_001), output: tabs("no 1 0\n") };
    cases.insert(0, over);
    cases
}

// P and an activity whose list of units fills the file to a length.
fn padded(length: usize) -> Vec<u8> {
    let (before, behind) = ("act 7 1 5 10 - - ", "0 - 1=3 1 4 3 10 1\n");
    let room = length - P.len() - before.len() - behind.len();
    let items = if room % 2 == 0 { "1,".repeat(room / 2) } else { "1,".repeat(room / 2 - 1) + "11," };
    tabs(&(P.to_string() + before + &items + behind))
}

// Which of several refusals comes first, and what each of them covers.
fn order_of_checks() -> Vec<Case> {
    let with = |from: &str, to: &str| P.to_string() + &A.replace(from, to);
    let mut cases = vec![
        Case { name: "60,000 bytes aren't too many".to_string(), plan: padded(60_000), output: tabs("no 8 2\n") },
        case("64 activities are accepted", &many(64), &sixty_four()),
        case("a line feed alone", "\n", "no 2 1\n"),
        case("first line of an activity", A, "no 2 1\n"),
        case("a first line only, without LF", P.trim_end(), "no 2 1\n"),
        case("last line without LF", &(P.to_string() + A.trim_end()), "no 2 2\n"),
        case("last line without LF and with a malformed id", with("act 7", "act x").trim_end(), "no 2 2\n"),
        case("an empty line behind", &(P.to_string() + A + "\n"), "no 2 3\n"),
        case("a second first line", &(P.to_string() + P), "no 2 2\n"),
        case("a tab at the end of a line", &with("10 1\n", "10 1 \n"), "no 2 2\n"),
        case("a field too few and a malformed one", &with("act 7 1 5", "act 7 x"), "no 2 2\n"),
        case("a malformed field before a short line", &(with("act 7", "act x") + "act\n"), "no 3 2\n"),
        case("carriage return", &P.replace('\n', "\r\n"), "no 3 1\n"),
        case("a byte that is no digit", &with("act 7", "act 7\0"), "no 3 2\n"),
        case("an empty field", &with("10 - - 0", "10 -  0"), "no 3 2\n"),
        case("eleven digits", &P.replace("plan 20", "plan 10000000000"), "no 3 1\n"),
        case("ten digits", &P.replace("plan 20", "plan 9999999999"), "no 4 1\n"),
        case("00", &with("10 1\n", "10 00\n"), "no 3 2\n"),
        case("warm 2", &with("10 1\n", "10 2\n"), "no 4 2\n"),
        case("minute 1440", &P.replace("840", "1440"), "no 4 1\n"),
        case("capacity 0", &P.replace("100", "0"), "no 4 1\n"),
        case("floor over capacity", &P.replace("100 20", "100 101"), "no 4 1\n"),
        case("first charge under floor", &P.replace("20 40", "20 19"), "no 4 1\n"),
        case("duration over T", &with("7 1 5", "7 1 21"), "no 4 2\n"),
        case("out of range before malformed", &with("7 1 5", "65536 x 5"), "no 4 2\n"),
        case("a list's dash among items", &with("10 - - 0", "10 - - 0,-"), "no 3 2\n"),
        case("a list's empty item", &with("10 - - 0", "10 - - 0,"), "no 3 2\n"),
        case("a window out of range and turned round", &with("10 - - 0", "10 4096:8:8 - 0"), "no 4 2\n"),
        case("a window turned round, then one malformed", &with("10 - - 0", "10 9:9:8,1 - 0"), "no 3 2\n"),
        case("a window turned round, then one out of range", &with("10 - - 0", "10 9:9:8,10:10:4096 - 0"), "no 4 2\n"),
        case("windows that touch", &with("10 - - 0", "10 1:3:3,3:4:4 - 0"), "no 8 2\n"),
        case("five windows, the last malformed", &with("10 - - 0", "10 0:0:0,1:1:1,2:2:2,3:3:3,x - 0"), "no 3 2\n"),
        case("five windows", &with("10 - - 0", "10 0:0:0,1:1:1,2:2:2,3:3:3,4:4:4 - 0"), "no 8 2\n"),
        case("nine in after", &with("10 - - 0", "10 - 1,2,3,4,5,6,8,9,10 0"), "no 8 2\n"),
        case("unit 32", &with("10 - - 0", "10 - - 32"), "no 4 2\n"),
        case("units not rising", &with("10 - - 0", "10 - - 3,2"), "no 8 2\n"),
        case("a variable twice", &with("1=3", "1=3,1=4"), "no 8 2\n"),
        case("units not rising, the last out of range", &with("10 - - 0", "10 - - 3,2,32"), "no 4 2\n"),
        case("an id out of range, then a malformed one", &with("10 - - 0", "10 - 65536,x 0"), "no 3 2\n"),
        case("ids not rising, the last out of range", &with("10 - - 0", "10 - 2,1,65536 0"), "no 4 2\n"),
        case("a value out of range, then one malformed", &with("1=3", "1=256,2"), "no 3 2\n"),
        case("a variable twice, with a value out of range", &with("1=3", "1=3,1=256"), "no 4 2\n"),
        case("variable 8", &with("1=3", "8=0"), "no 4 2\n"),
        case("value 256", &with("1=3", "1=256"), "no 4 2\n"),
        case("five sets", &with("1=3", "0=0,1=0,2=0,3=0,4=0"), "no 8 2\n"),
        case("65th line with a field too few", &(many(64) + "act 65 1 1 0 - - - - - 0 0 0 0\n"), "no 2 66\n"),
        case("65th line with a malformed field", &(many(64) + "act x 1 1 0 - - - - - 0 0 0 0 0\n"), "no 5 66\n"),
        case("65th line with an id again", &(many(64) + "act 1 1 1 0 - - - - - 0 0 0 0 0\n"), "no 5 66\n"),
        case("an id again, and a malformed field", &(P.to_string() + A + &A.replace("10 1\n", "10 x\n")), "no 3 3\n"),
        case("an id again, behind an `after` of no one", &(with("10 - - 0", "10 - 9 0") + A), "no 6 3\n"),
    ];
    for (name, plan, output) in AFTER {
        cases.push(case(name, plan, output));
    }
    cases
}

// A's windows, and the refusal that they draw.
#[rustfmt::skip]
const REFUSED_WINDOWS: &[(&str, &str, u32)] = &[
    ("a window of one number", "4", 3),
    ("a window of two numbers, the old form", "0:8", 3),
    ("a window of four numbers", "0:4:8:12", 3),
    ("a window without its p", "0::8", 3),
    ("a window of three numbers, then one of two", "0:0:1,3:4", 3),
    ("a window of two numbers, then one of three", "0:1,3:3:4", 3),
    ("a p with a leading zero", "0:04:8", 3),
    ("a window with the sign of a need", "0=4=8", 3),
    ("a p over 4,095, its b too", "0:4096:4096", 4),
    ("a p over 4,095 and over its b", "0:4096:8", 4),
    ("a p over 4,095 in a window turned round", "9:4096:8", 4),
    ("a p below its a in a window turned round", "9:7:8", 8),
    ("a p between the bounds of a window turned round", "9:8:7", 8),
    ("a p below its a, then a window that doesn't rise", "5:4:9,9:9:9", 8),
    ("a p below its a in the first of five windows", "1:0:1,2:2:2,3:3:3,4:4:4,5:5:5", 8),
    ("a p below its a in the fifth window", "0:0:0,1:1:1,2:2:2,3:3:3,5:4:5", 8),
    ("a p below its a", "5:4:9", 13),
    ("a p over its b", "5:10:9", 13),
    ("a p far below its a", "4095:0:4095", 13),
    ("a p far over its b", "0:4095:0", 13),
    ("a p below the only tick of its window", "5:4:5", 13),
    ("a p over the only tick of its window", "5:6:5", 13),
    ("a p of the second window below its a", "0:0:1,3:2:4", 13),
    ("a p of the fourth window over its b", "0:0:0,1:1:1,2:2:2,3:4:3", 13),
    ("the p of each of two windows in the other", "0:3:1,3:1:4", 13),
    ("windows with 3, 4, 8 and 13", "5:4:9,8:8:4096,7", 3),
    ("the same without the malformed one: 4, 8 and 13", "5:4:9,8:8:4096,7:7:7", 4),
    ("the same with its numbers in range: 8 and 13", "5:4:9,8:8:14,7:7:7", 8),
    ("the same with windows that rise: 13", "5:4:9,12:12:14,17:17:17", 13),
];

// The refusals of windows, alone and beside other faults.
fn windows() -> Vec<Case> {
    let with = |windows: &str| P.to_string() + &A.replace("10 - - 0", &format!("10 {windows} - 0"));
    let refused = |name: &str, plan: &str, number: u32| case(name, plan, &format!("no {number} 2\n"));
    let outside = with("5:4:9");
    let beside = |name: &str, from: &str, to: &str, number: u32| refused(name, &outside.replace(from, to), number);
    let again = outside[P.len()..].to_string();
    let mut cases: Vec<Case> = REFUSED_WINDOWS.iter().map(|row| refused(row.0, &with(row.1), row.2)).collect();
    cases.extend([
        // The charge rises from 40 to 42, is 42 while the heater draws in ticks 2 to 5, falls to 32 at 11 and rises to 41.
        case(
            "the same with each p in its window",
            &with("5:6:9,12:12:14,17:17:17"),
            "7 placed 6 11\nend 1 0 41 10 32 11\n",
        ),
        beside("13 after a malformed preferred field", "5 10 5:4:9", "5 x 5:4:9", 3),
        beside("13 after a preferred field over 4,095", "5 10 5:4:9", "5 4096 5:4:9", 4),
        beside("13 after a field too few", "10 1\n", "10\n", 2),
        beside("13 before a malformed field behind it", "5:4:9 -", "5:4:9 x", 13),
        beside("13 before a list behind it that doesn't rise", "5:4:9 - 0", "5:4:9 - 3,2", 13),
        beside("13 before an `after` of no one", "5:4:9 -", "5:4:9 9", 13),
        beside("13 before a handover charge out of reach", "40 1 0 1", "40 1 61 1", 13),
        refused("13 before a line without its LF", &(outside.clone() + "act"), 13),
        case("13 before an id again", &(P.to_string() + A + &again), "no 13 3\n"),
        case("65th line with a p outside its window", &(many(64) + &again.replace("act 7", "act 65")), "no 5 66\n"),
    ]);
    cases
}

// 64 activities of one tick asking for nothing, all preferring tick 0; P's charge rises from 40 to 60.
fn sixty_four() -> String {
    (1..=64).fold(String::new(), |text, id| text + &format!("{id} placed 0 1\n")) + "end 64 0 60 0 40 0\n"
}

type Text = (&'static str, &'static str, &'static str);

const AFTER: &[Text] = &[
    (
        "`after` of two places: the least place first, not the first line",
        "plan 9 0 1 0 0 0 0 0 0 0 0\nact 1 9 1 0 - 5 - - - 0 0 0 0 0\nact 2 1 1 0 - 6 - - - 0 0 0 0 0\n",
        "no 7 3\n",
    ),
    (
        "`after` of an earlier line at a later place",
        "plan 9 0 1 0 0 0 0 0 0 0 0\nact 1 9 1 0 - - - - - 0 0 0 0 0\nact 2 1 1 0 - 1 - - - 0 0 0 0 0\n",
        "no 7 3\n",
    ),
    (
        "`after` of a later line at an earlier place",
        "plan 9 0 1 0 0 0 0 0 0 0 0\nact 1 9 1 0 - 2 - - - 0 0 0 0 0\nact 2 1 2 3 - - - - - 0 0 0 0 0\n",
        "2 placed 3 5\n1 placed 5 6\nend 2 0 0 0 0 0\n",
    ),
    (
        "`after` at equal priority goes by line",
        "plan 9 0 1 0 0 0 0 0 0 0 0\nact 1 4 1 0 - 2 - - - 0 0 0 0 0\nact 2 4 1 0 - - - - - 0 0 0 0 0\n",
        "no 7 2\n",
    ),
    (
        "one of two in `after` is unknown",
        "plan 9 0 1 0 0 0 0 0 0 0 0\nact 1 4 1 0 - - - - - 0 0 0 0 0\nact 2 4 1 0 - 1,3 - - - 0 0 0 0 0\n",
        "no 7 3\n",
    ),
    ("7 before 9", "plan 9 0 5 0 0 0 1 0 0 0 0\nact 1 4 1 0 - 2 - - - 0 0 0 0 0\n", "no 7 2\n"),
    ("9 after all lines", "plan 9 0 5 0 0 0 1 0 0 0 0\nact 1 4 1 0 - - - - - 0 0 0 0 2\n", "no 4 2\n"),
];

const EDGES: &[Text] = &[
    ("edge 6, handover 60", "plan 20 840 100 20 40 1 60 1 10 50 1\n", "end 0 0 60 0 40 0\n"),
    (
        "edge 7, valid 8 and 16, preferred 12",
        "plan 20 840 100 20 40 1 0 1 10 50 1
act 1 1 6 10 - - 0 - - 0 0 0 0 0
act 2 2 2 12 - - 0 - - 0 0 0 0 0
",
        "1 placed 10 16\n2 placed 8 10\nend 2 0 60 0 40 0\n",
    ),
    (
        "edge 8, s + d = T",
        "plan 20 840 100 20 40 1 0 1 10 50 1\nact 1 1 3 19 - - - - - 0 0 0 0 0\n",
        "1 placed 17 20\nend 1 0 60 0 40 0\n",
    ),
    // 40 - 4 * 5 = 20, the floor, from tick 7 on; one more is under it.
    (
        "edge 9, charge equal to the floor",
        "plan 10 840 100 20 40 0 0 64 0 0 0
act 1 1 4 3 - - - - - 0 0 5 0 0
act 2 2 1 3 - - - - - 0 0 1 0 0
",
        "1 placed 3 7\n2 refused B\nend 1 1 20 0 20 7\n",
    ),
    ("no activities", "plan 5 0 10 0 3 1 0 0 0 0 0\n", "end 0 0 8 0 3 0\n"),
    ("no activities, capacity reached", "plan 5 0 6 0 3 1 0 0 0 0 0\n", "end 0 0 6 0 3 0\n"),
    (
        "T 1",
        "plan 1 0 1 1 1 0 1 0 0 0 0
act 0 0 1 4095 - - - - - 0 0 0 0 0
act 1 0 1 0 - - - - - 0 0 1 0 0
",
        "0 placed 0 1\n1 refused B\nend 1 1 1 0 1 0\n",
    ),
];

const CHARGE: &[Text] = &[
    // With 1 at 4 the charge is 10 10 10 10 10 7 4. Beside it 2 at 4 gives 3, -4; at 3 gives 8, 1, -2;
    // at 2 gives 8, 6, 3, 0.
    (
        "capacity reached, the rest is lost",
        "plan 6 840 10 0 10 2 0 64 0 0 0
act 1 1 2 4 - - - - - 0 0 5 0 0
act 2 2 2 4 - - - - - 0 0 4 0 0
",
        "1 placed 4 6\n2 placed 2 4\nend 2 0 0 0 0 6\n",
    ),
    // With 1 at 0 the charge is 10 -10 90 190; at 1 it is 10 110 90 190.
    (
        "below zero and up again",
        "plan 3 840 1000 0 10 100 0 64 0 0 0\nact 1 1 1 0 - - - - - 0 0 120 0 0\n",
        "1 placed 1 2\nend 1 0 190 0 10 0\n",
    ),
    (
        "far below zero in a trial, then a small draw",
        "plan 5 840 10 0 10 0 0 64 0 0 0
act 1 1 5 0 - - - - - 0 0 1000000 0 0
act 2 2 5 0 - - - - - 0 0 2 0 0
",
        "1 refused B\n2 placed 0 5\nend 1 1 0 0 0 5\n",
    ),
    // 2 leaves 14 behind its own ticks, and the placed 1 then needs 20.
    (
        "charge missing behind the candidate's own ticks",
        "plan 10 840 100 0 30 0 0 64 0 0 0
act 1 1 2 8 8:8:8 - - - - 0 0 10 0 0
act 2 2 2 0 - - - - - 0 0 8 0 0
",
        "1 placed 8 10\n2 refused B\nend 1 1 10 0 10 10\n",
    ),
    (
        "handover charge missing at T alone",
        "plan 10 840 100 0 50 0 50 64 0 0 0
act 1 1 1 4 - - - - - 0 0 1 0 0
act 2 2 1 4 - - - - - 0 0 0 0 0
",
        "1 refused B\n2 placed 4 5\nend 1 1 50 0 50 0\n",
    ),
    // The charge may be under the handover charge before T: from 9 it ends at 45, from 5 at 49, from 4 at 50.
    (
        "handover charge reached again by T",
        "plan 10 840 50 0 50 1 50 64 0 0 0\nact 1 1 1 9 - - - - - 0 0 6 0 0\n",
        "1 placed 4 5\nend 1 0 50 0 45 5\n",
    ),
];

const STATE: &[Text] = &[
    // 2 takes effect at s + 2, which must be 8 or later.
    (
        "a set that spoils a placed need",
        "plan 20 840 100 0 100 0 0 64 0 0 0
act 1 1 3 5 5:5:5 - - 0=0 - 0 0 0 0 0
act 2 2 2 0 - - - - 0=1 0 0 0 0 0
",
        "1 placed 5 8\n2 placed 6 8\nend 2 0 100 0 100 0\n",
    ),
    (
        "a set to the needed value spoils nothing",
        "plan 20 840 100 0 100 0 0 64 0 0 0
act 1 1 3 5 5:5:5 - - 0=0 - 0 0 0 0 0
act 2 2 2 0 - - - - 0=0,1=4 0 0 0 0 0
",
        "1 placed 5 8\n2 placed 0 2\nend 2 0 100 0 100 0\n",
    ),
    (
        "equal effect ticks: the later place stands, not the later line",
        "plan 20 840 100 0 100 0 0 64 0 0 0
act 2 2 4 1 1:1:1 - - - 0=2 0 0 0 0 0
act 1 1 2 3 3:3:3 - - - 0=1 0 0 0 0 0
act 3 3 2 9 - - - 0=2 - 0 0 0 0 0
act 4 4 2 9 - - - 0=1 - 0 0 0 0 0
",
        "1 placed 3 5\n2 placed 1 5\n3 placed 9 11\n4 refused S\nend 3 1 100 0 100 0\n",
    ),
    // The value is 2 at ticks 4 and 5 only.
    (
        "the later effect tick stands, of whatever place",
        "plan 20 840 100 0 100 0 0 64 0 0 0
act 1 1 2 4 4:4:4 - - - 0=1 0 0 0 0 0
act 2 2 2 2 2:2:2 - - - 0=2 0 0 0 0 0
act 3 3 2 19 - - - 0=2 - 0 0 0 0 0
",
        "1 placed 4 6\n2 placed 2 4\n3 placed 4 6\nend 3 0 100 0 100 0\n",
    ),
    (
        "a need met only by 0 at tick 0",
        "plan 10 840 100 0 100 0 0 64 0 0 0
act 1 1 1 0 0:0:0 - - - 3=5 0 0 0 0 0
act 2 2 1 9 - - - 3=0 - 0 0 0 0 0
",
        "1 placed 0 1\n2 placed 0 1\nend 2 0 100 0 100 0\n",
    ),
    (
        "a set doesn't meet its own activity's need",
        "plan 10 840 100 0 100 0 0 64 0 0 0\nact 1 1 2 3 - - - 0=1 0=1 0 0 0 0 0\n",
        "1 refused S\nend 0 1 100 0 100 0\n",
    ),
    (
        "a set may end its own activity's value",
        "plan 10 840 100 0 100 0 0 64 0 0 0\nact 1 1 2 3 - - - 0=0 0=1 0 0 0 0 0\n",
        "1 placed 3 5\nend 1 0 100 0 100 0\n",
    ),
    // The value changes at 6.
    (
        "a need unmet at the last ticks only",
        "plan 12 840 100 0 100 0 0 64 0 0 0
act 1 1 2 4 4:4:4 - - - 0=1 0 0 0 0 0
act 2 2 4 4 - - - 0=0 - 0 0 0 0 0
",
        "1 placed 4 6\n2 placed 2 6\nend 2 0 100 0 100 0\n",
    ),
    (
        "of two needs one is never met",
        "plan 12 840 100 0 100 0 0 64 0 0 0\nact 1 1 2 4 - - - 0=0,7=255 - 0 0 0 0 0\n",
        "1 refused S\nend 0 1 100 0 100 0\n",
    ),
];

const HEATER: &[Text] = &[
    // w is 4. At 3 three heater ticks and one draw leave 10, the floor; from 4 on there are four.
    (
        "heater ticks below 0 draw nothing",
        "plan 10 840 100 10 14 0 0 64 0 0 1\nact 1 1 1 0 - - - - - 0 0 1 0 1\n",
        "1 refused BH\nend 0 1 14 0 14 0\n",
    ),
    // Each draws 8 in ticks 0 to 3, and 20 - 16 = 4 is the floor, from tick 4 on.
    (
        "heaters add up",
        "plan 10 840 100 4 20 0 0 64 0 0 2
act 1 1 1 4 - - - - - 0 0 0 0 1
act 2 2 1 4 - - - - - 0 0 0 0 1
act 3 3 1 4 - - - - - 0 0 0 0 1
",
        "1 placed 4 5\n2 placed 4 5\n3 refused BH\nend 2 1 4 0 4 4\n",
    ),
    (
        "the heater holds no unit and no engine",
        "plan 10 840 100 0 20 0 0 1 5 0 0
act 1 1 4 0 0:0:0 - 2 - - 1 5 0 0 0
act 2 2 2 4 - - 2 - - 1 5 0 0 1
",
        "1 placed 0 4\n2 placed 4 6\nend 2 0 20 0 20 0\n",
    ),
    // Minutes 1,440 to 1,449 are q 0 and 1, where w is 14, so 14 is the first start; 14 heater ticks.
    (
        "warm-up over midnight",
        "plan 20 1435 100 0 20 0 0 0 0 0 1\nact 1 1 1 0 - - - - - 0 0 0 0 1\n",
        "1 placed 14 15\nend 1 0 6 0 6 14\n",
    ),
    (
        "warm-up longer than the plan",
        "plan 3 840 100 0 20 0 0 0 0 0 1\nact 1 1 1 0 - - - - - 0 0 0 9 1\nact 2 1 1 0 - - - - - 0 0 0 0 1\n",
        "1 refused H\n2 refused H\nend 0 2 20 0 20 0\n",
    ),
];

const STARTS: &[Text] = &[
    (
        "a window bounds the start only",
        "plan 20 840 100 0 100 0 0 64 0 0 0\nact 1 1 9 7 3:4:4 - - - - 0 0 0 0 0\n",
        "1 placed 4 13\nend 1 0 100 0 100 0\n",
    ),
    (
        "windows behind the last start",
        "plan 20 840 100 0 100 0 0 64 0 0 0\nact 1 1 9 7 12:12:19,4095:4095:4095 - - - - 0 0 0 0 0\n",
        "1 refused W\nend 0 1 100 0 100 0\n",
    ),
    (
        "preferred tick behind the last start",
        "plan 20 840 100 0 100 0 0 64 0 0 0\nact 1 1 9 4095 - - - - - 0 0 0 0 0\n",
        "1 placed 11 20\nend 1 0 100 0 100 0\n",
    ),
    (
        "a tie of two starts",
        "plan 12 840 100 0 100 0 0 64 0 0 0
act 1 1 3 4 4:4:4 - 0 - - 0 0 0 0 0
act 2 2 1 5 - - 0 - - 0 0 0 0 0
",
        "1 placed 4 7\n2 placed 3 4\nend 2 0 100 0 100 0\n",
    ),
    (
        "priority, then line",
        "plan 10 840 100 0 100 0 0 64 0 0 0
act 5 9 2 0 - - 1 - - 0 0 0 0 0
act 6 1 2 0 - - 1 - - 0 0 0 0 0
act 3 9 2 0 - - 1 - - 0 0 0 0 0
",
        "6 placed 0 2\n5 placed 2 4\n3 placed 4 6\nend 3 0 100 0 100 0\n",
    ),
    (
        "after two, the later end counts",
        "plan 20 840 100 0 100 0 0 64 0 0 0
act 4 1 3 4 - - - - - 0 0 0 0 0
act 1 2 3 0 - - - - - 0 0 0 0 0
act 9 3 2 0 - 1,4 - - - 0 0 0 0 0
",
        "4 placed 4 7\n1 placed 0 3\n9 placed 7 9\nend 3 0 100 0 100 0\n",
    ),
    (
        "after a refused one",
        "plan 10 840 100 0 100 0 0 64 0 5 0
act 1 1 1 0 - - - - - 0 0 0 6 0
act 2 2 1 0 - 1 - - - 0 0 0 5 0
act 3 3 1 0 - 2 - - - 0 0 0 0 0
",
        "1 refused V\n2 refused D\n3 refused D\nend 0 3 100 0 100 0\n",
    ),
];

// Windows with preferred ticks of their own, where the preferred field asks for another start.
const WINDOWS: &[Text] = &[
    (
        "p at either end of a window and between them",
        "plan 20 840 100 0 100 0 0 64 0 0 0
act 1 1 1 9 3:3:9 - - - - 0 0 0 0 0
act 2 2 1 3 3:9:9 - - - - 0 0 0 0 0
act 3 3 1 3 3:6:9 - - - - 0 0 0 0 0
act 4 4 1 3 6:6:6 - - - - 0 0 0 0 0
act 5 5 1 3 - - - - - 0 0 0 0 0
",
        "1 placed 3 4\n2 placed 9 10\n3 placed 6 7\n4 placed 6 7\n5 placed 3 4\nend 5 0 100 0 100 0\n",
    ),
    // 4 to 8 are held. 2 has 13; of 12 and 14, as near to 13, 3 has the first; 3 is 3 from 6, and 2 is 4 from it.
    (
        "the nearer start in the later of two windows",
        "plan 20 840 100 0 100 0 0 64 0 0 0
act 1 1 5 4 - - 0 - - 0 0 0 0 0
act 2 2 1 3 2:6:8,12:13:14 - 0 - - 0 0 0 0 0
act 3 3 1 3 2:6:8,12:13:14 - 0 - - 0 0 0 0 0
act 4 4 1 3 2:6:8,12:13:14 - 0 - - 0 0 0 0 0
act 5 5 1 2 2:6:8,12:13:14 - 0 - - 0 0 0 0 0
act 6 6 1 3 2:6:8,12:13:14 - 0 - - 0 0 0 0 0
act 7 7 1 3 2:6:8,12:13:14 - 0 - - 0 0 0 0 0
",
        "1 placed 4 9
2 placed 13 14
3 placed 12 13
4 placed 14 15
5 placed 3 4
6 placed 2 3
7 refused WU
end 6 1 100 0 100 0
",
    ),
    // Each of the two windows has its p, then one on each side of it, then two.
    (
        "ties of starts in two windows go to the earlier start",
        "plan 20 840 100 0 100 0 0 64 0 0 0
act 1 1 1 11 2:4:6,9:11:13 - 0 - - 0 0 0 0 0
act 2 2 1 4 2:4:6,9:11:13 - 0 - - 0 0 0 0 0
act 3 3 1 12 2:4:6,9:11:13 - 0 - - 0 0 0 0 0
act 4 4 1 12 2:4:6,9:11:13 - 0 - - 0 0 0 0 0
act 5 5 1 12 2:4:6,9:11:13 - 0 - - 0 0 0 0 0
act 6 6 1 2 2:4:6,9:11:13 - 0 - - 0 0 0 0 0
act 7 7 1 13 2:4:6,9:11:13 - 0 - - 0 0 0 0 0
act 8 8 1 13 2:4:6,9:11:13 - 0 - - 0 0 0 0 0
act 9 9 1 13 2:4:6,9:11:13 - 0 - - 0 0 0 0 0
",
        "1 placed 4 5
2 placed 11 12
3 placed 3 4
4 placed 5 6
5 placed 10 11
6 placed 12 13
7 placed 2 3
8 placed 6 7
9 placed 9 10
end 9 0 100 0 100 0
",
    ),
    // 4 to 6 are held, and 3 and 7 are as near to 5.
    (
        "a tie of two starts in one window",
        "plan 20 840 100 0 100 0 0 64 0 0 0
act 1 1 3 4 - - 0 - - 0 0 0 0 0
act 2 2 1 9 0:5:9 - 0 - - 0 0 0 0 0
",
        "1 placed 4 7\n2 placed 3 4\nend 2 0 100 0 100 0\n",
    ),
    // 0 to 4 and 6 to 8 are held. 5 is 5 from 0, and 9 is 3 from 6; 5 is 1 from 6, but not in its window.
    (
        "the p of the window that holds the start, not the p that is nearest",
        "plan 20 840 100 0 100 0 0 64 0 0 0
act 1 1 5 0 - - 0 - - 0 0 0 0 0
act 2 2 3 6 - - 0 - - 0 0 0 0 0
act 3 3 1 5 0:0:5,6:6:9 - 0 - - 0 0 0 0 0
",
        "1 placed 0 5\n2 placed 6 9\n3 placed 9 10\nend 3 0 100 0 100 0\n",
    ),
    // 4 is 4 from 0, and 5 is 4 from 9.
    (
        "a tie of two starts side by side in two windows",
        "plan 20 840 100 0 100 0 0 64 0 0 0
act 1 1 4 0 - - 0 - - 0 0 0 0 0
act 2 2 4 6 - - 0 - - 0 0 0 0 0
act 3 3 1 5 0:0:4,5:9:9 - 0 - - 0 0 0 0 0
act 4 4 1 4 0:0:4,5:9:9 - 0 - - 0 0 0 0 0
",
        "1 placed 0 4\n2 placed 6 10\n3 placed 4 5\n4 placed 5 6\nend 4 0 100 0 100 0\n",
    ),
    // The last start is 11. For 2 it is 7 from 18, and 2 is its window's p; for 4 the later window has no start.
    (
        "p behind the last start, in a window that reaches beyond it",
        "plan 20 840 100 0 100 0 0 64 0 0 0
act 1 1 9 0 5:18:19 - - - - 0 0 0 0 0
act 2 2 9 11 0:2:3,5:18:19 - - - - 0 0 0 0 0
act 3 3 9 0 0:4095:4095 - - - - 0 0 0 0 0
act 4 4 9 9 0:0:1,12:12:19 - - - - 0 0 0 0 0
",
        "1 placed 11 20\n2 placed 2 11\n3 placed 11 20\n4 placed 0 9\nend 4 0 100 0 100 0\n",
    ),
    // w is 4, so 0 to 3 are too early; the last start is 9. 4 is 3 from 1, and 9 is 2 from 11 and 3 from 12.
    (
        "p too early for the warm-up, and p behind the last start",
        "plan 11 840 100 0 100 0 0 64 0 0 0
act 1 1 2 0 0:1:5,7:11:12 - - - - 0 0 0 0 1
act 2 2 2 9 0:1:5,7:12:12 - - - - 0 0 0 0 1
",
        "1 placed 9 11\n2 placed 4 6\nend 2 0 100 0 100 0\n",
    ),
    // 12 may start from 6 on, which is 5 from 1, and 11 holds 8; 7 and 9 are 1 from it.
    (
        "an end in the way of the first p, a unit in that of the second",
        "plan 20 840 100 0 100 0 0 64 0 0 0
act 10 1 6 0 0:0:0 - - - - 0 0 0 0 0
act 11 2 1 1 8:8:8 - 0 - - 0 0 0 0 0
act 12 3 1 1 0:1:6,7:8:12 10 0 - - 0 0 0 0 0
",
        "10 placed 0 6\n11 placed 8 9\n12 placed 7 8\nend 3 0 100 0 100 0\n",
    ),
];

const SHARED: &[Text] = &[
    // 1 holds unit 3 in ticks 2 to 4; 2 may start at 0 or from 5 on.
    (
        "a unit held up to the last tick",
        "plan 10 840 100 0 100 0 0 64 0 0 0
act 1 1 3 2 2:2:2 - 3 - - 0 0 0 0 0
act 2 2 2 3 - - 1,3 - - 0 0 0 0 0
act 3 3 2 3 - - 1 - - 0 0 0 0 0
",
        "1 placed 2 5\n2 placed 5 7\n3 placed 3 5\nend 3 0 100 0 100 0\n",
    ),
    (
        "engines up to the limit",
        "plan 4 840 100 0 100 0 0 3 0 0 0
act 1 1 4 0 - - - - - 2 0 0 0 0
act 2 2 4 0 - - - - - 1 0 0 0 0
act 3 3 1 0 - - - - - 1 0 0 0 0
act 4 4 1 0 - - - - - 0 0 0 0 0
",
        "1 placed 0 4\n2 placed 0 4\n3 refused E\n4 placed 0 1\nend 3 1 100 0 100 0\n",
    ),
    (
        "peaks up to the limit",
        "plan 4 840 100 0 100 0 0 0 30 0 0
act 1 1 2 0 - - - - - 0 20 0 0 0
act 2 2 4 0 - - - - - 0 11 0 0 0
act 3 3 4 0 - - - - - 0 10 0 0 0
act 4 4 1 0 - - - - - 0 1 0 0 0
",
        "1 placed 0 2\n2 refused P\n3 placed 0 4\n4 placed 2 3\nend 3 1 100 0 100 0\n",
    ),
    (
        "volumes up to the limit",
        "plan 4 840 100 0 100 0 0 0 0 1000000000 0
act 1 1 1 0 - - - - - 0 0 0 1000000000 0
act 2 2 1 0 - - - - - 0 0 0 1 0
act 3 3 1 0 - - - - - 0 0 0 0 0
",
        "1 placed 0 1\n2 refused V\n3 placed 0 1\nend 2 1 100 1000000000 100 0\n",
    ),
];

const LETTERS: &[Text] = &[
    (
        "W and H",
        "plan 10 840 100 0 100 0 0 1 0 0 0\nact 1 1 1 5 0:3:3 - - - - 0 0 0 0 1\n",
        "1 refused WH\nend 0 1 100 0 100 0\n",
    ),
    // V fails at every start, so every other letter goes.
    (
        "V beside a closed window",
        "plan 10 840 100 0 100 0 0 1 0 3 0\nact 1 1 1 5 12:13:13 - - - - 2 0 0 4 0\n",
        "1 refused V\nend 0 1 100 0 100 0\n",
    ),
    // U bars 0 and 1, E bars 2 and 3, W bars 4 and 5.
    (
        "three letters",
        "plan 6 840 100 0 100 0 0 1 0 0 0
act 1 1 2 0 0:0:0 - 0 - - 0 0 0 0 0
act 2 2 2 2 2:2:2 - - - - 1 0 0 0 0
act 3 3 1 5 0:3:3 - 0 - - 1 0 0 0 0
",
        "1 placed 0 2\n2 placed 2 4\n3 refused WUE\nend 2 1 100 0 100 0\n",
    ),
    (
        "four letters",
        "plan 8 840 100 0 100 0 0 1 9 0 0
act 1 1 2 0 0:0:0 - 0 - - 0 0 0 0 0
act 2 2 2 2 2:2:2 - - - - 1 0 0 0 0
act 3 3 2 4 4:4:4 - - - - 0 9 0 0 0
act 4 4 1 5 0:5:5 - 0 - - 1 1 0 0 0
",
        "1 placed 0 2\n2 placed 2 4\n3 placed 4 6\n4 refused WUEP\nend 3 1 100 0 100 0\n",
    ),
    // U, E and P bar the same ticks; the last of them is left.
    (
        "letters that bar the same ticks",
        "plan 4 840 100 0 100 0 0 1 9 0 0
act 1 1 4 0 - - 0 - - 1 9 0 0 0
act 2 2 1 0 - - 0 - - 1 9 0 0 0
",
        "1 placed 0 4\n2 refused P\nend 1 1 100 0 100 0\n",
    ),
    // D bars 0 and 1, U 2 and 3, S 4 and 5, E 6 and 7, P 8 and 9, B 10 and 11, W 12 and 13. The charge is 100 up to
    // tick 10, then 0 0 50 100.
    (
        "seven letters",
        "plan 14 840 100 0 100 50 0 1 9 0 0
act 1 1 2 0 0:0:0 - - - - 0 0 0 0 0
act 2 2 2 2 2:2:2 - 0 - - 0 0 0 0 0
act 3 3 1 3 3:3:3 - - - 0=1 0 0 0 0 0
act 4 4 1 5 5:5:5 - - - 0=0 0 0 0 0 0
act 5 5 2 6 6:6:6 - - - - 1 0 0 0 0
act 6 6 2 8 8:8:8 - - - - 0 9 0 0 0
act 7 7 2 10 10:10:10 - - - - 0 0 50 0 0
act 8 8 1 10 10:10:10 - - - - 0 0 100 0 0
act 9 9 1 7 0:7:11 1 0 0=0 - 1 1 10 0 0
",
        "1 placed 0 2
2 placed 2 4
3 placed 3 4
4 placed 5 6
5 placed 6 8
6 placed 8 10
7 placed 10 12
8 placed 10 11
9 refused WDUSEPB
end 8 1 100 0 0 11
",
    ),
];

// The lowest charge and the first tick that has it; each comment has the charge from tick 0 on.
const LOWEST: &[Text] = &[
    // 30 33 36 37 38 41 44: in ticks 2 and 3 less is drawn than charged.
    (
        "lowest at tick 0, though something draws",
        "plan 6 840 100 0 30 3 0 0 0 0 0\nact 1 1 2 2 - - - - - 0 0 2 0 0\n",
        "1 placed 2 4\nend 1 0 44 0 30 0\n",
    ),
    // 30 31 32 33 34 35 16: the last tick draws.
    (
        "lowest at T alone",
        "plan 6 840 100 0 30 1 0 0 0 0 0\nact 1 1 1 5 - - - - - 0 0 20 0 0\n",
        "1 placed 5 6\nend 1 0 16 0 16 6\n",
    ),
    // Drawn in every tick: 5000 - 4096.
    (
        "lowest at T, the last of 4,096 ticks",
        "plan 4096 840 10000 0 5000 0 0 0 0 0 0\nact 1 1 4096 0 - - - - - 0 0 1 0 0\n",
        "1 placed 0 4096\nend 1 0 904 0 904 4096\n",
    ),
    // 50 50 50 40 45 50 50 50 50 40 45: at 3 and at 9, and the activity that draws at 2 has the later place.
    (
        "two ticks have the lowest: the first, of whatever place",
        "plan 10 840 50 0 50 5 0 0 0 0 0
act 1 1 1 8 - - - - - 0 0 15 0 0
act 2 2 1 2 - - - - - 0 0 15 0 0
",
        "1 placed 8 9\n2 placed 2 3\nend 2 0 45 0 40 3\n",
    ),
    // 20 22 24 26 20 22 24
    (
        "tick 0 and a later one have the lowest",
        "plan 6 840 100 0 20 2 0 0 0 0 0\nact 1 1 1 3 - - - - - 0 0 8 0 0\n",
        "1 placed 3 4\nend 1 0 24 0 20 0\n",
    ),
    // 50 50 44 44 44 44 44 38 38: at T too.
    (
        "a later tick and T have the lowest",
        "plan 8 840 50 0 50 0 0 0 0 0 0
act 1 1 1 1 - - - - - 0 0 6 0 0
act 2 2 1 6 - - - - - 0 0 6 0 0
",
        "1 placed 1 2\n2 placed 6 7\nend 2 0 38 0 38 7\n",
    ),
    // 30 32 22 22 22 22 24 26 28: 2 draws what is charged.
    (
        "ticks in a row have the lowest",
        "plan 8 840 100 0 30 2 0 0 0 0 0
act 1 1 1 1 - - - - - 0 0 12 0 0
act 2 2 3 2 - - - - - 0 0 2 0 0
",
        "1 placed 1 2\n2 placed 2 5\nend 2 0 28 0 22 2\n",
    ),
    // 40 42 44 45 36 37 38 39 40 42 44: 1 goes on behind 2 and draws less than is charged.
    (
        "lowest before the last activity ends",
        "plan 10 840 100 0 40 2 0 0 0 0 0
act 1 1 6 2 - - - - - 0 0 1 0 0
act 2 2 1 3 - - - - - 0 0 10 0 0
",
        "1 placed 2 8\n2 placed 3 4\nend 2 0 44 0 36 4\n",
    ),
    // w is 4. 30 32 34 31 28 25 22 24 26 28 30: the floor is reached at 6, behind the heater and before the activity,
    // which draws nothing.
    (
        "lowest behind a heater alone",
        "plan 10 840 100 22 30 2 0 0 0 0 5\nact 1 1 2 6 - - - - - 0 0 0 0 1\n",
        "1 placed 6 8\nend 1 0 30 0 22 6\n",
    ),
    // w is 4. 30 30 26 22 18 14 13 12 12: with a heater of 4 and then a draw of 1 for 2 ticks.
    (
        "lowest behind a heater and its activity",
        "plan 8 840 30 0 30 0 0 0 0 0 4\nact 1 1 2 5 - - - - - 0 0 1 0 1\n",
        "1 placed 5 7\nend 1 0 12 0 12 7\n",
    ),
    // 10 3 8 13 18 20 20 5 10
    (
        "the capacity is reached behind the lowest",
        "plan 8 840 20 0 10 5 0 0 0 0 0
act 1 1 1 0 - - - - - 0 0 12 0 0
act 2 2 1 6 - - - - - 0 0 20 0 0
",
        "1 placed 0 1\n2 placed 6 7\nend 2 0 10 0 3 1\n",
    ),
    // 10 3 8 13 18 20 20 2 7: without the capacity it would be 10 at 7, and the lowest 3.
    (
        "what is over the capacity is missing at the lowest",
        "plan 8 840 20 0 10 5 0 0 0 0 0
act 1 1 1 0 - - - - - 0 0 12 0 0
act 2 2 1 6 - - - - - 0 0 23 0 0
",
        "1 placed 0 1\n2 placed 6 7\nend 2 0 7 0 2 7\n",
    ),
    // 30 30 30 25 25 25 25: 1 would have gone down to 5.
    (
        "a refused activity lowers nothing",
        "plan 6 840 100 10 30 0 0 0 0 0 0
act 1 1 1 2 - - - - - 0 0 25 0 0
act 2 2 1 2 - - - - - 0 0 5 0 0
",
        "1 refused B\n2 placed 2 3\nend 1 1 25 0 25 3\n",
    ),
    ("no activities, nothing charged", "plan 5 0 10 0 3 0 0 0 0 0 0\n", "end 0 0 3 0 3 0\n"),
    ("no activities, the battery is full", "plan 5 0 6 0 6 1 0 0 0 0 0\n", "end 0 0 6 0 6 0\n"),
    (
        "no activities, the greatest charge",
        "plan 1 0 1000000000 1000000000 1000000000 1000000 1000000000 0 0 0 0\n",
        "end 0 0 1000000000 0 1000000000 0\n",
    ),
];
