// Texts of explain worked by hand from docs/EXPLAIN.md and document 01.

use differential::cases::{tabs, A, EXAMPLE, P};
use differential::explain::explain;
use differential::explain_files::{with_field, ENDS};

fn explained(plan: &[u8]) -> String {
    String::from_utf8(explain(plan)).expect("ASCII")
}

// The text for a plan that is written with a blank for each tab.
fn text(plan: &str) -> String {
    explained(&tabs(plan))
}

const FIRST: &str = "12 fields parted by one tab each, the first of them plan, and LF at the end";
const OTHER: &str = "15 fields parted by one tab each, the first of them act, and LF at the end";

const WORDS_2: &str = "the first word or the number of fields is wrong, or the line does not end in LF";
const WORDS_3: &str = "a number or an item of a list is not written as it must be, or the field is empty";
const WORDS_4: &str = "a number is out of its range";
const WORDS_8: &str = "the list does not rise, a window ends before it begins, or there are too many items";
const WORDS_13: &str = "a preferred tick lies outside its window";

const WINDOWS: &str =
    "windows, - or up to 4 of the form a:p:b, 0 to 4095, each a at most its b and above the b before, \
                       each p from its a to its b";

const P_SHOWN: &str = r"plan\t20\t840\t100\t20\t40\t1\t0\t1\t10\t50\t1\n";
const A_SHOWN: &str = r"act\t7\t1\t5\t10\t-\t-\t0\t-\t1=3\t1\t4\t3\t10\t1\n";

#[test]
fn the_input_of_document_01() {
    let told = "accepted, activities: 4
place 0, activity 7: placed from 10 to 15
  valid starts: 4-15
place 1, activity 8: refused WD
  W: the start is in one of its windows
    starts that meet the other letters: 15-17
    starts that meet all other conditions: 15-17
  D: each activity in after is placed and ends by the start
    starts that meet the other letters: 0-8
    starts that meet all other conditions: 0-8
place 2, activity 9: refused V
  V: the volumes sum to at most the volume limit
    starts that meet the other letters: 0-18
    starts that meet all other conditions: 15-18
place 3, activity 10: placed from 15 to 17
  valid starts: 15-18
";
    assert_eq!(text(EXAMPLE), told);
}

#[test]
fn no_activities() {
    assert_eq!(text(P), "accepted, activities: 0\n");
}

// Places go by priority, the text too.
#[test]
fn places_in_order() {
    let plan = P.to_string() + "act 5 2 1 0 - - - - - 0 0 0 0 0\nact 6 1 2 0 - - - - - 0 0 0 0 0\n";
    let told = "accepted, activities: 2
place 0, activity 6: placed from 0 to 2
  valid starts: 0-18
place 1, activity 5: placed from 0 to 1
  valid starts: 0-19
";
    assert_eq!(text(&plan), told);
}

#[test]
fn refusal_1() {
    let told = "refused 1 at line 0: the file has more than 60000 bytes\n";
    assert_eq!(explained(&[b'\n'; 60_001]), told);
    assert_eq!(explained(&[255; 200_000]), told);
    assert_eq!(
        explained(&[b'\n'; 60_000]),
        format!("refused 2 at line 1: {WORDS_2}\nline 1: \\n\nfields: 1\nmust be: {FIRST}\n")
    );
}

// The whole text of refusal 2: its line, the bytes shown, the number of fields.
fn refused_2(line: usize, shown: &str, fields: usize) -> String {
    let must_be = if line == 1 { FIRST } else { OTHER };
    format!("refused 2 at line {line}: {WORDS_2}\nline {line}: {shown}\nfields: {fields}\nmust be: {must_be}\n")
}

#[test]
fn refusal_2() {
    assert_eq!(explained(b""), refused_2(1, "", 1));
    assert_eq!(explained(b"\n"), refused_2(1, r"\n", 1));
    assert_eq!(explained(b"plan\n"), refused_2(1, r"plan\n", 1));
    assert_eq!(explained(b"\t\n"), refused_2(1, r"\t\n", 2));
    assert_eq!(text(&P.replace("plan", "Plan")), refused_2(1, &P_SHOWN.replace("plan", "Plan"), 12));
    assert_eq!(text(&P.replace("plan 20", "plan")), refused_2(1, &P_SHOWN.replace(r"plan\t20", "plan"), 11));
    assert_eq!(text(&P.replace("plan", "plan 1")), refused_2(1, &P_SHOWN.replace("plan", r"plan\t1"), 13));
    assert_eq!(text(&(P.to_string() + "\n")), refused_2(2, r"\n", 1));
    assert_eq!(text(&(P.to_string() + A + P)), refused_2(3, P_SHOWN, 12));
    assert_eq!(
        text(&(P.to_string() + &A.replace("act", "act 1"))),
        refused_2(2, &A_SHOWN.replace("act", r"act\t1"), 16)
    );
}

// Without LF the last byte doesn't count among the fields, whatever it is.
#[test]
fn refusal_2_without_lf() {
    assert_eq!(explained(b"x"), refused_2(1, "x", 1));
    assert_eq!(explained(b"\t"), refused_2(1, r"\t", 1));
    assert_eq!(explained(b"plan\t"), refused_2(1, r"plan\t", 1));
    assert_eq!(explained(b"plan\t\t"), refused_2(1, r"plan\t\t", 2));
    assert_eq!(text(P.trim_end()), refused_2(1, P_SHOWN.trim_end_matches(r"\n"), 12));
    assert_eq!(text(&(P.to_string() + A.trim_end())), refused_2(2, A_SHOWN.trim_end_matches(r"\n"), 15));
    assert_eq!(text(&(P.to_string() + A + "act")), refused_2(3, "act", 1));
}

// What an editor may leave: spaces for tabs, a byte order mark, CR.
#[test]
fn bytes_of_an_editor() {
    assert_eq!(explained(b"plan 20 840\n"), refused_2(1, r"plan 20 840\n", 1));
    let marked = [b"\xef\xbb\xbf".to_vec(), tabs(P)].concat();
    assert_eq!(explained(&marked), refused_2(1, &(r"\xef\xbb\xbf".to_string() + P_SHOWN), 12));
    let told = format!(
        "refused 3 at line 1: {WORDS_3}\nline 1: {}\nfields: 12\nfield 12: 1\\r\nmust be: heater draw, 0 to 1000000\n",
        P_SHOWN.replace(r"\n", r"\r\n")
    );
    assert_eq!(text(&P.replace('\n', "\r\n")), told);
}

#[test]
fn every_byte() {
    let all: Vec<u8> = (0..=255).filter(|&byte| byte != b'\n').collect();
    let shown = [
        r"\x00\x01\x02\x03\x04\x05\x06\x07\x08\t\x0b\x0c\r\x0e\x0f",
        r"\x10\x11\x12\x13\x14\x15\x16\x17\x18\x19\x1a\x1b\x1c\x1d\x1e\x1f",
        r##" !"#$%&'()*+,-./0123456789:;<=>?@ABCDEFGHIJKLMNOPQRSTUVWXYZ[\\]^_"##,
        r"`abcdefghijklmnopqrstuvwxyz{|}~\x7f",
        r"\x80\x81\x82\x83\x84\x85\x86\x87\x88\x89\x8a\x8b\x8c\x8d\x8e\x8f",
        r"\x90\x91\x92\x93\x94\x95\x96\x97\x98\x99\x9a\x9b\x9c\x9d\x9e\x9f",
        r"\xa0\xa1\xa2\xa3\xa4\xa5\xa6\xa7\xa8\xa9\xaa\xab\xac\xad\xae\xaf",
        r"\xb0\xb1\xb2\xb3\xb4\xb5\xb6\xb7\xb8\xb9\xba\xbb\xbc\xbd\xbe\xbf",
        r"\xc0\xc1\xc2\xc3\xc4\xc5\xc6\xc7\xc8\xc9\xca\xcb\xcc\xcd\xce\xcf",
        r"\xd0\xd1\xd2\xd3\xd4\xd5\xd6\xd7\xd8\xd9\xda\xdb\xdc\xdd\xde\xdf",
        r"\xe0\xe1\xe2\xe3\xe4\xe5\xe6\xe7\xe8\xe9\xea\xeb\xec\xed\xee\xef",
        r"\xf0\xf1\xf2\xf3\xf4\xf5\xf6\xf7\xf8\xf9\xfa\xfb\xfc\xfd\xfe\xff",
    ]
    .concat();
    assert_eq!(explained(&all), refused_2(1, &shown, 2));
    assert_eq!(explained(&[&all[..], b"\n"].concat()), refused_2(1, &(shown + r"\n"), 2));
}

// In a field bytes are written as in the line; an empty field has none.
#[test]
fn bytes_of_a_field() {
    for (field, shown) in
        [("", ""), (" 7", " 7"), ("7 ", "7 "), ("\\", r"\\"), ("\r", r"\r"), ("\0\u{7f}", r"\x00\x7f")]
    {
        let plan = [&tabs(P)[..], b"act\t", field.as_bytes(), &tabs(&A["act 7".len()..])].concat();
        let told = format!(
            "refused 3 at line 2: {WORDS_3}\nline 2: {}\nfields: 15\nfield 2: {shown}\nmust be: id, 0 to 65535\n",
            A_SHOWN.replace(r"act\t7", &(r"act\t".to_string() + shown))
        );
        assert_eq!(explained(&plan), told);
    }
}

#[test]
fn refusal_5() {
    let plan = (1..=65).fold(P.to_string(), |plan, id| plan + &format!("act {id} 1 1 0 - - - - - 0 0 0 0 0\n"));
    let told = r"refused 5 at line 66: this is the 65th activity line, and a plan has at most 64
line 66: act\t65\t1\t1\t0\t-\t-\t-\t-\t-\t0\t0\t0\t0\t0\n
fields: 15
must be: 15 fields parted by one tab each, the first of them act, and LF at the end
";
    assert_eq!(text(&plan), told);
}

#[test]
fn refusal_6() {
    let told = format!(
        "refused 6 at line 3: an earlier line has the same id\nline 3: {A_SHOWN}\nfields: 15\n\
         field 2: 7\nmust be: id, 0 to 65535\n"
    );
    assert_eq!(text(&(P.to_string() + A + A)), told);
}

#[test]
fn refusal_7() {
    let told = format!(
        "refused 7 at line 2: after names an id that no activity at an earlier place has\nline 2: {}\nfields: 15\n\
         field 7: 7,9\nmust be: after, - or up to 8 ids, 0 to 65535, rising\n",
        A_SHOWN.replace(r"10\t-\t-\t0", r"10\t-\t7,9\t0")
    );
    assert_eq!(text(&(P.to_string() + &A.replace("10 - - 0", "10 - 7,9 0"))), told);
}

#[test]
fn refusal_9() {
    let told = "refused 9 at line 0: with nothing placed, the charge at the horizon is under the handover charge\n";
    assert_eq!(text(&P.replace("40 1 0 1", "40 1 61 1")), told);
}

// The text for a file whose last line has a field changed.
fn changed(before: &str, line: &str, field: usize, changed: &str) -> String {
    text(&format!("{before}{}\n", with_field(line.trim_end(), field, changed)))
}

// What is said behind the line's bytes and the number of fields, with the number at the front.
fn check_field(said: String, line: usize, fields: usize, number: u32, field: usize, changed: &str, words: &str) {
    let lines: Vec<&str> = said.lines().collect();
    let numbers = [(3, WORDS_3), (4, WORDS_4), (8, WORDS_8), (13, WORDS_13)];
    let own = numbers.iter().find(|own| own.0 == number).unwrap().1;
    assert_eq!(lines[0], format!("refused {number} at line {line}: {own}"), "{said}");
    assert!(lines[1].starts_with(&format!("line {line}: ")) && lines[1].ends_with(r"\n"), "{said}");
    assert_eq!(lines[2], format!("fields: {fields}"), "{said}");
    assert_eq!(lines[3], format!("field {}: {changed}", field + 1), "{said}");
    assert_eq!(lines[4], format!("must be: {words}"), "{said}");
    assert_eq!(lines.len(), 5, "{said}");
}

#[test]
fn fields_of_line_1() {
    for (field, words, beyond) in [
        (1, "horizon, 1 to 4096", &["0", "4097"][..]),
        (2, "minute of day at tick 0, 0 to 1439", &["1440"]),
        (3, "capacity, 1 to 1000000000", &["0", "1000000001"]),
        (4, "floor, 0 to the capacity", &["101"]),
        (5, "first charge, the floor to the capacity", &["19", "101"]),
        (6, "charging rate, 0 to 1000000", &["1000001"]),
        (7, "handover charge, 0 to the capacity", &["101"]),
        (8, "engines, 0 to 64", &["65"]),
        (9, "peak limit, 0 to 1000000", &["1000001"]),
        (10, "volume limit, 0 to 1000000000", &["1000000001"]),
        (11, "heater draw, 0 to 1000000", &["1000001", "9999999999"]),
    ] {
        for malformed in ["", "x", "07", "-", "10000000000"] {
            check_field(changed("", P, field, malformed), 1, 12, 3, field, malformed, words);
        }
        for beyond in beyond {
            check_field(changed("", P, field, beyond), 1, 12, 4, field, beyond, words);
        }
    }
}

#[test]
fn fields_of_another_line() {
    for (field, words, beyond) in [
        (1, "id, 0 to 65535", &["65536"][..]),
        (2, "priority, 0 to 65535", &["65536"]),
        (3, "duration, 1 to the horizon", &["0", "21"]),
        (4, "preferred tick, 0 to 4095", &["4096"]),
        (5, WINDOWS, &["0:0:4096", "0:4096:0", "4096:4096:4096", "9:9:8,4096:4096:4097", "5:4:9,0:4096:0"]),
        (6, "after, - or up to 8 ids, 0 to 65535, rising", &["65536", "2,1,65536"]),
        (7, "units, - or up to 32 numbers, 0 to 31, rising", &["32", "1,1,32"]),
        (8, "needs, - or up to 4 of the form v=k, v 0 to 7 and rising, k 0 to 255", &["8=0", "0=256"]),
        (9, "sets, - or up to 4 of the form v=k, v 0 to 7 and rising, k 0 to 255", &["8=0", "0=256", "1=0,1=256"]),
        (10, "engines, 0 to 64", &["65"]),
        (11, "peak, 0 to 1000000", &["1000001"]),
        (12, "draw, 0 to 1000000", &["1000001"]),
        (13, "volume, 0 to 1000000000", &["1000000001"]),
        (14, "warm, 0 or 1", &["2"]),
    ] {
        for malformed in ["", "x", "--", "07"] {
            check_field(changed(P, A, field, malformed), 2, 15, 3, field, malformed, words);
        }
        for beyond in beyond {
            check_field(changed(P, A, field, beyond), 2, 15, 4, field, beyond, words);
        }
        let not_rising = match field {
            5 => &["9:9:8", "0:1:1,1:1:2", "0:0:0,1:1:1,2:2:2,3:3:3,4:4:4", "5:4:9,9:9:9"][..],
            6 => &["1,1", "2,1", "0,1,2,3,4,5,6,7,8"],
            7 => &["1,1", "2,1"],
            8 | 9 => &["1=0,1=0", "2=0,1=0", "0=0,1=0,2=0,3=0,4=0"],
            _ => &[],
        };
        for list in not_rising {
            check_field(changed(P, A, field, list), 2, 15, 8, field, list, words);
        }
    }
}

// One to five numbers but three are malformed, and a preferred tick of any window may lie outside it.
#[test]
fn windows_of_three_numbers() {
    for malformed in ["5", "0:8", "0:4:8:12", "0:2:4:6:8", "0:0:1,3:4", "0:1,3:3:4", "5:4:9,4096:0:0,9:8"] {
        check_field(changed(P, A, 5, malformed), 2, 15, 3, 5, malformed, WINDOWS);
    }
    for outside in ["5:4:9", "5:10:9", "4095:0:4095", "0:0:1,3:0:4", "0:3:1,3:3:4", "0:0:0,1:1:1,2:2:2,3:4:3"] {
        check_field(changed(P, A, 5, outside), 2, 15, 13, 5, outside, WINDOWS);
    }
}

#[test]
fn refusal_13() {
    let told = format!(
        "refused 13 at line 2: {WORDS_13}\nline 2: {}\nfields: 15\nfield 6: 0:0:8,12:9:15\nmust be: {WINDOWS}\n",
        A_SHOWN.replace(r"10\t-\t-", r"10\t0:0:8,12:9:15\t-")
    );
    assert_eq!(text(&(P.to_string() + &A.replace("10 - -", "10 0:0:8,12:9:15 -"))), told);
}

// The first field that is wrong is named, whatever the others draw; a range may hang on a field before it.
#[test]
fn the_first_wrong_field() {
    let two = changed(P, "act 7 1 5 10 9:9:8 - x - - 1 4 3 10 2\n", 0, "act");
    check_field(two, 2, 15, 8, 5, "9:9:8", WINDOWS);
    let two = changed(P, "act 7 1 5 10 5:4:9 - x - - 1 4 3 10 2\n", 0, "act");
    check_field(two, 2, 15, 13, 5, "5:4:9", WINDOWS);
    let two = changed(P, "act 7 65536 5 10 9:9:8 - 0 - - 1 4 3 10 07\n", 0, "act");
    check_field(two, 2, 15, 4, 2, "65536", "priority, 0 to 65535");
    check_field(changed("", P, 3, "19"), 1, 12, 4, 4, "20", "floor, 0 to the capacity");
    check_field(changed("", P, 3, "39"), 1, 12, 4, 5, "40", "first charge, the floor to the capacity");
    check_field(changed("", P, 4, "41"), 1, 12, 4, 5, "40", "first charge, the floor to the capacity");
    check_field(changed(&P.replace("plan 20", "plan 4"), A, 0, "act"), 2, 15, 4, 3, "5", "duration, 1 to the horizon");
}

// A number or list at an end of its range is right: the fault behind it is named.
#[test]
fn fields_at_the_ends_of_their_ranges() {
    for (first, other) in ENDS {
        for field in 1..=11 {
            let said = text(&(with_field(first, field, "x") + "\n"));
            assert!(said.starts_with("refused 3 at line 1: "), "{said}");
            assert!(said.contains(&format!("\nfields: 12\nfield {}: x\nmust be: ", field + 1)), "{said}");
        }
        for field in 1..=14 {
            let said = text(&format!("{first}\n{}\n", with_field(other, field, "x")));
            assert!(said.starts_with("refused 3 at line 2: "), "{said}");
            assert!(said.contains(&format!("\nfields: 15\nfield {}: x\nmust be: ", field + 1)), "{said}");
        }
    }
}

// T 10, from 14:00, where a warm-up is 4 ticks; a charge of 50 that remains; 1 engine, a peak and a volume of 10.
const TEN: &str = "plan 10 840 100 0 50 0 0 1 10 10 0\n";

// The last place's lines, after those of the earlier ones.
fn last_of(activities: &str, count: usize) -> String {
    let said = text(&(TEN.to_string() + activities));
    let from = said.find(&format!("place {}, ", count - 1)).expect("the last place");
    said[from..].to_string()
}

fn refused_alone(place: usize, letter: char, words: &str, starts: &str) -> String {
    format!(
        "place {place}, activity {place}: refused {letter}\n  {letter}: {words}\n    starts that meet the other \
         letters: {starts}\n    starts that meet all other conditions: {starts}\n"
    )
}

#[test]
fn each_letter() {
    for (activities, letter, words, starts) in [
        ("act 0 0 2 0 9:9:9 - - - - 0 0 0 0 0\n", 'W', "the start is in one of its windows", "0-8"),
        (
            "act 0 0 10 0 - - - - - 0 0 0 0 0\nact 1 1 1 0 - 0 - - - 0 0 0 0 0\n",
            'D',
            "each activity in after is placed and ends by the start",
            "0-9",
        ),
        (
            "act 0 0 2 4 - - 3 - - 0 0 0 0 0\nact 1 1 9 0 - - 3 - - 0 0 0 0 0\n",
            'U',
            "no placed activity that shares a unit holds one of its ticks",
            "0-1",
        ),
        (
            "act 0 0 2 0 - - - 0=1 - 0 0 0 0 0\n",
            'S',
            "every need, its own and those of the placed, is met in each tick that its activity holds",
            "0-8",
        ),
        ("act 0 0 2 0 - - - - - 2 0 0 0 0\n", 'E', "in every tick the engines sum to at most those of the plan", "0-8"),
        ("act 0 0 2 0 - - - - - 0 11 0 0 0\n", 'P', "in every tick the peaks sum to at most the peak limit", "0-8"),
        (
            "act 0 0 2 0 - - - - - 0 0 26 0 0\n",
            'B',
            "the charge keeps the floor, and the handover charge at the horizon",
            "0-8",
        ),
        ("act 0 0 2 0 - - - - - 0 0 0 11 0\n", 'V', "the volumes sum to at most the volume limit", "0-8"),
        ("act 0 0 7 0 - - - - - 0 0 0 0 1\n", 'H', "the warm-up begins at tick 0 or later", "0-3"),
    ] {
        let count = activities.lines().count();
        assert_eq!(last_of(activities, count), refused_alone(count - 1, letter, words, starts));
    }
}

// Unit 0 is held in ticks 2 and 5. Of the last two, W and U are both needed; V stands alone although no start is in
// the window.
#[test]
fn none_one_and_several_runs() {
    let held = "act 0 0 1 2 - - 0 - - 0 0 0 0 0\nact 1 1 1 5 - - 0 - - 0 0 0 0 0\n";
    let said = |last: &str| last_of(&(held.to_string() + last), 3);
    assert_eq!(
        said("act 2 2 1 2 - - 0 - - 0 0 0 0 0\n"),
        "place 2, activity 2: placed from 1 to 2\n  valid starts: 0-1 3-4 6-9\n"
    );
    assert_eq!(
        said("act 2 2 1 2 4:4:5 - 0 - - 0 0 0 0 0\n"),
        "place 2, activity 2: placed from 4 to 5\n  valid starts: 4-4\n"
    );
    let refused = "place 2, activity 2: refused WU
  W: the start is in one of its windows
    starts that meet the other letters: 0-1 3-4 6-9
    starts that meet all other conditions: 0-1 3-4 6-9
  U: no placed activity that shares a unit holds one of its ticks
    starts that meet the other letters: 2-2 5-5
    starts that meet all other conditions: 2-2 5-5
";
    assert_eq!(said("act 2 2 1 0 2:2:2,5:5:5 - 0 - - 0 0 0 0 0\n"), refused);
    let refused = "place 2, activity 2: refused V
  V: the volumes sum to at most the volume limit
    starts that meet the other letters: 0-9
    starts that meet all other conditions: none
";
    assert_eq!(said("act 2 2 1 0 20:20:30 - 0 - - 0 0 0 11 0\n"), refused);
    assert_eq!(said("act 2 2 1 0 - - 0 - - 0 0 0 11 0\n"), refused.replace("none", "0-1 3-4 6-9"));
}

// Conditions that are not named may exclude each other: 8 of document 01's input, with too large a volume.
#[test]
fn conditions_that_are_not_named() {
    let plan = EXAMPLE.replace("0:0:8 7 - - - 0 0 0 0 0", "0:0:8 7 - - - 0 0 0 41 0");
    let told = "place 1, activity 8: refused V
  V: the volumes sum to at most the volume limit
    starts that meet the other letters: 0-17
    starts that meet all other conditions: none
";
    assert!(plan != EXAMPLE && text(&plan).contains(told));
}
