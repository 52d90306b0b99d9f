// Cases worked by hand: document 01's example, its table of refusals, its edges, and the cases beside them, document 02's too.

use differential::calls::{outcome, output, report, starts};
use differential::cases::{cases, tabs, EXAMPLE};
use differential::conditions::warm_up;
use differential::demand::check_report;
use differential::placing::Outcome;
use differential::reading::{read, refuse};
use differential::tally::Tally;

#[test]
fn outputs_of_the_cases() {
    for case in cases() {
        let told = String::from_utf8_lossy(&case.output).into_owned();
        assert_eq!(String::from_utf8_lossy(&output(&case.plan)), told, "{}", case.name);
    }
}

#[test]
fn rows_10_to_12_and_their_order() {
    let plan = tabs(EXAMPLE);
    assert_eq!(report(&plan, 0), refuse(10, 0));
    assert_eq!(outcome(&plan, 4), refuse(11, 0));
    assert_eq!(starts(&plan, 0, 512, 2_048), refuse(12, 0));
    assert_eq!(starts(&plan, 4, 512, 0), refuse(11, 0));
    assert_eq!(starts(&plan, 3, 512, 0), refuse(12, 0));
    assert_eq!(starts(&plan, 3, 511, 0), refuse(10, 0));
    assert_eq!(outcome(b"", 9), refuse(2, 1));
    assert_eq!(starts(b"", 9, 512, 0), refuse(2, 1));
    assert_eq!(report(b"", 0), refuse(2, 1));
}

#[test]
fn lent_slices_just_long_enough() {
    let plan = tabs(EXAMPLE);
    let text = output(&plan);
    assert_eq!(report(&plan, text.len()).unwrap(), text);
    assert_eq!(report(&plan, text.len() - 1), refuse(10, 0));
    assert_eq!(starts(&plan, 0, 0, 1).unwrap(), [(0, 15)]);
    assert_eq!(starts(&plan, 1, 511, 0).unwrap(), []);
}

// w of an activity at tick 0 of a plan that begins at q.
fn entry(q: i64) -> i64 {
    let mut plan = read(&tabs(EXAMPLE)).unwrap();
    plan.minute = q * 5;
    warm_up(&plan, &plan.activities[0], 0)
}

#[test]
fn edges_1_and_2() {
    assert_eq!([entry(168), entry(179), entry(180)], [4, 4, 5]);
    assert_eq!([entry(24), entry(0), entry(287)], [16, 14, 13]);
    assert_eq!([entry(157), entry(156), entry(23), entry(25)], [4, 5, 15, 15]);
}

#[test]
fn edges_3_to_5() {
    let plan = tabs(EXAMPLE);
    assert_eq!(starts(&plan, 3, 511, 9).unwrap(), [(15, 18)]);
    assert_eq!(starts(&plan, 3, 8, 9).unwrap(), [(15, 18)]);
    assert_eq!(starts(&plan, 1, 1, 9).unwrap(), [(0, 8)]);
    assert_eq!(starts(&plan, 0, 256, 9).unwrap(), [(4, 15)]);
}

#[test]
fn outcomes_of_the_example() {
    let plan = tabs(EXAMPLE);
    let all: Vec<Outcome> = (0..4).map(|place| outcome(&plan, place).unwrap()).collect();
    assert_eq!(all, [Outcome::Placed(10), Outcome::Refused(3), Outcome::Refused(128), Outcome::Placed(15)]);
}

// Activity 7 holds unit 0, the one engine and 4 of the peak of 10 in ticks 10 to 14, and its end is 15.
#[test]
fn starts_of_the_example() {
    let plan = tabs(EXAMPLE);
    assert_eq!(starts(&plan, 1, 2, 9).unwrap(), [(15, 17)]);
    assert_eq!(starts(&plan, 2, 4, 9).unwrap(), [(0, 8), (15, 18)]);
    assert_eq!(starts(&plan, 2, 16, 9).unwrap(), [(0, 8), (15, 18)]);
    assert_eq!(starts(&plan, 2, 32, 9).unwrap(), [(0, 8), (15, 18)]);
    assert_eq!(starts(&plan, 2, 128, 9).unwrap(), []);
    assert_eq!(starts(&plan, 3, 128, 9).unwrap(), [(0, 18)]);
    assert_eq!(starts(&plan, 2, 383, 9).unwrap(), [(15, 18)]);
}

#[test]
fn runs_one_tick_apart() {
    let plan = tabs("plan 10 840 100 0 14 0 0 64 0 0 0\nact 1 1 3 0 0:0:2,4:4:4,6:9:9 - - - - 0 0 0 0 0\n");
    assert_eq!(starts(&plan, 0, 1, 3).unwrap(), [(0, 2), (4, 4), (6, 7)]);
    assert_eq!(starts(&plan, 0, 1, 2), refuse(10, 0));
}

// Heater ticks below 0 left out, the charge keeps the floor up to start 3.
#[test]
fn charge_is_judged_alone() {
    let plan = tabs("plan 10 840 100 10 14 0 0 64 0 0 1\nact 1 1 1 0 - - - - - 0 0 1 0 1\n");
    assert_eq!(starts(&plan, 0, 64, 9).unwrap(), [(0, 3)]);
    assert_eq!(starts(&plan, 0, 256, 9).unwrap(), [(4, 9)]);
    assert_eq!(starts(&plan, 0, 320, 9).unwrap(), []);
}

// What the check says of a plan whose report has another end line.
fn checked(plan: &str, lines: &str, end: &str) -> Result<(), String> {
    let plan = read(&tabs(plan)).unwrap();
    check_report(&plan, &tabs(&format!("{lines}{end}\n")), &mut Tally::default()).map(|_| ())
}

// The charge is 40 at tick 0 and 46 at tick 10, 36 35 34 35 at ticks 15 to 18, and 37 at T.
#[test]
fn the_check_finds_a_wrong_lowest_charge() {
    let lines = "7 placed 10 15\n8 refused WD\n9 refused V\n10 placed 15 17\n";
    let said = |end: &str| checked(EXAMPLE, lines, end);
    assert_eq!(said("end 2 2 37 50 34 17"), Ok(()));
    for wrong in ["34 16", "34 18", "34 0", "34 20", "34 21", "34 -1", "33 17", "35 17", "35 16", "40 0", "37 20"] {
        assert!(said(&format!("end 2 2 37 50 {wrong}")).is_err(), "{wrong}");
    }
    for wrong in ["", " 34", " 34 17 17", " 17 34"] {
        assert!(said(&format!("end 2 2 37 50{wrong}")).is_err(), "{wrong}");
    }
}

// The charge is 20 22 24 26 20 22 24.
#[test]
fn the_check_finds_a_later_tick() {
    let plan = "plan 6 840 100 0 20 2 0 0 0 0 0\nact 1 1 1 3 - - - - - 0 0 8 0 0\n";
    assert_eq!(checked(plan, "1 placed 3 4\n", "end 1 0 24 0 20 0"), Ok(()));
    assert!(checked(plan, "1 placed 3 4\n", "end 1 0 24 0 20 4").is_err());
}

// 2 may start at 2, 3, 12, 13 and 14, since 1 holds 4 to 8; from their windows' p they are 4, 3, 2, 1 and 0.
#[test]
fn the_check_finds_a_start_that_is_not_the_nearest() {
    let plan = "plan 20 840 100 0 100 0 0 64 0 0 0
act 1 1 5 4 - - 0 - - 0 0 0 0 0
act 2 2 1 3 2:6:8,12:14:14 - 0 - - 0 0 0 0 0
";
    let said =
        |start: i64| checked(plan, &format!("1 placed 4 9\n2 placed {start} {}\n", start + 1), "end 2 0 100 0 100 0");
    assert_eq!(said(14), Ok(()));
    for wrong in [0, 2, 3, 4, 6, 9, 12, 13, 15] {
        assert!(said(wrong).is_err(), "{wrong}");
    }
}

// 4 and 9 to 11 are held. As near as the start that is due are, in turn: 5 in the same window, none, 12 and 8 in the later
// one, none.
#[test]
fn the_check_finds_the_later_of_two_as_near() {
    let held = "plan 20 840 100 0 100 0 0 64 0 0 0
act 1 1 1 4 - - 0 - - 0 0 0 0 0
act 2 2 3 9 - - 0 - - 0 0 0 0 0
";
    let said = |windows: &str, start: i64| {
        let plan = format!("{held}act 3 3 1 12 {windows} - 0 - - 0 0 0 0 0\n");
        let lines = format!("1 placed 4 5\n2 placed 9 12\n3 placed {start} {}\n", start + 1);
        checked(&plan, &lines, "end 3 0 100 0 100 0")
    };
    for (windows, due) in
        [("3:4:5,6:10:13", 3), ("4:4:6,7:10:13", 5), ("2:4:4,9:11:13", 3), ("0:2:3,5:8:12", 2), ("-", 12)]
    {
        for start in 0..20 {
            assert_eq!(said(windows, start).is_ok(), start == due, "{windows}, {start}");
        }
    }
}
