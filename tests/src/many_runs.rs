// Plans with many runs: short activities on one unit at every second tick, and one more that meets them. And the stored
// plans with the most runs and with the longest report (tests/README.md).

use crate::generator::Generated;

// Numbers of short activities; the last activity has one run more.
pub const SHORT: [usize; 5] = [1, 2, 7, 20, 63];

pub const KIND: &str = "many runs";

pub fn many_runs(short: usize) -> Generated {
    file(format!("many runs {short}"), short, "-")
}

// The same, but the last activity has a window where the first one holds the unit: it is refused.
pub fn many_runs_refused(short: usize) -> Generated {
    file(format!("many runs refused {short}"), short, "1:1:1")
}

fn file(name: String, short: usize, windows: &str) -> Generated {
    let mut text = format!("plan\t{}\t0\t100\t0\t100\t0\t0\t64\t1000\t1000\t0\n", 2 * short + 2);
    for place in 0..short {
        let tick = 2 * place + 1;
        text += &activity(place, &format!("{tick}:{tick}:{tick}"));
    }
    text += &activity(short, windows);
    Generated { name, kind: KIND, bytes: text.into_bytes(), aimed: None }
}

pub const STORED: &str = "stored";

pub fn stored() -> [Generated; 2] {
    let plan =
        |name: &str, bytes: &[u8]| Generated { name: name.into(), kind: STORED, bytes: bytes.into(), aimed: None };
    [
        plan("most runs", include_bytes!("../plans/most_runs.plan")),
        plan("longest report", include_bytes!("../plans/longest_report.plan")),
    ]
}

fn activity(place: usize, windows: &str) -> String {
    format!("act\t{place}\t{place}\t1\t0\t{windows}\t-\t0\t-\t-\t0\t0\t0\t0\t0\n")
}
