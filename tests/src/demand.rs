// Demand 3 as assertions over a report and the tables of starts of the second formulation.

use crate::plan::{Activity, Plan, Window};
use crate::second::{tables, warm_up_table, warmth, Interval};
use crate::tally::Tally;

pub const LETTERS: &str = "WDUSEPBVH";

// A line of the report without its id.
#[derive(Debug, PartialEq)]
pub enum Line {
    Placed(i64, i64),
    Refused(String),
}

pub fn ensure(holds: bool, said: impl Fn() -> String) -> Result<(), String> {
    if holds {
        Ok(())
    } else {
        Err(said())
    }
}

// The report's lines read back: one for each place, with its id, and the numbers of the last.
pub fn read_report(report: &[u8]) -> Option<(Vec<(i64, Line)>, Vec<i64>)> {
    let text = std::str::from_utf8(report).ok()?.strip_suffix('\n')?;
    let mut lines: Vec<Vec<&str>> = text.split('\n').map(|line| line.split('\t').collect()).collect();
    let last = lines.pop()?;
    let end: Vec<i64> = last[1..].iter().filter_map(|text| text.parse().ok()).collect();
    if last[0] != "end" || last.len() != 7 || end.len() != 6 {
        return None;
    }
    let mut read = Vec::new();
    for line in lines {
        let id = line[0].parse().ok()?;
        read.push(match (line.get(1).copied()?, line.len()) {
            ("placed", 4) => (id, Line::Placed(line[2].parse().ok()?, line[3].parse().ok()?)),
            ("refused", 3) => (id, Line::Refused(line[2].to_string())),
            _ => return None,
        });
    }
    Some((read, end))
}

// Every line of the report against the tables of its place; gives the tables.
pub fn check_report(plan: &Plan, report: &[u8], tally: &mut Tally) -> Result<Vec<Vec<Vec<bool>>>, String> {
    let (lines, end) = read_report(report).ok_or("the report has another form")?;
    let order = order(plan);
    ensure(lines.len() == order.len(), || "the report has another number of lines".to_string())?;
    let mut placed: Vec<Interval> = Vec::new();
    let mut all_tables = Vec::new();
    for (place, (id, line)) in lines.iter().enumerate() {
        let activity = &plan.activities[order[place]];
        ensure(activity.id == *id, || format!("place {place} has id {id}"))?;
        let tables = tables(plan, activity, &placed);
        check_line(line, activity, &tables, tally).map_err(|said| format!("place {place}: {said}"))?;
        if let Line::Placed(start, _) = line {
            placed.push(Interval::new(activity, *start));
        }
        all_tables.push(tables);
    }
    let charges = check_finished(plan, &placed)?;
    let volume = placed.iter().map(|p| p.activity.volume).sum();
    let told = [placed.len() as i64, (lines.len() - placed.len()) as i64, charges[charges.len() - 1], volume];
    ensure(end[..4] == told, || format!("the last line has {end:?}, not {told:?}"))?;
    check_lowest(&charges, end[4], end[5], tally).map_err(|said| format!("the last line has {end:?}: {said}"))?;
    Ok(all_tables)
}

// For each place the activity before which as many others come.
fn order(plan: &Plan) -> Vec<usize> {
    let before = |j: usize, i: usize| {
        let (one, other) = (plan.activities[j].priority, plan.activities[i].priority);
        one < other || (one == other && j < i)
    };
    let count = plan.activities.len();
    let place = |i: usize| (0..count).filter(|&j| before(j, i)).count();
    (0..count).map(|at| (0..count).find(|&i| place(i) == at).unwrap()).collect()
}

fn check_line(line: &Line, activity: &Activity, tables: &[Vec<bool>], tally: &mut Tally) -> Result<(), String> {
    let valid = in_common(tables, |_| true);
    match line {
        Line::Placed(start, end) => {
            ensure(valid.contains(start), || format!("start {start} isn't valid"))?;
            ensure(*end == start + activity.duration, || format!("end {end}"))?;
            let ranks = ranks(activity, &valid);
            ensure(ranks.len() == valid.len(), || "a valid start isn't in one window".to_string())?;
            let &(distance, first) = ranks.iter().min().expect("a valid start");
            ensure(first == *start, || format!("start {first} comes before {start}"))?;
            let last = tables[0].len() as i64 - 1;
            let tie = ranks.iter().any(|other| other.0 == distance && other.1 != *start);
            tally.placed(*start, last, tie);
            tally_windows(activity, *start, last, &valid, tally);
        }
        Line::Refused(letters) => {
            ensure(valid.is_empty(), || format!("refused, but {} is valid", valid[0]))?;
            check_letters(letters, tables)?;
            tally.refused(letters);
        }
    }
    Ok(())
}

// Each valid start behind its distance, window by window: to the preferred tick of the window; of an activity without
// windows, to its own. The least of these pairs is the start that is due.
fn ranks(activity: &Activity, valid: &[i64]) -> Vec<(i64, i64)> {
    let to = |preferred: i64| move |&start: &i64| ((start - preferred).abs(), start);
    if activity.windows.is_empty() {
        return valid.iter().map(to(activity.preferred)).collect();
    }
    let of = |w: &Window| valid.iter().filter(|&start| (w.from..=w.to).contains(start)).map(to(w.preferred)).collect();
    activity.windows.iter().map(of).collect::<Vec<Vec<_>>>().concat()
}

// What a start in a window shows.
fn tally_windows(activity: &Activity, start: i64, last: i64, valid: &[i64], tally: &mut Tally) {
    let Some(own) = activity.windows.iter().rposition(|w| w.from <= start) else {
        return;
    };
    let preferred = activity.windows[own].preferred;
    let distance = (start - preferred).abs();
    let distances = |w: &Window| -> Vec<i64> {
        let starts = valid.iter().filter(|&s| (w.from..=w.to).contains(s));
        starts.map(|s| (s - w.preferred).abs()).collect()
    };
    let by_window: Vec<Vec<i64>> = activity.windows.iter().map(distances).collect();
    let least: Vec<Option<&i64>> = by_window.iter().map(|distances| distances.iter().min()).collect();
    let tie = least[own + 1..].contains(&Some(&distance));
    let by_field = valid.iter().map(|s| ((s - activity.preferred).abs(), *s)).min();
    let to_any = |s: i64| activity.windows.iter().map(|w| (s - w.preferred).abs()).min();
    let by_any = valid.iter().map(|s| (to_any(*s), *s)).min();
    let shown = [
        distance == 0,
        distance > 0,
        own > 0,
        by_window[..own].iter().any(|distances| !distances.is_empty()),
        tie && distance == 0,
        tie && distance > 0,
        by_window[own].iter().filter(|&other| *other == distance).count() > 1,
        preferred > last,
        by_field.is_some_and(|field| field.1 != start),
        by_any.is_some_and(|any| any.1 != start),
    ];
    tally.in_window(shown);
}

// The starts that meet each chosen letter, letters by number.
pub fn in_common(tables: &[Vec<bool>], chosen: impl Fn(usize) -> bool) -> Vec<i64> {
    let met = |s: i64| (0..9).filter(|&c| chosen(c)).all(|c| tables[c][s as usize]);
    (0..tables[0].len() as i64).filter(|&s| met(s)).collect()
}

fn check_letters(letters: &str, tables: &[Vec<bool>]) -> Result<(), String> {
    let numbers: Vec<usize> = letters.chars().filter_map(|letter| LETTERS.find(letter)).collect();
    let rising = numbers.len() == letters.len() && numbers.windows(2).all(|two| two[0] < two[1]);
    ensure(rising, || format!("letters {letters} aren't in order"))?;
    let named = |c: usize| numbers.contains(&c);
    ensure(in_common(tables, named).is_empty(), || format!("letters {letters} have a start in common"))?;
    for &out in &numbers {
        ensure(!in_common(tables, |c| named(c) && c != out).is_empty(), || {
            format!("letters {letters}: {out} could be left out")
        })?;
    }
    // At its turn a letter stood beside the letters left before it and all behind it.
    for turn in 0..9 {
        let others = in_common(tables, |c| c > turn || (c < turn && named(c)));
        ensure(named(turn) != others.is_empty(), || format!("letters {letters}: letter {turn} at its turn"))?;
    }
    Ok(())
}

// No charge is under the lowest; the one at its tick is the lowest, and no earlier one is.
fn check_lowest(charges: &[i64], lowest: i64, tick: i64, tally: &mut Tally) -> Result<(), String> {
    for (t, &charge) in charges.iter().enumerate() {
        ensure(charge >= lowest, || format!("the charge is {charge} at tick {t}"))?;
        ensure(charge > lowest || t as i64 >= tick, || format!("tick {t} has that charge"))?;
    }
    ensure(usize::try_from(tick).is_ok_and(|tick| charges.get(tick) == Some(&lowest)), || {
        format!("tick {tick} doesn't have that charge")
    })?;
    let again = charges[tick as usize + 1..].contains(&lowest);
    tally.lowest(tick as usize, charges.len() - 1, again);
    Ok(())
}

// The finished schedule played tick by tick breaks no limit; gives the charges at ticks 0 to T.
fn check_finished(plan: &Plan, placed: &[Interval]) -> Result<Vec<i64>, String> {
    let table = warm_up_table();
    let mut charge = plan.first_charge;
    let mut charges = Vec::new();
    let mut state = [0; 8];
    for tick in 0..=plan.horizon {
        let broken = |letter: char| format!("the finished schedule breaks {letter} at tick {tick}");
        for p in placed.iter().filter(|p| p.end == tick) {
            for &(variable, value) in &p.activity.sets {
                state[variable as usize] = value;
            }
        }
        let holding: Vec<&Interval> = placed.iter().filter(|p| p.start <= tick && tick < p.end).collect();
        let mut units: Vec<i64> = holding.iter().flat_map(|p| p.activity.units.clone()).collect();
        let count = units.len();
        units.sort();
        units.dedup();
        ensure(units.len() == count, || broken('U'))?;
        let met = holding.iter().all(|p| p.activity.needs.iter().all(|need| state[need.0 as usize] == need.1));
        ensure(met, || broken('S'))?;
        ensure(holding.iter().map(|p| p.activity.engines).sum::<i64>() <= plan.engines, || broken('E'))?;
        ensure(holding.iter().map(|p| p.activity.peak).sum::<i64>() <= plan.peak, || broken('P'))?;
        ensure(charge >= plan.floor && (tick < plan.horizon || charge >= plan.handover), || broken('B'))?;
        charges.push(charge);
        if tick < plan.horizon {
            let heating = |p: &&Interval| p.start - warmth(plan, p, &table) <= tick && tick < p.start;
            let heaters = placed.iter().filter(heating).count() as i64;
            let draws: i64 = holding.iter().map(|p| p.activity.draw).sum();
            charge = plan.capacity.min(charge + plan.rate - draws - heaters * plan.heater);
        }
    }
    let volume: i64 = placed.iter().map(|p| p.activity.volume).sum();
    ensure(volume <= plan.volume, || "the finished schedule breaks V".to_string())?;
    Ok(charges)
}
