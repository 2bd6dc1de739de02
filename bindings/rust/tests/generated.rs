//! Generated calls, damaged ones too, given to the library and to the second monitor.

use givuntha::{check, preview, reading, start, Breach, Refusal, Refused, Taken};
use reference::generate::{calls, Answer, Call, Entry};
use reference::{Checked, Forecast};
use std::collections::BTreeMap;

const CALLS: usize = 20_000;

fn number<T>(answer: &Result<T, Refusal>) -> u32 {
    answer.as_ref().err().map_or(0, |refusal| refusal.number())
}

fn told(ahead: Option<Breach>) -> Forecast {
    ahead.map(|breach| (i64::try_from(breach.time).expect("a time"), u32::from(breach.parties.bits())))
}

/// Number, mark, cost and forecast that are told of a reading, or of its preview.
fn reading_told(answer: Result<Taken, Refused>) -> (u32, u32, u64, Forecast) {
    let early = answer.map_or(0, |taken| u32::from(taken.early));
    let cost = answer.map_or_else(Refused::cost, |taken| taken.cost);
    let ahead = answer.ok().and_then(|taken| taken.ahead);
    (number(&answer.map_err(Refusal::from)), early, cost, told(ahead))
}

/// What the library answers, in the second monitor's terms.
fn answer(call: &Call) -> Answer {
    match &call.entry {
        Entry::Check => {
            let answer = check(&call.agreement);
            let parties = answer.map_or(0, |parties| u32::from(parties.bits()));
            Answer::Check(Checked { number: number(&answer), parties })
        }
        Entry::Start { table } => {
            let mut table = table.clone();
            let answer = start(&call.agreement, &mut table);
            Answer::Start { number: number(&answer), forecast: told(answer.ok().flatten()), table }
        }
        Entry::Reading { table, reading: given } => {
            let mut table = table.clone();
            let (number, early, cost, forecast) = reading_told(reading(&call.agreement, &mut table, given));
            Answer::Reading { number, early, cost, forecast, table }
        }
        Entry::Preview { table, reading, second } => {
            let mut second = second.clone();
            let (number, early, cost, forecast) = reading_told(preview(&call.agreement, table, reading, &mut second));
            Answer::Preview { number, early, cost, forecast, second }
        }
    }
}

#[test]
fn both_monitors_answer_alike() {
    let (mut reached, mut foreseen) = (BTreeMap::new(), BTreeMap::new());
    let (mut early, mut costly, mut ahead) = (0, 0, [0; 3]);
    for (n, call) in calls(1).take(CALLS).enumerate() {
        let expected = call.answer();
        assert!(answer(&call) == expected, "call {n} of seed 1: {:?}", call.aim);
        *reached.entry(expected.number()).or_insert(0) += 1;
        *foreseen.entry(expected.number()).or_insert(0) += usize::from(matches!(expected, Answer::Preview { .. }));
        early += usize::from(matches!(expected, Answer::Reading { early: 1, .. }));
        costly += usize::from(matches!(expected, Answer::Reading { cost: 1000.., .. }));
        ahead[0] += usize::from(matches!(expected, Answer::Start { forecast: Some(_), .. }));
        ahead[1] += usize::from(matches!(expected, Answer::Reading { forecast: Some(_), .. }));
        ahead[2] += usize::from(matches!(expected, Answer::Preview { forecast: Some(_), .. }));
    }
    let mut numbers: Vec<u32> = Refusal::ALL.iter().map(|refusal| refusal.number()).chain([0]).collect();
    numbers.sort_unstable();
    assert!(reached.keys().eq(&numbers), "{reached:?}");
    assert!(foreseen.values().all(|&count| count > 0), "by previews: {foreseen:?}");
    assert!(early > 0 && costly > 0, "{early} readings came too early, {costly} cost 1,000 or more");
    assert!(ahead.iter().all(|&count| count > 100), "told by so many starts, readings and previews: {ahead:?}");
}
