//! Compares the engine with a plain Rust program that does the same: first the results, on many inputs, then the speed.

mod engine;
mod plain;
mod rows;
mod sheets;

use engine::{AnswerRow, CallRow};
use plain::Entry;
use sheets::Random;
use std::collections::BTreeSet;
use std::hint::black_box;

const TAPE: usize = 60_000;

/// What a play answers and leaves: the verdict, the answers, the tape.
type Played = (AnswerRow, Vec<AnswerRow>, Vec<Entry>);

fn played(calls: &[CallRow], tape: usize, f: impl Fn(&mut [Entry], &mut [AnswerRow]) -> AnswerRow) -> Played {
    let mut tape = vec![Entry { kind: 77, ..Entry::default() }; tape];
    let mut answers = vec![AnswerRow { layer: 77, ..AnswerRow::default() }; calls.len()];
    let verdict = f(&mut tape, &mut answers);
    (verdict, answers, tape)
}

/// A call of this number with random fields, few of them outside.
fn random_call(r: &mut Random, call: u8) -> CallRow {
    let party = if r.chance(5) { 2 } else { r.below(2) as u8 };
    let variable = r.below(13) as u8;
    let index = if r.chance(60) { 0 } else { r.below(10) as u32 };
    let value = if r.chance(70) { r.below(3) as u32 } else { r.next() as u32 };
    CallRow { call, party, variable, index, value, steps: r.below(60) }
}

/// Enters, a start, runs and looks, with some other calls among them.
fn random_calls(r: &mut Random) -> Vec<CallRow> {
    let (enters, runs) = (r.below(16), r.below(10));
    let mut calls = vec![];
    for k in 0..enters + 1 + runs {
        if r.chance(8) {
            let call = r.below(6) as u8;
            calls.push(random_call(r, call));
        }
        let call = if k < enters {
            0
        } else if k == enters {
            1
        } else if r.chance(30) {
            3
        } else {
            2
        };
        calls.push(random_call(r, call));
    }
    calls
}

/// What the comparison met: accepted sheets, steps, marked entries, and the numbers of refusals.
#[derive(Default)]
struct Met {
    accepted: u64,
    steps: u64,
    marked: u64,
    refusals: BTreeSet<u8>,
}

/// Compares one sheet with some calls.
fn compare_sheet(r: &mut Random, sheet: &[u8], met: &mut Met) {
    let verdict = engine::check(sheet);
    assert_eq!(verdict, rows::check(sheet), "check of {sheet:02x?}");
    let calls = random_calls(r);
    let words = if r.chance(90) { 300 } else { r.below(260) as usize };
    let (pad, room) = (r.next() as u32, if r.chance(90) { 300 } else { r.below(20) as usize });
    let flat = played(&calls, room, |t, a| engine::play_flat(sheet, words, &calls, t, a));
    assert_eq!(flat, played(&calls, room, |t, a| rows::play_flat(sheet, words, &calls, t, a)), "{sheet:02x?} {calls:?}");
    let share = played(&calls, room, |t, a| engine::play_share(sheet, words, pad, &calls, t, a));
    assert_eq!(share, played(&calls, room, |t, a| rows::play_share(sheet, words, pad, &calls, t, a)), "{sheet:02x?} {calls:?}");
    compare_pick(r, &flat.2, met);
    met.accepted += (verdict.layer == 0) as u64;
    met.steps += calls.iter().zip(&flat.1).filter(|(call, _)| call.call == 2).map(|(_, answer)| answer.first).sum::<u64>();
    met.marked += flat.2.iter().filter(|entry| entry.mark == 1).count() as u64;
    met.refusals.insert(verdict.number);
    met.refusals.extend(flat.1.iter().filter(|a| a.layer != 77).map(|a| a.number));
}

/// Compares the logs of a tape, which may be damaged.
fn compare_pick(r: &mut Random, tape: &[Entry], met: &mut Met) {
    let mut tape: Vec<Entry> = tape.iter().filter(|e| e.kind != 77 || r.chance(1)).copied().collect();
    if r.chance(20) && !tape.is_empty() {
        let at = r.below(tape.len() as u64) as usize;
        tape[at].label = r.below(6) as u8;
        tape[at].mark = r.below(256) as u8;
    }
    let room = if r.chance(80) { tape.len() } else { r.below(tape.len() as u64 + 1) as usize };
    for party in 0..3 {
        let mut first = vec![Entry { kind: 99, ..Entry::default() }; room];
        let mut second = first.clone();
        let answer = engine::pick(party, &tape, &mut first);
        assert_eq!(answer, rows::pick(party, &tape, &mut second));
        assert_eq!(first, second);
        met.refusals.insert(answer.number);
    }
}

fn compare_all(cases: u64) {
    let mut met = Met::default();
    for seed in 0..cases {
        let mut r = Random::new(seed + 1);
        let mut sheet = sheets::random(&mut r);
        if r.chance(25) {
            sheet = sheets::damaged(&mut r, &sheet);
        }
        compare_sheet(&mut r, &sheet, &mut met);
    }
    for sheet in [vec![], sheets::public_loop(), sheets::large()] {
        compare_sheet(&mut Random::new(cases), &sheet, &mut met);
    }
    met.refusals.remove(&0);
    let Met { accepted, steps, marked, .. } = met;
    println!("compared {cases} sheets ({accepted} accepted, {steps} steps, {marked} marked entries): no difference");
    println!("refusals met: {:?}", met.refusals);
}

/// Uses a result, so that it is computed.
fn keep(answer: AnswerRow) {
    black_box(answer);
}

unsafe extern "C" {
    /// The processor time of this process, in microseconds: other processes do not count.
    safe fn clock() -> i64;
}

fn microseconds(f: &mut impl FnMut()) -> i64 {
    let start = clock();
    f();
    clock() - start
}

/// The least time of some tries, in microseconds, the two programs in turn.
fn least(tries: usize, mut first: impl FnMut(), mut second: impl FnMut()) -> (i64, i64) {
    (0..tries).fold((i64::MAX, i64::MAX), |(a, b), _| (a.min(microseconds(&mut first)), b.min(microseconds(&mut second))))
}

fn tell(what: &str, count: u64, unit: &str, (engine, plain): (i64, i64)) {
    let each = |t: i64| t as f64 * 1e3 / count as f64;
    let ratio = engine as f64 / plain as f64;
    println!("{what:<46} engine {:>9.2} ns  plain {:>9.2} ns  per {unit:<7}  ratio {ratio:.2}", each(engine), each(plain));
}

fn time_check() {
    let sheet = sheets::large();
    assert_eq!(engine::check(&sheet).layer, 0, "{:?}", engine::check(&sheet));
    let many = 20_000;
    let times = least(
        7,
        || (0..many).for_each(|_| keep(engine::check(black_box(&sheet)))),
        || (0..many).for_each(|_| keep(rows::check(black_box(&sheet)))),
    );
    tell("check a sheet of 512 records", many, "sheet", times);
}

fn time_open() {
    let sheet = sheets::large();
    let many = 2_000;
    let times = least(
        7,
        || (0..many).for_each(|_| keep(engine::play_flat(black_box(&sheet), 16_384, &[], &mut [], &mut []))),
        || (0..many).for_each(|_| keep(rows::play_flat(black_box(&sheet), 16_384, &[], &mut [], &mut []))),
    );
    tell("check and open, 16,384 cells, flat bank", many, "session", times);
    let times = least(
        7,
        || (0..many).for_each(|_| keep(engine::play_share(black_box(&sheet), 32_768, 1, &[], &mut [], &mut []))),
        || (0..many).for_each(|_| keep(rows::play_share(black_box(&sheet), 32_768, 1, &[], &mut [], &mut []))),
    );
    tell("check and open, 16,384 cells, share bank", many, "session", times);
}

fn run_calls(steps: u64) -> Vec<CallRow> {
    let run = CallRow { call: 2, steps: 10_000, ..CallRow::default() };
    let mut calls = vec![CallRow { call: 1, ..CallRow::default() }];
    calls.resize(1 + (steps / 10_000) as usize, run);
    calls
}

fn time_run() {
    let sheet = sheets::public_loop();
    let steps = 10_000_000;
    let calls = run_calls(steps);
    let mut tape = vec![Entry::default(); TAPE];
    let mut answers = vec![AnswerRow::default(); calls.len()];
    let (mut tape2, mut answers2) = (tape.clone(), answers.clone());
    let times = least(
        5,
        || keep(engine::play_flat(&sheet, 4096, &calls, &mut tape, &mut answers)),
        || keep(rows::play_flat(&sheet, 4096, &calls, &mut tape2, &mut answers2)),
    );
    assert_eq!((&answers, &tape), (&answers2, &tape2));
    assert_eq!(answers.iter().skip(1).map(|a| a.first).sum::<u64>(), steps);
    tell("run 10^7 steps over 4,096 cells, flat bank", steps, "step", times);
    let times = least(
        5,
        || keep(engine::play_share(&sheet, 8192, 1, &calls, &mut tape, &mut answers)),
        || keep(rows::play_share(&sheet, 8192, 1, &calls, &mut tape2, &mut answers2)),
    );
    assert_eq!((&answers, &tape), (&answers2, &tape2));
    tell("run 10^7 steps over 4,096 cells, share bank", steps, "step", times);
}

fn time_pick() {
    let mut r = Random::new(5);
    let tape: Vec<Entry> = (0..1_000_000)
        .map(|_| Entry { kind: 1 + r.below(8) as u8, label: r.below(4) as u8, record: 1, variable: 2, mark: r.below(2) as u8, index: 3, value: 4 })
        .collect();
    let mut out = vec![Entry::default(); tape.len()];
    let mut out2 = out.clone();
    let times = least(
        15,
        || keep(engine::pick(1, black_box(&tape), &mut out)),
        || keep(rows::pick(1, black_box(&tape), &mut out2)),
    );
    assert_eq!(out, out2);
    tell("pick over 10^6 entries, random kind and label", tape.len() as u64, "entry", times);
}

fn main() -> Result<(), String> {
    let cases = match std::env::args().nth(1) {
        None => 200_000,
        Some(text) => text.parse().map_err(|e| format!("CASES {text}: {e}"))?,
    };
    compare_all(cases);
    time_check();
    time_open();
    time_run();
    time_pick();
    Ok(())
}
