//! The plain engine behind the same rows as the linked one, so that the two can be put side by side.

use crate::engine::{AnswerRow, CallRow};
use crate::plain::{self, Bank, Entry, FlatBank, Refusal, Session, ShareBank};

fn refused(r: Refusal) -> AnswerRow {
    AnswerRow { layer: r.layer as u8, number: r.number, place: r.place as u64, ..AnswerRow::default() }
}

fn row<T>(answer: Result<T, Refusal>, ok: impl FnOnce(T) -> AnswerRow) -> AnswerRow {
    match answer {
        Ok(x) => ok(x),
        Err(r) => refused(r),
    }
}

fn two(first: u64, second: u64) -> AnswerRow {
    AnswerRow { first, second, ..AnswerRow::default() }
}

pub fn check(sheet: &[u8]) -> AnswerRow {
    row(plain::check(sheet), |(variables, records)| two(variables as u64, records as u64))
}

pub fn pick(party: u8, tape: &[Entry], out: &mut [Entry]) -> AnswerRow {
    row(plain::pick(party, tape, out), |entries| two(entries as u64, 0))
}

fn perform<B: Bank>(session: &mut Session<B>, c: &CallRow, tape: &mut [Entry]) -> AnswerRow {
    match c.call {
        0 => row(session.enter(c.party, c.variable, c.index, c.value), |()| two(0, 0)),
        1 => row(session.start(), |()| two(0, 0)),
        2 => row(session.run(c.steps, tape), |r| AnswerRow { stop: r.stop as u8, ..two(r.steps, r.entries as u64) }),
        3 => row(session.look(c.party, c.variable, c.index), |value| two(value as u64, 0)),
        _ => AnswerRow { layer: 8, place: c.call as u64, ..AnswerRow::default() },
    }
}

fn play<B: Bank>(sheet: &[u8], bank: B, calls: &[CallRow], tape: &mut [Entry], answers: &mut [AnswerRow]) -> AnswerRow {
    let sizes = check_sizes(sheet);
    match sizes {
        Ok((program, answer)) => {
            let mut session = Session::open(program, bank);
            for (call, answer) in calls.iter().zip(answers) {
                *answer = perform(&mut session, call, tape);
            }
            answer
        }
        Err(r) => refused(r),
    }
}

fn check_sizes(sheet: &[u8]) -> Result<(plain::Program, AnswerRow), Refusal> {
    let program = plain::accept(sheet)?;
    let (variables, records) = program.sizes();
    Ok((program, two(variables as u64, records as u64)))
}

pub fn play_flat(sheet: &[u8], words: usize, calls: &[CallRow], tape: &mut [Entry], answers: &mut [AnswerRow]) -> AnswerRow {
    play(sheet, FlatBank(vec![0; words]), calls, tape, answers)
}

pub fn play_share(
    sheet: &[u8],
    words: usize,
    pad: u32,
    calls: &[CallRow],
    tape: &mut [Entry],
    answers: &mut [AnswerRow],
) -> AnswerRow {
    play(sheet, ShareBank { words: vec![0; words], pad }, calls, tape, answers)
}
