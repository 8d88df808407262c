//! The engine as it is linked from its static library, behind safe functions.

use crate::plain::Entry;

#[repr(C)]
#[derive(Clone, Copy, PartialEq, Eq, Debug, Default)]
pub struct CallRow {
    pub call: u8,
    pub party: u8,
    pub variable: u8,
    pub index: u32,
    pub value: u32,
    pub steps: u64,
}

#[repr(C)]
#[derive(Clone, Copy, PartialEq, Eq, Debug, Default)]
pub struct AnswerRow {
    pub layer: u8,
    pub number: u8,
    pub stop: u8,
    pub place: u64,
    pub first: u64,
    pub second: u64,
}

mod raw {
    use super::{AnswerRow, CallRow, Entry};

    unsafe extern "C" {
        pub fn mazgrut_check(sheet: *const u8, sheet_len: usize) -> AnswerRow;
        pub fn mazgrut_pick(party: u8, tape: *const Entry, tape_len: usize, out: *mut Entry, out_len: usize) -> AnswerRow;
        pub fn mazgrut_play_flat(
            sheet: *const u8,
            sheet_len: usize,
            words: usize,
            calls: *const CallRow,
            calls_len: usize,
            tape: *mut Entry,
            tape_len: usize,
            answers: *mut AnswerRow,
            answers_len: usize,
        ) -> AnswerRow;
        pub fn mazgrut_play_share(
            sheet: *const u8,
            sheet_len: usize,
            words: usize,
            pad: u32,
            calls: *const CallRow,
            calls_len: usize,
            tape: *mut Entry,
            tape_len: usize,
            answers: *mut AnswerRow,
            answers_len: usize,
        ) -> AnswerRow;
    }
}

pub fn check(sheet: &[u8]) -> AnswerRow {
    unsafe { raw::mazgrut_check(sheet.as_ptr(), sheet.len()) }
}

pub fn pick(party: u8, tape: &[Entry], out: &mut [Entry]) -> AnswerRow {
    unsafe { raw::mazgrut_pick(party, tape.as_ptr(), tape.len(), out.as_mut_ptr(), out.len()) }
}

pub fn play_flat(sheet: &[u8], words: usize, calls: &[CallRow], tape: &mut [Entry], answers: &mut [AnswerRow]) -> AnswerRow {
    unsafe {
        raw::mazgrut_play_flat(
            sheet.as_ptr(),
            sheet.len(),
            words,
            calls.as_ptr(),
            calls.len(),
            tape.as_mut_ptr(),
            tape.len(),
            answers.as_mut_ptr(),
            answers.len(),
        )
    }
}

pub fn play_share(
    sheet: &[u8],
    words: usize,
    pad: u32,
    calls: &[CallRow],
    tape: &mut [Entry],
    answers: &mut [AnswerRow],
) -> AnswerRow {
    unsafe {
        raw::mazgrut_play_share(
            sheet.as_ptr(),
            sheet.len(),
            words,
            pad,
            calls.as_ptr(),
            calls.len(),
            tape.as_mut_ptr(),
            tape.len(),
            answers.as_mut_ptr(),
            answers.len(),
        )
    }
}
