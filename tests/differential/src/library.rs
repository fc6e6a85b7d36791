//! The library through include/nuxalder.h.

use reference::{
    HistoryReport, JudgeReport, ListReport, MergeReport, RunReport, StateReport, MAX_OPERATIONS,
    TALLY_CELLS,
};

extern "C" {
    fn nuxalder_run(
        file: *const u8,
        length: usize,
        rows: *mut u8,
        rows_length: usize,
        report: *mut u64,
    );
    fn nuxalder_run_one_writer(
        file: *const u8,
        length: usize,
        rows: *mut u8,
        rows_length: usize,
        report: *mut u64,
    );
    fn nuxalder_tally(
        file: *const u8,
        length: usize,
        rows: *mut u8,
        rows_length: usize,
        tally: *mut u32,
        report: *mut u64,
    );
    fn nuxalder_average(tally: *const u32, action: u8, average: *mut u64);
    fn nuxalder_list(
        file: *const u8,
        length: usize,
        text: *mut u8,
        text_length: usize,
        report: *mut u64,
    );
    fn nuxalder_state(
        file: *const u8,
        length: usize,
        count: u64,
        state: *mut u8,
        state_length: usize,
        report: *mut u64,
    );
    fn nuxalder_merge(
        first: *const u8,
        first_length: usize,
        second: *const u8,
        second_length: usize,
        out: *mut u8,
        out_length: usize,
        report: *mut u64,
    );
    fn nuxalder_history(
        file: *const u8,
        length: usize,
        history: *mut u8,
        history_length: usize,
        report: *mut u64,
    );
    fn nuxalder_judge(history: *const u8, length: usize, order: *mut u8, report: *mut u64);
}

type Raw = unsafe extern "C" fn(*const u8, usize, *mut u8, usize, *mut u64);

const CANARY: u64 = 0x5A5A_A5A5_1234_8765;

/// Calls with a report of `N` fields between two words that must stay.
#[inline]
fn call<const N: usize, const WORDS: usize>(
    function: Raw,
    file: &[u8],
    buffer: &mut [u8],
) -> [u64; N] {
    let mut words = [CANARY; WORDS];
    // The slices are valid for their lengths and do not overlap, and the report has N fields.
    unsafe {
        function(
            file.as_ptr(),
            file.len(),
            buffer.as_mut_ptr(),
            buffer.len(),
            words[1..].as_mut_ptr(),
        );
    }
    assert!(
        words[0] == CANARY && words[N + 1] == CANARY,
        "the library wrote outside its report"
    );
    std::array::from_fn(|i| words[i + 1])
}

fn report([refusal, records, rows, set, stored, used]: [u64; 6]) -> RunReport {
    RunReport {
        refusal,
        records,
        rows,
        set,
        stored,
        used,
    }
}

#[inline]
pub fn run(file: &[u8], rows: &mut [u8]) -> RunReport {
    report(call::<6, 8>(nuxalder_run, file, rows))
}

#[inline]
pub fn run_one_writer(file: &[u8], rows: &mut [u8]) -> RunReport {
    report(call::<6, 8>(nuxalder_run_one_writer, file, rows))
}

/// Run with a tally of `TALLY_CELLS` numbers: what Run says, and 0 or 19.
#[inline]
pub fn tally(file: &[u8], rows: &mut [u8], tally: &mut [u32]) -> (RunReport, u64) {
    assert_eq!(tally.len(), TALLY_CELLS);
    let mut words = [CANARY; 9];
    // The slices are valid for their lengths and do not overlap, and the report has seven fields.
    unsafe {
        nuxalder_tally(
            file.as_ptr(),
            file.len(),
            rows.as_mut_ptr(),
            rows.len(),
            tally.as_mut_ptr(),
            words[1..].as_mut_ptr(),
        );
    }
    assert!(
        words[0] == CANARY && words[8] == CANARY,
        "the library wrote outside its report"
    );
    (report(std::array::from_fn(|i| words[i + 1])), words[7])
}

#[inline]
pub fn average(tally: &[u32; TALLY_CELLS], action: u8) -> [u64; 2] {
    let mut words = [CANARY; 4];
    // The tally is only read, and the average has two numbers.
    unsafe { nuxalder_average(tally.as_ptr(), action, words[1..].as_mut_ptr()) };
    assert!(
        words[0] == CANARY && words[3] == CANARY,
        "the library wrote outside its average"
    );
    [words[1], words[2]]
}

#[inline]
pub fn list(file: &[u8], text: &mut [u8]) -> ListReport {
    let [refusal, length] = call::<2, 4>(nuxalder_list, file, text);
    ListReport { refusal, length }
}

#[inline]
pub fn state(file: &[u8], count: u64, state: &mut [u8]) -> StateReport {
    let mut words = [CANARY; 5];
    // As above, with a number.
    unsafe {
        nuxalder_state(
            file.as_ptr(),
            file.len(),
            count,
            state.as_mut_ptr(),
            state.len(),
            words[1..].as_mut_ptr(),
        );
    }
    let [before, refusal, records, length, after] = words;
    assert!(
        before == CANARY && after == CANARY,
        "the library wrote outside its report"
    );
    StateReport {
        refusal,
        records,
        length,
    }
}

#[inline]
pub fn merge(first: &[u8], second: &[u8], out: &mut [u8]) -> MergeReport {
    let mut words = [CANARY; 6];
    // As above, with two files.
    unsafe {
        nuxalder_merge(
            first.as_ptr(),
            first.len(),
            second.as_ptr(),
            second.len(),
            out.as_mut_ptr(),
            out.len(),
            words[1..].as_mut_ptr(),
        );
    }
    let [before, refusal, file, start, length, after] = words;
    assert!(
        before == CANARY && after == CANARY,
        "the library wrote outside its report"
    );
    MergeReport {
        refusal,
        file,
        start,
        length,
    }
}

#[inline]
pub fn history(file: &[u8], history: &mut [u8]) -> HistoryReport {
    let [refusal, length] = call::<2, 4>(nuxalder_history, file, history);
    HistoryReport { refusal, length }
}

/// Judges; the order stands between bytes that must stay, and so does the report.
#[inline]
pub fn judge(history: &[u8]) -> JudgeReport {
    const MARK: u8 = 0xA5;
    let mut words = [CANARY; 5];
    let mut bytes = [MARK; MAX_OPERATIONS + 2];
    // The slices are valid for their lengths and do not overlap.
    unsafe {
        nuxalder_judge(
            history.as_ptr(),
            history.len(),
            bytes[1..].as_mut_ptr(),
            words[1..].as_mut_ptr(),
        );
    }
    assert!(
        words[0] == CANARY
            && words[4] == CANARY
            && bytes[0] == MARK
            && bytes[MAX_OPERATIONS + 1] == MARK,
        "the library wrote outside its report"
    );
    JudgeReport {
        refusal: words[1],
        accepted: words[2],
        operations: words[3],
        order: std::array::from_fn(|i| bytes[i + 1]),
    }
}
