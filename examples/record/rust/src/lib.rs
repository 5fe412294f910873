//! The checker of recorded runs: [`check`] says whether a text is the transcript of a run. What is promised stands in `include/dsr_check.h`.

/// What a text was found to be. Its fields are those of `struct dsr_report`.
#[repr(C)]
#[derive(Clone, Copy, Debug, Default, PartialEq, Eq)]
struct RawReport {
    status: u64,
    line: u64,
    entries: u64,
    history: u64,
    accepted: u64,
}

extern "C" {
    fn dsr_check_text(text: *const u8, length: usize, report: *mut RawReport);
}

/// What a text was found to be.
#[derive(Clone, Copy, Debug, PartialEq, Eq)]
pub enum Report {
    /// It is the transcript of a run, with so many entries, requests in its history, and accepted replies.
    Run { entries: u64, history: u64, accepted: u64 },
    /// Its header's shape is outside the limits.
    BadShape,
    /// It is no transcript: this line is the first bad one.
    BadText { line: u64 },
    /// It is a transcript, and this line has the first step that may not be next.
    NotARun { line: u64 },
    /// Memory ran out, and nothing is said of the text.
    NoMemory,
}

/// Checks a text, whatever is in it.
pub fn check(text: &[u8]) -> Report {
    let mut raw = RawReport::default();
    // SAFETY: the pointer of a slice is not null, and is of as many bytes as its length says; the report is ours alone during the call.
    unsafe { dsr_check_text(text.as_ptr(), text.len(), &mut raw) };
    match raw.status {
        0 => Report::Run { entries: raw.entries, history: raw.history, accepted: raw.accepted },
        1 => Report::BadShape,
        13 => Report::BadText { line: raw.line },
        14 => Report::NotARun { line: raw.line },
        _ => Report::NoMemory,
    }
}
