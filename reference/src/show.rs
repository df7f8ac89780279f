//! What the program `show` prints.

use crate::capture::open_capture;
use crate::decode::decode;
use crate::nearest::Finder;
use crate::refusal::Refusal;

/// "Reads a capture and prints `rate d total tests pinned changed`, then a line of k lower-case
/// hexadecimal digits, the message from symbol 0 on; or one line `refused N`." "`show` adds the
/// margin, or `-`, at the end of its first line."
pub fn show(capture: &[u8]) -> String {
    match lines(capture) {
        Ok(lines) => lines,
        Err(refusal) => format!("refused {}\n", refusal.number()),
    }
}

fn lines(capture: &[u8]) -> Result<String, Refusal> {
    let session = open_capture(capture)?;
    let finder = Finder::of_rate(session.rate())?;
    let answer = decode(finder, &session.columns(), session.doubtful())?;
    let message: String = answer
        .message
        .iter()
        .map(|symbol| format!("{symbol:x}"))
        .collect();
    let margin = answer.margin.map(|margin| margin.to_string());
    Ok(format!(
        "{} {} {} {} {} {} {}\n{message}\n",
        session.rate(),
        session.doubtful().len(),
        answer.total,
        answer.tests,
        answer.pinned,
        answer.changed,
        margin.as_deref().unwrap_or("-")
    ))
}
