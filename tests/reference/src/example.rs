//! Scenario files as text: hexadecimal digits, with a comment from `#` to the end of a line. The
//! first line states the verdict, and the second the verdict by the short list.

use crate::request::bytes;

const VERDICT: &str = "# verdict: ";
const SHORT: &str = "# by the short list: ";

/// The bytes of a scenario file that is written as text.
pub fn uncommented(text: &str) -> Option<Vec<u8>> {
    let digits = |line: &str| line.split('#').next().map(str::to_string);
    let digits: String = text.lines().filter_map(digits).collect();
    bytes(&digits.split_whitespace().collect::<String>())
}

/// The verdict that the text states, in the words of the cases.
pub fn stated_verdict(text: &str) -> Option<&str> {
    text.lines().next()?.strip_prefix(VERDICT)
}

/// The verdict by the short list that the text states.
pub fn stated_short(text: &str) -> Option<&str> {
    text.lines().nth(1)?.strip_prefix(SHORT)
}
