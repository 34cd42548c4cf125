//! Requests and answers as lines of text; byte strings are in hexadecimal, the empty one is `-`.

use crate::derive::derive;
use crate::refusal::Refusal;
use crate::replay::replay;
use crate::scenario::open;
use crate::search::{search, Verdict};
use crate::walk::Listing;

pub const MALFORMED: &str = "MALFORMED";

/// The answer to a request: `0 open FILE`, `0 search FILE BUFFER_LENGTH`, `3 short FILE
/// BUFFER_LENGTH`, `0 derive TABLE LIST TARGET` or `0 replay FILE TRACE`. The number in front is the
/// level of the rules, and the short list comes with level 3.
pub fn answer(request: &str) -> String {
    match answer_to_fields(&request.split(' ').collect::<Vec<_>>()) {
        Some(Ok(answer)) => answer,
        Some(Err(refusal)) => format!("REFUSED {} {}", refusal.number, refusal.place),
        None => MALFORMED.to_string(),
    }
}

/// None if the fields are no request.
fn answer_to_fields(fields: &[&str]) -> Option<Result<String, Refusal>> {
    match *fields {
        ["0", "open", file] => Some(open(&bytes(file)?).map(|_| "OK".to_string())),
        ["0", "search", file, length] => answer_to_search(Listing::Full, file, length),
        ["3", "short", file, length] => answer_to_search(Listing::Short, file, length),
        ["0", "derive", table, list, target] => {
            Some(derive(&bytes(table)?, &bytes(list)?, one_byte(target)?).map(derive_text))
        }
        ["0", "replay", file, trace] => {
            Some(replay(&bytes(file)?, &bytes(trace)?).map(replay_text))
        }
        _ => None,
    }
}

fn answer_to_search(listing: Listing, file: &str, length: &str) -> Option<Result<String, Refusal>> {
    Some(search(listing, &bytes(file)?, number(length)?).map(verdict_text))
}

fn verdict_text(verdict: Verdict) -> String {
    match verdict {
        Verdict::Broken {
            place,
            claim,
            trace,
        } => {
            format!(
                "BROKEN {place} RUN {} EVENT {} TRACE {}",
                claim.run,
                claim.event,
                hexadecimal(&trace)
            )
        }
        Verdict::Held(length) => format!("HELD {length}"),
        Verdict::Stopped(budget) => format!("STOPPED {budget}"),
    }
}

fn derive_text(derivable: bool) -> String {
    if derivable { "YES" } else { "NO" }.to_string()
}

fn replay_text(claim: Option<crate::system::Claim>) -> String {
    claim.map_or("NONE".to_string(), |claim| {
        format!("CLAIM RUN {} EVENT {}", claim.run, claim.event)
    })
}

/// The bytes that a field of hexadecimal digits states.
pub fn bytes(field: &str) -> Option<Vec<u8>> {
    if field == "-" {
        return Some(vec![]);
    }
    let digits = field
        .chars()
        .map(|digit| digit.to_digit(16))
        .collect::<Option<Vec<u32>>>()?;
    let whole = !digits.is_empty() && digits.len() % 2 == 0;
    whole.then(|| {
        digits
            .chunks(2)
            .map(|pair| (pair[0] * 16 + pair[1]) as u8)
            .collect()
    })
}

/// The field that states these bytes.
pub fn hexadecimal(bytes: &[u8]) -> String {
    if bytes.is_empty() {
        return "-".to_string();
    }
    bytes.iter().map(|byte| format!("{byte:02x}")).collect()
}

fn one_byte(field: &str) -> Option<u8> {
    match bytes(field)?[..] {
        [byte] => Some(byte),
        _ => None,
    }
}

/// A decimal number.
fn number(field: &str) -> Option<usize> {
    if !field.bytes().all(|digit| digit.is_ascii_digit()) {
        return None;
    }
    field.parse().ok()
}
