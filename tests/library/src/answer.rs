//! The 64-bit answer read as include/tejorva.h reads it, and written in the words of the cases.

pub const REFUSED: u64 = 0;
pub const HELD: u64 = 1;
pub const STOPPED: u64 = 2;
pub const BROKEN: u64 = 3;
pub const ACCEPTED: u64 = 4;
pub const DERIVABLE: u64 = 5;
pub const NOT_DERIVABLE: u64 = 6;
pub const CLAIM: u64 = 7;
pub const NO_CLAIM: u64 = 8;

/// The kind of a secrecy claim.
pub const SECRECY: u64 = 2;

pub fn word(answer: u64) -> u64 {
    answer >> 60
}

/// The list's length, the budget or the list place.
pub fn number(answer: u64) -> u64 {
    answer & 0xffff_ffff
}

pub fn run(answer: u64) -> u64 {
    answer >> 32 & 0xf
}

pub fn event(answer: u64) -> u64 {
    answer >> 36 & 0xf
}

pub fn claim_kind(answer: u64) -> u64 {
    answer >> 40 & 0xf
}

pub fn trace_length(answer: u64) -> usize {
    (answer >> 44 & 0x1ff) as usize
}

/// `REFUSED number place`, if the answer is a refusal.
pub fn refusal(answer: u64) -> Option<String> {
    let number = answer >> 52 & 0xff;
    let place = answer & 0xf_ffff_ffff_ffff;
    (word(answer) == REFUSED).then(|| format!("REFUSED {number} {place}"))
}

/// Derive's answer in the words of the cases.
pub fn derived(answer: u64) -> String {
    refusal(answer).unwrap_or_else(|| match answer {
        a if a == DERIVABLE << 60 => "YES".to_string(),
        a if a == NOT_DERIVABLE << 60 => "NO".to_string(),
        a => format!("UNKNOWN {a:x}"),
    })
}

/// Open's answer in the words of the cases.
pub fn opened(answer: u64) -> String {
    refusal(answer).unwrap_or_else(|| match answer {
        a if a == ACCEPTED << 60 => "OK".to_string(),
        a => format!("UNKNOWN {a:x}"),
    })
}

/// Search's answer in the words of the cases, the trace as the buffer has it. An answer with a bit that its word does not use is unknown.
pub fn searched(answer: u64, buffer: &[u8]) -> String {
    refusal(answer).unwrap_or_else(|| match answer {
        a if a == HELD << 60 | number(a) => format!("HELD {}", number(a)),
        a if a == STOPPED << 60 | number(a) => format!("STOPPED {}", number(a)),
        a if a == BROKEN << 60 | (trace_length(a) as u64) << 44 | claim_bits(a) | number(a) && trace_length(a) <= buffer.len() => {
            let trace = reference::hexadecimal(&buffer[..trace_length(a)]);
            format!("BROKEN {} RUN {} EVENT {} TRACE {trace}", number(a), run(a), event(a))
        }
        a => format!("UNKNOWN {a:x}"),
    })
}

/// Replay's answer in the words of the cases.
pub fn replayed(answer: u64) -> String {
    refusal(answer).unwrap_or_else(|| match answer {
        a if a == NO_CLAIM << 60 => "NONE".to_string(),
        a if a == CLAIM << 60 | claim_bits(a) => format!("CLAIM RUN {} EVENT {}", run(a), event(a)),
        a => format!("UNKNOWN {a:x}"),
    })
}

/// The bits of a secrecy claim in the answer's run and event.
fn claim_bits(answer: u64) -> u64 {
    SECRECY << 40 | event(answer) << 36 | run(answer) << 32
}
