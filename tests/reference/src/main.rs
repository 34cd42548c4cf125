//! Answers requests from standard input, or checks files of requests with their answers.

use reference::answer;
use std::io::{self, BufRead, Write};
use std::process::ExitCode;

fn main() -> ExitCode {
    let arguments: Vec<String> = std::env::args().skip(1).collect();
    let done = match arguments.split_first() {
        None => answer_requests().map(|()| true),
        Some((word, files)) if word == "check" => check(files),
        Some(_) => Err(io::Error::other(
            "usage: reference, or reference check FILE..",
        )),
    };
    match done {
        Ok(true) => ExitCode::SUCCESS,
        Ok(false) => ExitCode::FAILURE,
        Err(error) => {
            eprintln!("reference: {error}");
            ExitCode::FAILURE
        }
    }
}

/// One answer a line for one request a line.
fn answer_requests() -> io::Result<()> {
    let mut output = io::BufWriter::new(io::stdout().lock());
    for line in io::stdin().lock().split(b'\n') {
        writeln!(output, "{}", answer(&String::from_utf8_lossy(&line?)))?;
    }
    output.flush()
}

/// Prints each disagreement and the count of cases; whether there were cases and all agree.
fn check(files: &[String]) -> io::Result<bool> {
    let (mut cases, mut wrong) = (0, 0);
    for file in files {
        let text = std::fs::read_to_string(file)
            .map_err(|error| io::Error::other(format!("{file}: {error}")))?;
        for (number, line) in text.lines().enumerate() {
            cases += 1;
            if let Some(disagreement) = disagreement(line) {
                wrong += 1;
                println!("{file}:{}: {disagreement}", number + 1);
            }
        }
    }
    println!("{cases} cases, {wrong} wrong");
    Ok(cases > 0 && wrong == 0)
}

/// How a line `REQUEST -> ANSWER` differs from what is answered here, if it does.
fn disagreement(line: &str) -> Option<String> {
    let Some((request, expected)) = line.split_once(" -> ") else {
        return Some(format!("no case: {line}"));
    };
    let got = answer(request);
    (got != expected).then(|| format!("{request}: expected {expected}, got {got}"))
}
