//! What a line may take beside Rust and by itself, and the lines that take more. A single run is noisy: a line above its bound is timed again, up to
//! four times, and the best ratio and the best time of the repetitions count.
use std::process::ExitCode;

/// The least times of a call in nanoseconds: the library's, and that of Rust with the same analysis.
pub type Pair = [f64; 2];

// How often a line is timed again.
const AGAIN: usize = 4;

// A call of the library that takes less, in nanoseconds, is brief.
const BRIEF: f64 = 1e5;

/// What a line may come to.
#[derive(Clone, Copy)]
pub struct Bound {
    // How many times as long as Rust the library may take, and for a brief call.
    ratio: f64,
    brief: f64,
    // How long a call of the library may take, in nanoseconds.
    time: f64,
}

impl Bound {
    pub const fn ratio(ratio: f64) -> Self {
        Bound { ratio, brief: ratio, time: f64::INFINITY }
    }

    /// The same with another ratio for brief calls.
    pub const fn or_brief(self, brief: f64) -> Self {
        Bound { brief, ..self }
    }

    /// The same, and no call above so many milliseconds.
    pub const fn within(self, milliseconds: f64) -> Self {
        Bound { time: milliseconds * 1e6, ..self }
    }

    fn of(&self, time: f64) -> f64 {
        if time < BRIEF {
            self.brief
        } else {
            self.ratio
        }
    }

    fn has(&self, best: &Best) -> bool {
        best.ratio() <= self.of(best.pair[0]) && best.time <= self.time
    }

    /// What is above, in words.
    fn excess(&self, best: &Best) -> String {
        let (ratio, bound) = (best.ratio(), self.of(best.pair[0]));
        let mut excess = vec![];
        if ratio > bound {
            excess.push(format!("ratio {ratio:.2} above {bound}"));
        }
        if best.time > self.time {
            excess.push(format!("{:.1} ms above {} ms", best.time / 1e6, self.time / 1e6));
        }
        excess.join(", ")
    }
}

/// The pair of the best ratio so far, and the library's best time.
struct Best {
    pair: Pair,
    time: f64,
}

impl Best {
    fn ratio(&self) -> f64 {
        self.pair[0] / self.pair[1]
    }

    fn add(&mut self, pair: Pair) {
        if pair[0] / pair[1] < self.ratio() {
            self.pair = pair;
        }
        self.time = self.time.min(pair[0]);
    }
}

/// The lines that were judged.
#[derive(Default)]
pub struct Report {
    lines: usize,
    again: usize,
    above: Vec<String>,
}

impl Report {
    /// Judges a line by what its sides took, and times it again while it is above its bound. Gives the times of the best ratio.
    pub fn judge(&mut self, name: &str, bound: Bound, first: Pair, mut again: impl FnMut() -> Pair) -> Pair {
        let mut best = Best { pair: first, time: first[0] };
        let mut repetitions = 0;
        while !bound.has(&best) && repetitions < AGAIN {
            best.add(again());
            repetitions += 1;
        }
        self.lines += 1;
        self.again += usize::from(repetitions > 0);
        if !bound.has(&best) {
            self.above.push(format!("{name}: {}", bound.excess(&best)));
        }
        best.pair
    }

    /// Prints the lines above their bounds. There must be none.
    pub fn end(self) -> ExitCode {
        let Report { lines, again, above } = self;
        println!("{lines} lines. {again} were timed again, up to {AGAIN} times, since they were above their bound: the best ratio and time count.");
        println!("{} above the bound{}", above.len(), if above.is_empty() { "" } else { ":" });
        for line in &above {
            println!("    {line}");
        }
        ExitCode::from(u8::from(!above.is_empty()))
    }
}
