//! The same analysis in Rust: the check of a table, classes of cells, marks settled to a fixed point.
// Functions are marked inline so that each module that calls them has them at hand, made for its number of runs.

pub const ABSENT: u16 = 480;

pub fn derive(table: &[u8], list: &[u8], target: u64) -> u64 {
    let n = match check(table, 0) {
        Ok(n) => n,
        Err((number, place)) => return refusal(number, place),
    };
    if let Some(at) = list.iter().position(|&r| r as usize >= n) {
        return refusal(11, at);
    }
    if target >= n as u64 {
        return refusal(11, list.len());
    }
    let classes = role_level(table, n);
    let mut start = [false; 480];
    for &r in list {
        start[r as usize] = true;
    }
    let marks = settle(&start, table, n, 0, &classes);
    (if marks[target as usize] { 5 } else { 6 }) << 60
}

pub fn refusal(number: u64, place: usize) -> u64 {
    (number << 52) + place as u64
}

/// The classes of a table where every row stands for itself, in run 0.
#[inline]
pub fn role_level(table: &[u8], n: usize) -> [u16; 480] {
    let mut names = [ABSENT; 480];
    for r in 0..n {
        names[r] = r as u16;
    }
    let mut classes = [ABSENT; 480];
    refill(&mut classes, table, n, 0, &names, 0);
    classes
}

/// How many rows a table has, or the first refusal.
#[inline]
pub fn check(t: &[u8], at: usize) -> Result<usize, (u64, usize)> {
    let mut variables = 0;
    let mut i = 0;
    loop {
        let start = 3 * i;
        if t.len() == start {
            return Ok(i);
        }
        if t.len() - start < 3 || i >= 96 {
            return Err((4, at + start));
        }
        if t[start] == 6 {
            variables += 1;
        }
        if variables > 8 || !fits(t, i) {
            return Err((4, at + start));
        }
        if (0..i).any(|j| t[3 * j..3 * j + 3] == t[start..start + 3]) {
            return Err((5, at + start));
        }
        i += 1;
    }
}

#[inline]
fn fits(t: &[u8], i: usize) -> bool {
    let (left, right) = (t[3 * i + 1] as usize, t[3 * i + 2] as usize);
    let agent = |a: usize| a < i && (matches!(t[3 * a], 1 | 2 | 5) || t[3 * a] == 6 && t[3 * a + 2] == 0);
    match t[3 * i] {
        1..=4 | 7 => right == 0,
        5 => right == 0 && left < 4,
        6 => right <= 1,
        8 | 9 => right == 0 && agent(left),
        10 => agent(left) && agent(right),
        11 => left < i && t[3 * left] != 11 && right < i,
        12 => left < i && right < i,
        _ => false,
    }
}

#[inline]
pub fn cell(r: usize, u: usize) -> usize {
    u * 96 + r
}

#[inline]
pub fn second(t: &[u8], r: usize) -> usize {
    if t[3 * r] < 10 {
        t[3 * r + 1] as usize
    } else {
        t[3 * r + 2] as usize
    }
}

/// The class of the cells of a kind whose parts have the given classes.
#[inline]
fn found(t: &[u8], n: usize, runs: usize, classes: &[u16; 480], kind: u8, a: u16, b: u16) -> u16 {
    for x in 0..n {
        if t[3 * x] == kind {
            let (l, s) = (t[3 * x + 1] as usize, second(t, x));
            for w in 0..=runs {
                let class = classes[cell(x, w)];
                if class < ABSENT && classes[cell(l, w)] == a && classes[cell(s, w)] == b {
                    return class;
                }
            }
        }
    }
    ABSENT
}

/// Gives every row its class in run u, if it has none yet.
#[inline]
pub fn refill(classes: &mut [u16; 480], t: &[u8], n: usize, runs: usize, names: &[u16; 480], u: usize) {
    for x in 0..n {
        let c = cell(x, u);
        if classes[c] != ABSENT {
            continue;
        }
        let kind = t[3 * x];
        classes[c] = if kind < 8 {
            names[c]
        } else {
            let a = classes[cell(t[3 * x + 1] as usize, u)];
            let b = classes[cell(second(t, x), u)];
            if a == ABSENT || b == ABSENT {
                ABSENT
            } else {
                match found(t, n, runs, classes, kind, a, b) {
                    ABSENT => c as u16,
                    class => class,
                }
            }
        };
    }
}

#[inline]
fn marked(marks: &[bool; 480], class: u16) -> bool {
    class < ABSENT && marks[class as usize]
}

/// Whether the inverse of the key in row k, as run u has it, is marked.
#[inline]
pub fn opens(marks: &[bool; 480], t: &[u8], n: usize, runs: usize, classes: &[u16; 480], k: usize, u: usize) -> bool {
    let kind = t[3 * k];
    if kind == 8 || kind == 9 {
        let a = classes[cell(t[3 * k + 1] as usize, u)];
        return marked(marks, found(t, n, runs, classes, 17 - kind, a, a));
    }
    marked(marks, classes[cell(k, u)])
}

/// Marks worked on until nothing can be built or taken apart any more.
#[inline]
pub fn settle(start: &[bool; 480], t: &[u8], n: usize, runs: usize, classes: &[u16; 480]) -> [bool; 480] {
    let mut marks = [false; 480];
    for u in 0..=runs {
        for r in 0..n {
            let c = cell(r, u);
            if start[c] && classes[c] < ABSENT {
                marks[classes[c] as usize] = true;
            }
        }
    }
    loop {
        for x in 0..n {
            build(&mut marks, t, runs, classes, x);
        }
        let mut idle = true;
        for x in (0..n).rev() {
            for u in 0..=runs {
                loop {
                    let class = gain(&marks, t, n, runs, classes, x, u);
                    if class == ABSENT {
                        break;
                    }
                    marks[class as usize] = true;
                    idle = false;
                }
            }
        }
        if idle {
            break;
        }
    }
    let mut out = [false; 480];
    for u in 0..=runs {
        for r in 0..n {
            out[cell(r, u)] = marked(&marks, classes[cell(r, u)]);
        }
    }
    out
}

#[inline]
fn build(marks: &mut [bool; 480], t: &[u8], runs: usize, classes: &[u16; 480], x: usize) {
    if t[3 * x] < 11 {
        return;
    }
    let (l, s) = (t[3 * x + 1] as usize, t[3 * x + 2] as usize);
    for u in 0..=runs {
        let class = classes[cell(x, u)];
        if class < ABSENT && marked(marks, classes[cell(l, u)]) && marked(marks, classes[cell(s, u)]) {
            marks[class as usize] = true;
        }
    }
}

#[inline]
fn gain(marks: &[bool; 480], t: &[u8], n: usize, runs: usize, classes: &[u16; 480], x: usize, u: usize) -> u16 {
    let kind = t[3 * x];
    if kind < 11 || !marked(marks, classes[cell(x, u)]) {
        return ABSENT;
    }
    let left = classes[cell(t[3 * x + 1] as usize, u)];
    let right = t[3 * x + 2] as usize;
    if kind == 11 {
        let second = classes[cell(right, u)];
        return if !marked(marks, left) {
            left
        } else if !marked(marks, second) {
            second
        } else {
            ABSENT
        };
    }
    if !marked(marks, left) && opens(marks, t, n, runs, classes, right, u) {
        return left;
    }
    ABSENT
}
