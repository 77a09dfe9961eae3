//! Parses a text by syntect's own grammar of a language, line by line, without colours; the yardstick of `tokenise`.
//!
//!     syntect_lines TEXT EXTENSION TURNS STEP
//!
//! Writes the number of lines, the tokens of each STEP-th line, the nanoseconds of the processor in the fastest turn, and
//! the grammar's name. One turn comes before those that count, since the patterns are compiled when a line first wants
//! them.
use syntect::parsing::{ParseState, SyntaxReference, SyntaxSet};

/// The tokens of a line: the pieces of its characters between two places at which scopes change.
fn tokens_of(places: impl Iterator<Item = usize>, end: usize) -> u64 {
    let mut from = 0;
    let mut tokens = 0;
    for place in places.map(|place| place.min(end)).chain([end]) {
        if place > from {
            tokens += 1;
            from = place;
        }
    }
    tokens.max(1)
}

/// The nanoseconds of the processor that this program has taken.
fn used() -> u64 {
    let mut time = libc::timespec { tv_sec: 0, tv_nsec: 0 };
    // SAFETY: the call writes to the timespec alone.
    let status = unsafe { libc::clock_gettime(libc::CLOCK_PROCESS_CPUTIME_ID, &mut time) };
    assert_eq!(status, 0);
    time.tv_sec as u64 * 1_000_000_000 + time.tv_nsec as u64
}

/// All lines once, from the first on; the tokens of each step-th.
fn turn(set: &SyntaxSet, syntax: &SyntaxReference, lines: &[String], step: usize) -> u64 {
    let mut state = ParseState::new(syntax);
    let mut tokens = 0;
    for (number, line) in lines.iter().enumerate() {
        let changes = state.parse_line(line, set).expect("a line that can be parsed");
        if number % step == 0 {
            tokens += tokens_of(changes.iter().map(|change| change.0), line.len() - 1);
        }
    }
    tokens
}

fn main() {
    let words: Vec<String> = std::env::args().collect();
    let [_, text, extension, turns, step] = &words[..] else {
        eprintln!("usage: syntect_lines TEXT EXTENSION TURNS STEP");
        std::process::exit(2);
    };
    let text = std::fs::read_to_string(text).expect("a text in UTF-8");
    // Its grammars want the line feed at a line's end.
    let lines: Vec<String> = text.split('\n').map(|line| format!("{line}\n")).collect();
    let set = SyntaxSet::load_defaults_newlines();
    let Some(syntax) = set.find_syntax_by_extension(extension) else {
        println!("none");
        return;
    };
    let turns: u32 = turns.parse().expect("a number of turns");
    let step: usize = step.parse().expect("a number of lines");
    let mut tokens = turn(&set, syntax, &lines, step);
    let mut best = u64::MAX;
    for _ in 0..turns {
        let begun = used();
        tokens = turn(&set, syntax, &lines, step);
        best = best.min(used() - begun);
    }
    println!("lines={}\ttokens={tokens}\tns={best}\tname={}", lines.len(), syntax.name);
}
