//! Runs in turns, and the lines that show their medians.

use compare::shapes::now;
use std::hint::black_box;
use std::time::Instant;

/// How often each program of a line is timed, in turns: at least and at most.
const TURNS: (f64, f64) = (15.0, 401.0);

/// What a program is timed for, in seconds, if the turns allow it.
const TOGETHER: f64 = 0.2;

/// A turn takes at least about so many seconds, by repeating. It is short, so
/// that most turns pass without another process in between.
const SHORTEST: f64 = 3e-4;

/// A program to be timed: it runs so many times, and tells the seconds.
pub type Timed<'a> = Box<dyn FnMut(u32) -> f64 + 'a>;

/// Times a function of the same process.
pub fn timed<'a, T>(mut run: impl FnMut() -> T + 'a) -> Timed<'a> {
    Box::new(move |times| {
        let start = Instant::now();
        for _ in 0..times {
            black_box(run());
        }
        start.elapsed().as_secs_f64()
    })
}

/// The same for a function that runs so long that other processes come in between, whose time is left out.
pub fn timed_alone<'a, T>(mut run: impl FnMut() -> T + 'a) -> Timed<'a> {
    Box::new(move |times| {
        let start = now();
        for _ in 0..times {
            black_box(run());
        }
        now() - start
    })
}

fn median(mut times: Vec<f64>) -> f64 {
    times.sort_by(f64::total_cmp);
    times[times.len() / 2]
}

/// What is told of the programs of a line.
struct Told<const COUNT: usize> {
    /// The median microseconds of one run of each.
    micros: [f64; COUNT],
    /// The median ratio of the first to each, of runs that follow each other:
    /// the machine's speed changes, and less so within a turn.
    ratios: [f64; COUNT],
}

/// Times the programs in turns.
fn in_turns<const COUNT: usize>(mut programs: [Timed; COUNT]) -> Told<COUNT> {
    let once = programs.iter_mut().map(|program| program(1)).fold(f64::MAX, f64::min);
    let times = (SHORTEST / once).clamp(1.0, 1e6) as u32;
    let turns = (TOGETHER / (once * f64::from(times))).clamp(TURNS.0, TURNS.1) as u32;
    let mut turn = || programs.each_mut().map(|program| program(times) / f64::from(times) * 1e6);
    let told: Vec<[f64; COUNT]> = (0..turns).map(|_| turn()).collect();
    let column = |value: &dyn Fn(&[f64; COUNT], usize) -> f64| {
        std::array::from_fn(|n| median(told.iter().map(|turn| value(turn, n)).collect()))
    };
    Told { micros: column(&|turn, n| turn[n]), ratios: column(&|turn, n| turn[0] / turn[n]) }
}

/// How long a turn of a program in its steady state takes at least, in seconds,
/// and how many turns there are.
const LONG: (f64, usize) = (5e-3, 31);

/// The microseconds of a run of each program in each of many turns that are long
/// enough for caches and predictors to be its own.
fn long_turns(mut programs: Vec<Timed>) -> Vec<Vec<f64>> {
    let times: Vec<u32> =
        programs.iter_mut().map(|program| (LONG.0 / program(1)).clamp(1.0, 1e6).ceil() as u32).collect();
    let mut turn = || {
        let each = programs.iter_mut().zip(&times);
        each.map(|(program, times)| program(*times) / f64::from(*times) * 1e6).collect()
    };
    (0..LONG.1).map(|_| turn()).collect()
}

/// The median microseconds of a run of each program in its steady state.
pub fn steady(programs: Vec<Timed>) -> Vec<f64> {
    let count = programs.len();
    let turns = long_turns(programs);
    (0..count).map(|n| median(turns.iter().map(|turn| turn[n]).collect())).collect()
}

/// The same of two, and the median ratio of the first to the second in one turn.
pub fn steady_ratio(first: Timed, second: Timed) -> [f64; 3] {
    let turns = long_turns(vec![first, second]);
    let values: [fn(&Vec<f64>) -> f64; 3] = [|turn| turn[0], |turn| turn[1], |turn| turn[0] / turn[1]];
    values.map(|value| median(turns.iter().map(value).collect()))
}

/// The heading of lines of the library beside others.
pub fn heading(what: &str, others: [&str; 2]) {
    let [a, b] = others;
    let [of_a, of_b] = others.map(|name| format!("/ {name}"));
    println!("\n{what:48} {:>11} {a:>11} {b:>11} {of_a:>10} {of_b:>10}", "library");
}

/// A line: microseconds of the library and two others, and the ratios to them.
pub fn beside(what: &str, programs: [Timed; 3]) {
    let told = in_turns(programs);
    let ([ours, a, b], [_, of_a, of_b]) = (told.micros, told.ratios);
    println!("{what:48} {ours:11.1} {a:11.1} {b:11.1} {of_a:10.2} {of_b:10.2}");
}

/// The heading of lines of one call on some input and on twice of it.
pub fn growth_heading() {
    println!("\n{:48} {:>11} {:>11} {:>10}", "twice the input", "whole", "half", "/ half");
}

/// A line: microseconds on the whole input and on half of it; their ratio.
pub fn grown(what: &str, whole: Timed, half: Timed) -> f64 {
    let told = in_turns([whole, half]);
    let ([whole, half], [_, ratio]) = (told.micros, told.ratios);
    println!("{what:48} {whole:11.1} {half:11.1} {ratio:10.2}");
    ratio
}
