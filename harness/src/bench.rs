//! How long each operation takes, the Rust and the port in one process on the same screens.

pub mod edges;
pub mod gradient;
pub mod load;
pub mod locate;
pub mod map;
pub mod narrow;
pub mod read_line;
pub mod sample;
pub mod sample_board;
pub mod scores;
pub mod screen;
pub mod smooth;

use screen::Kind;
use std::hint::black_box;
use std::time::{Duration, Instant};

/// Width and height.
pub const SCREENS: &[(usize, usize)] = &[(640, 480), (1920, 1080), (3840, 2160), (4000, 4000)];
const USUAL: (usize, usize) = (1920, 1080);

/// How many noisy boards the threshold is measured on: its time depends on the screen's values.
const NOISY: u64 = 24;

const WARM: usize = 1;
/// Each side is measured this often at least, and more often while it takes little time.
const REPEATS: usize = 5;
const ENOUGH: Duration = Duration::from_millis(600);
const MOST_REPEATS: usize = 40;

/// Measures all operations, or those whose name has the word.
pub fn run(only: Option<&str>) {
    let wanted = |operation: &str| only.map_or(true, |word| operation.contains(word));
    println!(
        "{:<20} {:>10} {:>10} {:>14} {:>14} {:>8}",
        "operation", "kind", "screen", "Rust ns/pixel", "port ns/pixel", "ratio"
    );
    if wanted("load") {
        for &(width, height) in SCREENS {
            row("load", "noise", width, height, load::measure(height, width));
        }
    }
    let (width, height) = USUAL;
    for kind in [Kind::Clean, Kind::Noisy] {
        for (operation, measure) in STEPS {
            if wanted(operation) {
                row(operation, kind.name(), width, height, measure(kind, height, width));
            }
        }
    }
    if wanted("threshold, edges") {
        for seed in 1..=NOISY {
            let (board, times) = edges::on_noisy(seed, height, width);
            row("threshold, edges", &board, width, height, times);
        }
    }
    for kind in [Kind::Clean, Kind::Noisy, Kind::Blank, Kind::Narrowed] {
        for &(width, height) in SCREENS {
            for (operation, measure) in WHOLE {
                if wanted(operation) {
                    row(operation, kind.name(), width, height, measure(kind, height, width));
                }
            }
        }
    }
    println!();
    println!(
        "{:<20} {:>20} {:>14} {:>14} {:>8}",
        "operation", "input", "Rust ns/call", "port ns/call", "ratio"
    );
    for (operation, measure) in CALLS {
        if wanted(operation) {
            for (input, times) in measure(height, width) {
                call(operation, &input, times);
            }
        }
    }
    if wanted("smooth") {
        let measured = smooth::measure();
        for (input, times) in &measured {
            call("smooth", input, *times);
        }
        let (rust, port) = smooth::spread(&measured);
        println!("{:<20} {:>20} {rust:>14.3} {port:>14.3}", "smooth", "largest / smallest");
    }
    if wanted("map") {
        println!();
        println!(
            "{:<10} {:>22} {:>16} {:>10} {:>22}",
            "operation", "input", "planes alone ms", "port ms", "ns/cell beyond that"
        );
        map::measure(height, width).iter().for_each(printed);
    }
    if wanted("sample_board") {
        println!();
        println!(
            "{:<14} {:>32} {:>16} {:>16} {:>10} {:>8}",
            "operation", "input", "planes alone ms", "cells alone ms", "port ms", "ratio"
        );
        sample_board::measure(height, width).iter().for_each(sampled);
    }
}

/// The least times of the Rust and of the port.
pub type Times = (Duration, Duration);

/// On a clean and a noisy board of the usual size.
const STEPS: &[(&str, fn(Kind, usize, usize) -> Times)] = &[
    ("gradient", gradient::measure),
    ("threshold, edges", edges::measure),
    ("narrow by 2", |kind, height, width| narrow::measure(2, kind, height, width)),
    ("narrow by 3", |kind, height, width| narrow::measure(3, kind, height, width)),
    ("narrow by 4", |kind, height, width| narrow::measure(4, kind, height, width)),
    ("narrow by 5", |kind, height, width| narrow::measure(5, kind, height, width)),
    ("column scores", scores::columns),
    ("row scores", scores::rows),
];

/// On every kind of screen and every size.
const WHOLE: &[(&str, fn(Kind, usize, usize) -> Times)] =
    &[("locate", locate::measure), ("load and locate", locate::with_load)];

/// By the call, on inputs that they name.
const CALLS: &[(&str, fn(usize, usize) -> Vec<(String, Times)>)] =
    &[("read_line", read_line::measure), ("sample 24 by 24", sample::measure)];

fn row(
    operation: &str,
    kind: &str,
    width: usize,
    height: usize,
    (rust, port): (Duration, Duration),
) {
    let each = |time: Duration| time.as_nanos() as f64 / (width * height) as f64;
    let screen = format!("{width}x{height}");
    let ratio = each(port) / each(rust);
    println!(
        "{operation:<20} {kind:>10} {screen:>10} {:>14.2} {:>14.2} {ratio:>8.3}",
        each(rust),
        each(port)
    );
}

fn call(operation: &str, input: &str, (rust, port): (Duration, Duration)) {
    let ratio = port.as_secs_f64() / rust.as_secs_f64();
    println!(
        "{operation:<20} {input:>20} {:>14} {:>14} {ratio:>8.3}",
        rust.as_nanos(),
        port.as_nanos()
    );
}

/// A line of the table of maps.
fn printed(map: &map::Map) {
    let (input, ms) = (&map.input, |time: Duration| time.as_secs_f64() * 1e3);
    let beyond = map.call.saturating_sub(map.pass).as_nanos() as f64 / map.cells as f64;
    println!(
        "{:<10} {input:>22} {:>16.2} {:>10.2} {beyond:>22.1}",
        "map",
        ms(map.pass),
        ms(map.call)
    );
}

/// A line of the table of whole boards: the ratio is that of the time beyond the pass to the cells by themselves.
fn sampled(whole: &sample_board::Whole) {
    let ms = |time: Duration| time.as_secs_f64() * 1e3;
    let beyond = whole.call.saturating_sub(whole.pass);
    println!(
        "{:<14} {:>32} {:>16.3} {:>16.3} {:>10.3} {:>8.3}",
        "sample_board",
        whole.input,
        ms(whole.pass),
        ms(whole.cells),
        ms(whole.call),
        ms(beyond) / ms(whole.cells)
    );
}

/// The time of one call. What it returns is dropped outside the measured part.
pub fn timed<T>(f: impl FnOnce() -> T) -> Duration {
    let start = Instant::now();
    let out = black_box(f());
    let time = start.elapsed();
    drop(out);
    time
}

/// The least time of each side. They take turns, so that what else the machine does meets both.
pub fn least(
    mut rust: impl FnMut() -> Duration,
    mut port: impl FnMut() -> Duration,
) -> (Duration, Duration) {
    for _ in 0..WARM {
        rust();
        port();
    }
    let mut best = (Duration::MAX, Duration::MAX);
    let start = Instant::now();
    for turn in 0..MOST_REPEATS {
        if turn >= REPEATS && start.elapsed() > ENOUGH {
            break;
        }
        best.0 = best.0.min(rust());
        best.1 = best.1.min(port());
    }
    best
}
