//! Each operation of the port beside the Rust, bit for bit.

pub mod basics;
pub mod bounds;
mod built;
pub mod edges;
pub mod gradient;
mod lent;
pub mod load;
pub mod locate;
pub mod map;
mod met;
pub mod narrow;
pub mod read_line;
pub mod sample;
pub mod sample_board;
pub mod smooth;
mod values;

/// How far a run goes. Two runs with the same seed compare the same cases.
pub struct Run {
    pub long: bool,
    pub seed: u64,
    /// The one operation that is wanted, if not all are.
    pub only: Option<String>,
}

impl Run {
    /// A count of cases: one for the short run, one for the long.
    fn choose<T>(&self, short: T, long: T) -> T {
        if self.long {
            long
        } else {
            short
        }
    }
}

/// The number of cases compared, and what else is worth a line.
pub struct Tally {
    pub cases: u64,
    pub note: String,
}

impl From<u64> for Tally {
    fn from(cases: u64) -> Tally {
        Tally { cases, note: String::new() }
    }
}

/// What was compared, or the first difference: its case, its place and both values.
pub type Outcome = Result<Tally, String>;

/// One line of the run each.
pub const OPERATIONS: &[(&str, fn(&Run) -> Outcome)] = &[
    ("load", load::compare),
    ("unit", basics::unit),
    ("magnitude", basics::magnitude),
    ("larger", basics::larger),
    ("truncated", basics::truncated),
    ("entry", basics::entry),
    ("gradient", gradient::compare),
    ("edges", edges::compare),
    ("narrow", narrow::compare),
    ("bounds", bounds::bounds),
    ("widen", bounds::widen),
    ("scores", bounds::scores),
    ("smooth", smooth::compare),
    ("read_line", read_line::compare),
    ("sample", sample::compare),
    ("sample_board", sample_board::compare),
    ("map", map::compare),
    ("locate", locate::compare),
];

/// Prints a line for each operation. True where nothing differs.
pub fn run(run: &Run) -> bool {
    let wanted = |name: &str| run.only.as_deref().map_or(true, |only| only == name);
    if !OPERATIONS.iter().any(|(name, _)| wanted(name)) {
        println!("no such operation");
        return false;
    }
    let mut same = true;
    for (name, compare) in OPERATIONS.iter().filter(|(name, _)| wanted(name)) {
        match compare(run) {
            Ok(Tally { cases, note }) => println!("{name}: {cases} cases, no difference{note}"),
            Err(difference) => {
                println!("{name}: DIFFERENCE, seed {}, {difference}", run.seed);
                same = false;
            }
        }
    }
    same
}
