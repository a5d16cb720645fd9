//! The rows of docs/DIFFERENCES.md that are marked (run), some of them in parts: a run fails where the
//! document and the harness do not have the same rows, and where no built case meets one.

const DOCUMENT: &str = include_str!("../../../docs/DIFFERENCES.md");

/// The operations that have rows here, in the document's words.
const OPERATIONS: [&str; 4] = ["line reading", "locating", "sampling", "printing"];

/// A row by its input in the document, without the mark, and its parts, if it is met in parts.
pub type Row = (&'static str, &'static [&'static str]);

struct Count {
    row: &'static str,
    /// Empty where the row has no parts.
    part: &'static str,
    built: u64,
    all: u64,
}

pub struct Met {
    counts: Vec<Count>,
    /// Whether the cases at hand are built ones: only these meet a row.
    pub built: bool,
}

impl Met {
    /// An error where the document marks other rows of the operation.
    pub fn new(operation: &str, rows: &[Row]) -> Result<Met, String> {
        tied(operation, rows)?;
        let mut counts = vec![];
        for &(row, parts) in rows {
            let parts = if parts.is_empty() { &[""] } else { parts };
            counts.extend(parts.iter().map(|part| Count { row, part, built: 0, all: 0 }));
        }
        Ok(Met { counts, built: false })
    }

    pub fn count(&mut self, row: &str) {
        self.count_part(row, "");
    }

    pub fn count_part(&mut self, row: &str, part: &str) {
        let found = self.counts.iter_mut().find(|c| (c.row, c.part) == (row, part));
        let found = found.unwrap_or_else(|| panic!("no row {row}, part {part}"));
        found.built += self.built as u64;
        found.all += 1;
    }

    /// For the note: how often each row was met. An error names those that no built case met.
    pub fn note(&self) -> Result<String, String> {
        let missed: Vec<String> = self
            .counts
            .iter()
            .filter(|c| c.built == 0)
            .map(|c| [c.row, c.part].join(": ").trim_end_matches(": ").to_string())
            .collect();
        if !missed.is_empty() {
            let missed = missed.join(" | ");
            return Err(format!("rows of docs/DIFFERENCES.md not met by a built case: {missed}"));
        }
        let mut note = String::from("; rows met, by built cases/by all");
        let mut last = "";
        for Count { row, part, built, all } in &self.counts {
            let before = if *row == last { ",".into() } else { format!(" | {row}:") };
            let space = if part.is_empty() { "" } else { " " };
            note += &format!("{before}{space}{part} {built}/{all}");
            last = row;
        }
        Ok(note)
    }
}

/// The rows are those that the document marks (run) for the operation; it marks none of an operation
/// that has no rows here.
fn tied(operation: &str, rows: &[Row]) -> Result<(), String> {
    let mut marked = vec![];
    for line in DOCUMENT.lines() {
        let cells: Vec<&str> = line.split('|').map(str::trim).collect();
        if let ["", whose, input, ..] = cells[..] {
            let here = whose == operation || !OPERATIONS.contains(&whose);
            if here && input.contains("(run)") {
                marked.push(input.replace("(run)", "").trim().to_string());
            }
        }
    }
    let mut named: Vec<String> = rows.iter().map(|row| row.0.to_string()).collect();
    marked.sort();
    named.sort();
    if marked == named {
        return Ok(());
    }
    let without = |list: &[String], other: &[String]| {
        list.iter().filter(|row| !other.contains(row)).cloned().collect::<Vec<_>>().join(" | ")
    };
    Err(format!(
        "rows of docs/DIFFERENCES.md for {operation}: {} marked (run), {} in the harness; \
         only marked: {}; only in the harness: {}",
        marked.len(),
        named.len(),
        without(&marked, &named),
        without(&named, &marked)
    ))
}

/// A built case ends as it was built to.
pub fn as_built<T: PartialEq + std::fmt::Debug>(
    case: &str,
    wanted: T,
    have: T,
) -> Result<(), String> {
    if wanted == have {
        return Ok(());
    }
    Err(format!("{case} was built for {wanted:?}, and ends with {have:?}"))
}
