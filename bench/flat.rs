//! The program to beat: a list of rows by columns, without any tree, as plain Rust for `rustc -O`.
//!
//! Reads a script of `script.py` on standard input and prints the answers that `volap step` prints. A
//! query makes one table of marks for each dimension and reads every row once; an insert is a push. The
//! script is taken to be good, and nothing is done for want of memory.
use std::collections::HashMap;
use std::fmt::Write as _;
use std::io::{Read, Write};

/// The concepts of one dimension, each by its number: parents stand before their children.
#[derive(Default)]
struct Dimension<'a> {
    numbers: HashMap<&'a str, u32>,
    parents: Vec<Option<u32>>,
}

impl<'a> Dimension<'a> {
    fn add(&mut self, name: &'a str, parent: &str) {
        self.numbers.insert(name, self.parents.len() as u32);
        self.parents.push(self.numbers.get(parent).copied());
    }

    /// Which concepts stand at or beneath one that the filter lists.
    fn marks(&self, filter: &str) -> Vec<bool> {
        let mut marks = vec![filter == "*"; self.parents.len()];
        if filter == "*" {
            return marks;
        }
        for name in filter.split('|') {
            marks[self.numbers[name] as usize] = true;
        }
        for number in 0..marks.len() {
            if let Some(parent) = self.parents[number] {
                marks[number] |= marks[parent as usize];
            }
        }
        marks
    }
}

/// The rows, by columns.
#[derive(Default)]
struct Rows {
    measures: Vec<i64>,
    columns: Vec<Vec<u32>>,
}

/// Count, sum, least and greatest of some measures.
struct Aggregate {
    count: u64,
    sum: i128,
    bounds: Option<(i64, i64)>,
}

impl Rows {
    fn total(&self, marks: &[Vec<bool>]) -> Aggregate {
        let mut total = Aggregate { count: 0, sum: 0, bounds: None };
        for (place, &measure) in self.measures.iter().enumerate() {
            if self.columns.iter().zip(marks).all(|(column, marks)| marks[column[place] as usize]) {
                total.count += 1;
                total.sum += i128::from(measure);
                let (least, greatest) = total.bounds.unwrap_or((measure, measure));
                total.bounds = Some((least.min(measure), greatest.max(measure)));
            }
        }
        total
    }
}

fn main() {
    let mut script = String::new();
    std::io::stdin().read_to_string(&mut script).expect("a script on standard input");
    let (mut dims, mut rows, mut text) = (Vec::new(), Rows::default(), String::new());
    let (mut numbers, mut commands) = (HashMap::new(), 0);
    for record in script.lines() {
        let fields: Vec<&str> = record.split(',').collect();
        match fields[0] {
            "dim" => {
                numbers.insert(fields[1], dims.len());
                dims.push(Dimension::default());
                rows.columns.push(Vec::new());
            }
            "concept" => dims[numbers[fields[1]]].add(fields[2], fields[3]),
            "insert" => {
                commands += 1;
                rows.measures.push(fields[2].parse().expect("a measure"));
                for (place, name) in fields[3..].iter().enumerate() {
                    rows.columns[place].push(dims[place].numbers[name]);
                }
                writeln!(text, "{commands} insert ok").expect("room");
            }
            "query" => {
                commands += 1;
                let marks: Vec<_> = dims.iter().zip(&fields[2..]).map(|(dim, filter)| dim.marks(filter)).collect();
                let Aggregate { count, sum, bounds } = rows.total(&marks);
                match bounds {
                    Some((least, greatest)) => writeln!(text, "{commands} query {count} {sum} {least} {greatest}"),
                    None => writeln!(text, "{commands} query 0 0 - -"),
                }
                .expect("room");
            }
            _ => {}
        }
    }
    std::io::stdout().write_all(text.as_bytes()).expect("standard output");
}
