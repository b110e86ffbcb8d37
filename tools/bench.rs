// The bodies that tools/bench runs the program on, and a plain program of the same meaning to time it beside.
//
// usage: bench body NAME          writes the body of that workload
//        bench fold MODEL KEY OTHER   folds the body of standard input: MODEL is A (the other column is summed), U (the
//                                     newest row of a key stays) or D (all rows, in order); KEY and OTHER are int or text
//
// The fold is written for its workloads alone: one key column and one other, without nulls and without refusals. It keeps
// texts as slices of the body, sorts small records by key and then by place, and merges neighbours.
use std::collections::hash_map::DefaultHasher;
use std::hash::{Hash, Hasher};
use std::io::{self, BufWriter, Read, Write};

// A sequence of numbers of no pattern (Knuth, MMIX).
struct Numbers(u64);

impl Numbers {
    fn below(&mut self, limit: u64) -> u64 {
        self.0 = self.0.wrapping_mul(6_364_136_223_846_793_005).wrapping_add(1_442_695_040_888_963_407);
        (self.0 >> 33) % limit
    }

    fn letters(&mut self, count: u64) -> String {
        (0..count).map(|_| (b'a' + self.below(26) as u8) as char).collect()
    }
}

// The text of a key: always the same one of 8 to 12 letters.
fn text_of(key: u64) -> String {
    let mut hasher = DefaultHasher::new();
    key.hash(&mut hasher);
    let mut letters = Numbers(hasher.finish());
    let count = 8 + letters.below(5);
    letters.letters(count)
}

fn write_body(name: &str, out: &mut impl Write) -> io::Result<()> {
    let mut numbers = Numbers(11);
    match name {
        "keys-100000" | "keys-100" => {
            let keys = if name == "keys-100" { 100 } else { 100_000 };
            for _ in 0..1_000_000 {
                writeln!(out, "{}\t{}", numbers.below(keys), numbers.below(1000))?;
            }
        }
        "distinct" | "ascending" => {
            let mut keys: Vec<u64> = (0..1_000_000).collect();
            if name == "distinct" {
                for last in (1..keys.len()).rev() {
                    keys.swap(last, numbers.below(last as u64 + 1) as usize);
                }
            }
            for key in keys {
                writeln!(out, "{}\t{}", key, numbers.below(1000))?;
            }
        }
        "text-values" => {
            for _ in 0..850_000 {
                let key = numbers.below(300_000);
                let count = 4 + numbers.below(13);
                writeln!(out, "{}\t{}", key, numbers.letters(count))?;
            }
        }
        "text-keys" => {
            for _ in 0..850_000 {
                writeln!(out, "{}\t{}", text_of(numbers.below(300_000)), numbers.below(100_000))?;
            }
        }
        _ => std::process::exit(2),
    }
    Ok(())
}

#[derive(Clone, Copy, PartialEq, Eq, PartialOrd, Ord)]
enum Cell<'a> {
    Int(i64),
    Text(&'a [u8]),
}

fn cell<'a>(kind: &str, field: &'a [u8]) -> Cell<'a> {
    if kind == "text" {
        return Cell::Text(field);
    }
    Cell::Int(std::str::from_utf8(field).unwrap().parse().unwrap())
}

fn write_cell(out: &mut impl Write, cell: Cell) -> io::Result<()> {
    match cell {
        Cell::Int(number) => write!(out, "{number}"),
        Cell::Text(bytes) => out.write_all(bytes),
    }
}

fn merged<'a>(model: &str, old: Cell<'a>, new: Cell<'a>) -> Cell<'a> {
    match (model, old, new) {
        ("A", Cell::Int(old), Cell::Int(new)) => Cell::Int(old.wrapping_add(new)),
        _ => new,
    }
}

fn fold<'a>(model: &str, mut rows: Vec<(Cell<'a>, Cell<'a>)>) -> Vec<(Cell<'a>, Cell<'a>)> {
    if model == "D" {
        rows.sort();
        return rows;
    }
    rows.sort_by(|a, b| a.0.cmp(&b.0));
    let mut out: Vec<(Cell, Cell)> = Vec::new();
    for (key, value) in rows {
        match out.last_mut() {
            Some(last) if last.0 == key => last.1 = merged(model, last.1, value),
            _ => out.push((key, value)),
        }
    }
    out
}

fn main() -> io::Result<()> {
    let words: Vec<String> = std::env::args().skip(1).collect();
    let words: Vec<&str> = words.iter().map(String::as_str).collect();
    let mut out = BufWriter::with_capacity(1 << 16, io::stdout().lock());
    match words[..] {
        ["body", name] => write_body(name, &mut out)?,
        ["fold", model, key, other] => {
            let mut body = Vec::new();
            io::stdin().lock().read_to_end(&mut body)?;
            let rows = body
                .split(|byte| *byte == b'\n')
                .filter(|line| !line.is_empty())
                .map(|line| {
                    let tab = line.iter().position(|byte| *byte == b'\t').unwrap();
                    (cell(key, &line[..tab]), cell(other, &line[tab + 1..]))
                })
                .collect();
            for (first, second) in fold(model, rows) {
                write_cell(&mut out, first)?;
                out.write_all(b"\t")?;
                write_cell(&mut out, second)?;
                out.write_all(b"\n")?;
            }
        }
        _ => std::process::exit(2),
    }
    out.flush()
}
