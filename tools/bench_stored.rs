// The merge of tools/bench_stored in plain Rust: the same lists, and the cells of the same rows, by a heap of the heads of
// the lists.
//
// usage: bench_stored build|merge WORD WIDTH ROWS LISTS
use std::cmp::{Ordering, Reverse};
use std::collections::BinaryHeap;

#[derive(Clone, PartialEq, Eq, PartialOrd, Ord)]
#[allow(dead_code)]
enum Cell {
    Null,
    Int(i64),
    Day(u32),
    Text(Box<[u8]>),
}

#[derive(Clone, Copy)]
enum Role {
    Key,
    Plain,
    Sum,
}

// A cell that is merged: a stored one where it stands, or a sum.
#[derive(Clone, Copy)]
enum Merged<'a> {
    Kept(&'a Cell),
    Sum(i64),
}

// Rows that ascend by their first cell, one after the other.
struct List {
    width: usize,
    cells: Vec<Cell>,
}

impl List {
    fn row(&self, place: usize) -> Option<&[Cell]> {
        self.cells.get(place * self.width..(place + 1) * self.width)
    }
}

// The next row of a list.
struct Head<'a> {
    row: &'a [Cell],
    list: usize,
    place: usize,
}

impl PartialEq for Head<'_> {
    fn eq(&self, other: &Self) -> bool {
        self.cmp(other) == Ordering::Equal
    }
}

impl Eq for Head<'_> {}

impl PartialOrd for Head<'_> {
    fn partial_cmp(&self, other: &Self) -> Option<Ordering> {
        Some(self.cmp(other))
    }
}

impl Ord for Head<'_> {
    fn cmp(&self, other: &Self) -> Ordering {
        self.row[0].cmp(&other.row[0]).then(self.list.cmp(&other.list))
    }
}

// The rows of lists by key, the oldest list first.
struct Merge<'a> {
    roles: &'a [Role],
    lists: &'a [List],
    heads: BinaryHeap<Reverse<Head<'a>>>,
    present: Vec<Merged<'a>>,
}

impl<'a> Merge<'a> {
    fn open(roles: &'a [Role], lists: &'a [List]) -> Merge<'a> {
        let mut heads = BinaryHeap::with_capacity(lists.len());
        for (list, rows) in lists.iter().enumerate() {
            if let Some(row) = rows.row(0) {
                heads.push(Reverse(Head { row, list, place: 0 }));
            }
        }
        Merge { roles, lists, heads, present: Vec::with_capacity(roles.len()) }
    }

    // Takes the first head, and puts the next one of its list.
    fn take(&mut self) -> Option<&'a [Cell]> {
        let Reverse(Head { row, list, place }) = self.heads.pop()?;
        if let Some(next) = self.lists[list].row(place + 1) {
            self.heads.push(Reverse(Head { row: next, list, place: place + 1 }));
        }
        Some(row)
    }

    fn next(&mut self) -> bool {
        let Some(first) = self.take() else {
            return false;
        };
        self.present.clear();
        self.present.extend(first.iter().map(Merged::Kept));
        while self.heads.peek().is_some_and(|Reverse(head)| head.row[0] == first[0]) {
            let Some(more) = self.take() else {
                break;
            };
            for column in 0..self.roles.len() {
                self.present[column] = merged(self.roles[column], self.present[column], &more[column]);
            }
        }
        true
    }
}

fn merged<'a>(role: Role, old: Merged<'a>, new: &'a Cell) -> Merged<'a> {
    match (role, old, new) {
        (Role::Key, _, _) => old,
        (Role::Plain, _, _) => Merged::Kept(new),
        (Role::Sum, _, Cell::Null) => old,
        (Role::Sum, Merged::Kept(Cell::Int(sum)), Cell::Int(more)) => Merged::Sum(sum.wrapping_add(*more)),
        (Role::Sum, Merged::Sum(sum), Cell::Int(more)) => Merged::Sum(sum.wrapping_add(*more)),
        (Role::Sum, _, _) => Merged::Kept(new),
    }
}

fn below(state: &mut u64, limit: u64) -> u64 {
    *state = state.wrapping_mul(6_364_136_223_846_793_005).wrapping_add(1_442_695_040_888_963_407);
    (*state >> 33) % limit
}

fn list(width: usize, rows: usize, lists: u64, number: u64) -> List {
    let (mut state, mut key, mut cells) = (number, 0, Vec::with_capacity(rows * width));
    for _ in 0..rows {
        key += 1 + below(&mut state, 2 * lists - 1) as i64;
        cells.extend((0..width).map(|_| Cell::Int(key)));
    }
    List { width, cells }
}

fn main() {
    let words: Vec<String> = std::env::args().collect();
    let [width, rows, lists] = [3, 4, 5].map(|at| words[at].parse::<usize>().unwrap());
    let value = if words[2] == "sums" { Role::Sum } else { Role::Plain };
    let roles: Vec<Role> = (0..width).map(|column| if column == 0 { Role::Key } else { value }).collect();
    let stored: Vec<List> =
        (0..lists).map(|number| list(width, rows / lists, lists as u64, number as u64)).collect();
    let (mut count, mut sum) = (0u64, 0i64);
    if words[1] == "merge" {
        let mut merge = Merge::open(&roles, &stored);
        while merge.next() {
            count += 1;
            for cell in &merge.present {
                match cell {
                    Merged::Kept(Cell::Int(value)) | Merged::Sum(value) => sum = sum.wrapping_add(*value),
                    Merged::Kept(_) => {}
                }
            }
        }
    }
    println!("{count} {sum}");
}
