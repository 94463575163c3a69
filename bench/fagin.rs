//! A plain Rust program of Fagin's algorithm, with the same accesses and the same text as `topk one`, for comparison of speed.
//! It reads a bundle whose query is `top K by sum(..) using fa` over all lists in order, and checks nothing.

use std::collections::HashMap;
use std::hash::{BuildHasherDefault, Hasher};
use std::io::{Read, Write};

/// A quick hash of an object's number.
#[derive(Default)]
struct Quick(u64);

impl Hasher for Quick {
    fn write(&mut self, _: &[u8]) {
        unreachable!()
    }
    fn write_u32(&mut self, number: u32) {
        let mixed = (u64::from(number) ^ 0x9E37_79B9).wrapping_mul(0x9E37_79B9_7F4A_7C15);
        self.0 = mixed ^ (mixed >> 32);
    }
    fn finish(&self) -> u64 {
        self.0
    }
}

type ByObject<T> = HashMap<u32, T, BuildHasherDefault<Quick>>;

const UNKNOWN: u32 = u32::MAX;

struct List {
    name: String,
    rows: Vec<(u32, u32)>,
    grades: ByObject<u32>,
}

/// The lists of a bundle, and its query.
fn read(text: &str) -> (Vec<List>, &str) {
    let (mut lists, mut query): (Vec<List>, &str) = (Vec::new(), "");
    for line in text.lines() {
        if let Some(name) = line.strip_prefix("list ") {
            lists.push(List { name: name.into(), rows: Vec::new(), grades: ByObject::default() });
        } else if let Some(rest) = line.strip_prefix("query ") {
            query = rest;
        } else {
            let (object, grade) = line.split_once(',').unwrap();
            lists.last_mut().unwrap().rows.push((object.parse().unwrap(), grade.parse().unwrap()));
        }
    }
    for list in &mut lists {
        list.grades = list.rows.iter().copied().collect();
    }
    (lists, query)
}

fn main() {
    let mut text = String::new();
    std::io::stdin().read_to_string(&mut text).unwrap();
    let (lists, query) = read(&text);
    let k: usize = query.split(' ').nth(1).unwrap().parse().unwrap();
    let m = lists.len();
    let (mut slots, mut objects, mut known, mut times): (ByObject<usize>, Vec<u32>, Vec<u32>, Vec<usize>) = Default::default();
    let mut log: Vec<(bool, usize, u32, u32)> = Vec::new();
    let (mut depth, mut whole, mut random) = (0, 0, 0);
    while whole < k {
        for (number, list) in lists.iter().enumerate() {
            let (object, grade) = list.rows[depth];
            log.push((true, number, object, grade));
            let slot = *slots.entry(object).or_insert(objects.len());
            if slot == objects.len() {
                objects.push(object);
                times.push(0);
                known.resize(known.len() + m, UNKNOWN);
            }
            known[slot * m + number] = grade;
            times[slot] += 1;
            whole += usize::from(times[slot] == m);
        }
        depth += 1;
    }
    for (slot, &object) in objects.iter().enumerate() {
        for (number, list) in lists.iter().enumerate() {
            if known[slot * m + number] == UNKNOWN {
                known[slot * m + number] = list.grades[&object];
                random += 1;
                log.push((false, number, object, known[slot * m + number]));
            }
        }
    }
    let mut items: Vec<(std::cmp::Reverse<u64>, u32)> = objects
        .iter()
        .enumerate()
        .map(|(slot, &object)| (std::cmp::Reverse(known[slot * m..][..m].iter().map(|&grade| u64::from(grade)).sum()), object))
        .collect();
    items.sort_unstable();
    let mut out = std::io::BufWriter::new(std::io::stdout());
    writeln!(out, "certificate 1\nquery {query}\ncount {}", lists[0].rows.len()).unwrap();
    for (value, object) in &items[..k] {
        writeln!(out, "answer {object} {} {}", value.0, value.0).unwrap();
    }
    writeln!(out, "stop depth {depth} sorted {} random {random} cost {}", depth * m, depth * m + random).unwrap();
    for (sorted, number, object, grade) in &log {
        writeln!(out, "{} {} {object} {grade}", if *sorted { "s" } else { "r" }, lists[*number].name).unwrap();
    }
    writeln!(out, "end").unwrap();
}
