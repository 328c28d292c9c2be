//! Codes for the comparison: a random graph of given weights, and coefficients under which a known word is a codeword.

use crate::field::Field;
use crate::random::Random;

#[repr(C)]
#[derive(Clone, Copy)]
pub struct Edge {
    pub row: u16,
    pub column: u16,
    pub coefficient: u8,
}

#[repr(C)]
#[derive(Clone, Copy)]
pub struct Entry {
    pub column: u16,
    pub row: u16,
}

pub struct Code {
    pub columns: usize,
    pub rows: usize,
    pub ceiling: u16,
    pub limit: u16,
    pub edges: Vec<Edge>,
    pub entries: Vec<Entry>,
    pub word: Vec<u8>,
}

impl Code {
    /// A code whose columns have `weight` edges each, shared out evenly among the rows.
    pub fn random(field: &Field, columns: usize, rows: usize, weight: usize, ceiling: u16, limit: u16, random: &mut Random) -> Code {
        let members = graph(columns, rows, weight, random);
        let word: Vec<u8> = (0..columns).map(|_| 1 + random.below(field.order - 1) as u8).collect();
        let mut edges = Vec::new();
        for (row, columns) in members.iter().enumerate() {
            let coefficients = checking(field, columns, &word, random);
            for (&column, coefficient) in columns.iter().zip(coefficients) {
                edges.push(Edge { row: row as u16, column: column as u16, coefficient });
            }
        }
        let mut entries: Vec<Entry> = edges.iter().map(|e| Entry { column: e.column, row: e.row }).collect();
        entries.sort_by_key(|e| (e.column, e.row));
        Code { columns, rows, ceiling, limit, edges, entries, word }
    }
}

/// The columns of each row, rising: the stubs of all columns are shuffled and dealt out until no row has a column twice.
fn graph(columns: usize, rows: usize, weight: usize, random: &mut Random) -> Vec<Vec<usize>> {
    let share = columns * weight / rows;
    let mut stubs: Vec<usize> = (0..columns * weight).map(|i| i % columns).collect();
    for i in (1..stubs.len()).rev() {
        stubs.swap(i, random.below(i + 1));
    }
    // A stub that stands twice in a row changes place with a random one.
    loop {
        let mut clean = true;
        for row in 0..rows {
            for i in row * share..(row + 1) * share {
                if stubs[row * share..i].contains(&stubs[i]) {
                    let j = random.below(stubs.len());
                    stubs.swap(i, j);
                    clean = false;
                }
            }
        }
        if clean {
            break;
        }
    }
    stubs
        .chunks(share)
        .map(|row| {
            let mut row = row.to_vec();
            row.sort();
            row
        })
        .collect()
}

/// Coefficients, none of them 0, with which the word passes the check.
fn checking(field: &Field, columns: &[usize], word: &[u8], random: &mut Random) -> Vec<u8> {
    loop {
        let mut coefficients: Vec<u8> = columns.iter().map(|_| 1 + random.below(field.order - 1) as u8).collect();
        let last = columns.len() - 1;
        let sum = (0..last).fold(0, |sum, i| sum ^ field.product(coefficients[i], word[columns[i]]));
        if sum != 0 {
            coefficients[last] = field.product(sum, field.inverse(word[columns[last]]));
            return coefficients;
        }
    }
}
