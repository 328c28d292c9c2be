//! The decoder in plain Rust. What depends on the code alone (each edge's permutations, each column's edges) is made once.

use crate::Decoded;
use crate::code::Code;
use crate::field::Field;

type Vector = [u16; 64];

/// The most edges of a row.
const DEGREE: usize = 16;

/// How two vectors are joined: writes, at each code, the least cost of the pairs that sum to it, and tells the pairs.
pub trait Join {
    fn join(q: usize, ceiling: u16, left: &[u16], right: &[u16], joined: &mut [u16]) -> u32;
}

/// All pairs.
pub struct Full;

impl Join for Full {
    fn join(q: usize, ceiling: u16, left: &[u16], right: &[u16], joined: &mut [u16]) -> u32 {
        let (left, right, joined) = (&left[..q], &right[..q], &mut joined[..q]);
        joined.fill(ceiling);
        for (b, &x) in left.iter().enumerate() {
            for (c, &y) in right.iter().enumerate() {
                let best = &mut joined[b ^ c];
                *best = (*best).min(x.max(y));
            }
        }
        (q * q) as u32
    }
}

/// The pairs of entries up to a level.
pub struct Selective;

impl Join for Selective {
    fn join(q: usize, ceiling: u16, left: &[u16], right: &[u16], joined: &mut [u16]) -> u32 {
        let (left, right, joined) = (&left[..q], &right[..q], &mut joined[..q]);
        let level = level(q, ceiling, left, right);
        let mut chosen = [(0u8, 0u16); 64];
        let mut n = 0;
        for (c, &y) in right.iter().enumerate() {
            chosen[n] = (c as u8, y);
            n += (y <= level) as usize;
        }
        joined.fill(ceiling);
        let mut pairs = 0;
        for (b, &x) in left.iter().enumerate() {
            if x > level {
                continue;
            }
            for &(c, y) in &chosen[..n] {
                let best = &mut joined[b ^ c as usize];
                *best = (*best).min(x.max(y));
            }
            pairs += n;
        }
        pairs as u32
    }
}

/// The lowest level up to which more than q entries are counted, at most the ceiling less 1.
fn level(q: usize, ceiling: u16, left: &[u16], right: &[u16]) -> u16 {
    let mut counts = [0u8; 1024];
    for &x in left.iter().chain(right) {
        counts[x as usize] += 1;
    }
    let mut sum = 0;
    for (k, &count) in counts[..ceiling as usize - 1].iter().enumerate() {
        sum += count as usize;
        if sum > q {
            return k as u16;
        }
    }
    ceiling - 1
}

/// An edge as the rounds need it: its column, and where each code's cost comes from on the way to and from the check.
struct Lane {
    column: usize,
    spread: [u8; 64],
    gather: [u8; 64],
    coefficient: u8,
}

pub struct Decoder<'a> {
    field: &'a Field,
    q: usize,
    columns: usize,
    ceiling: u16,
    limit: u16,
    lanes: Vec<Lane>,
    rows: Vec<std::ops::Range<usize>>,
    column_edges: Vec<Vec<usize>>,
    channel: Vec<u16>,
    distances: Vec<u16>,
    to_check: Vec<u16>,
    from_check: Vec<u16>,
}

impl<'a> Decoder<'a> {
    pub fn new(field: &'a Field, code: &Code) -> Decoder<'a> {
        let q = field.order;
        let lanes: Vec<Lane> = code
            .edges
            .iter()
            .map(|e| {
                let mut lane = Lane { column: e.column as usize, spread: [0; 64], gather: [0; 64], coefficient: e.coefficient };
                for c in 0..q {
                    lane.spread[c] = field.product(field.inverse(e.coefficient), c as u8);
                    lane.gather[c] = field.product(e.coefficient, c as u8);
                }
                lane
            })
            .collect();
        let rows = (0..code.rows)
            .map(|r| code.edges.partition_point(|e| (e.row as usize) < r)..code.edges.partition_point(|e| e.row as usize <= r))
            .collect();
        let mut column_edges = vec![Vec::new(); code.columns];
        for (e, edge) in code.edges.iter().enumerate() {
            column_edges[edge.column as usize].push(e);
        }
        Decoder {
            field,
            q,
            columns: code.columns,
            ceiling: code.ceiling,
            limit: code.limit,
            rows,
            column_edges,
            channel: vec![0; code.columns * q],
            distances: vec![0; code.columns * q],
            to_check: vec![0; lanes.len() * q],
            from_check: vec![0; lanes.len() * q],
            lanes,
        }
    }

    pub fn set_limit(&mut self, limit: u16) {
        self.limit = limit;
    }

    /// Decodes one frame; the word is the decided symbols, also where a row fails.
    pub fn decode<J: Join>(&mut self, costs: &[u16], distances: &mut [u16], word: &mut [u8]) -> Decoded {
        self.load(costs);
        let mut told = Decoded { pairs: 0, rounds: 0, failing: 0, concluded: false };
        for _ in 0..self.limit {
            told.pairs = self.round::<J>();
            told.rounds += 1;
            self.decide(word);
            told.failing = self.failing(word);
            if told.failing == 0 {
                break;
            }
        }
        distances.copy_from_slice(&self.distances);
        told.concluded = told.failing == 0;
        told
    }

    fn load(&mut self, costs: &[u16]) {
        for (stored, values) in self.channel.chunks_exact_mut(self.q).zip(costs.chunks_exact(self.q)) {
            let least = values.iter().copied().min().unwrap_or(0);
            for (s, &v) in stored.iter_mut().zip(values) {
                *s = (v - least).min(self.ceiling);
            }
        }
        self.distances.copy_from_slice(&self.channel);
        for (to, lane) in self.to_check.chunks_exact_mut(self.q).zip(&self.lanes) {
            to.copy_from_slice(&self.channel[lane.column * self.q..][..self.q]);
        }
    }

    fn round<J: Join>(&mut self) -> u32 {
        let mut pairs = 0;
        for r in 0..self.rows.len() {
            pairs += self.row::<J>(self.rows[r].clone());
        }
        self.sums();
        self.costs();
        self.settle();
        pairs
    }

    /// The from-check costs of a row's edges: joins from both ends, then around each edge.
    fn row<J: Join>(&mut self, row: std::ops::Range<usize>) -> u32 {
        let q = self.q;
        let last = row.len() - 1;
        let lanes = &self.lanes[row.clone()];
        let to = &self.to_check[row.start * q..row.end * q];
        let from = &mut self.from_check[row.start * q..row.end * q];
        let mut forth = [[0u16; 64]; DEGREE];
        let mut back = [[0u16; 64]; DEGREE];
        for ((vector, lane), costs) in forth.iter_mut().zip(lanes).zip(to.chunks_exact(q)) {
            permute(&lane.spread[..q], costs, &mut vector[..q]);
        }
        let mut pairs = 0;
        back[last] = forth[last];
        for i in (1..last).rev() {
            let joined = joined::<J>(q, self.ceiling, &forth[i], &back[i + 1], &mut pairs);
            back[i] = joined;
        }
        for i in 1..last {
            forth[i] = joined::<J>(q, self.ceiling, &forth[i - 1], &forth[i], &mut pairs);
        }
        for (i, (lane, out)) in lanes.iter().zip(from.chunks_exact_mut(q)).enumerate() {
            let around = if i == 0 {
                back[1]
            } else if i == last {
                forth[last - 1]
            } else {
                joined::<J>(q, self.ceiling, &forth[i - 1], &back[i + 1], &mut pairs)
            };
            permute(&lane.gather[..q], &around[..q], out);
        }
        pairs
    }

    /// Each column's channel costs and what its edges bring.
    fn sums(&mut self) {
        let q = self.q;
        self.distances.copy_from_slice(&self.channel);
        for (sum, edges) in self.distances.chunks_exact_mut(q).zip(&self.column_edges) {
            for &e in edges {
                for (s, &x) in sum.iter_mut().zip(&self.from_check[e * q..][..q]) {
                    *s += x;
                }
            }
        }
    }

    /// The new to-check costs: a column's sum without the edge's own part, less the least, lowered to the ceiling.
    fn costs(&mut self) {
        let q = self.q;
        for ((to, from), lane) in self.to_check.chunks_exact_mut(q).zip(self.from_check.chunks_exact(q)).zip(&self.lanes) {
            let sums = &self.distances[lane.column * q..][..q];
            let mut least = u16::MAX;
            for ((t, &s), &f) in to.iter_mut().zip(sums).zip(from) {
                *t = s - f;
                least = least.min(*t);
            }
            for t in to.iter_mut() {
                *t = (*t - least).min(self.ceiling);
            }
        }
    }

    fn settle(&mut self) {
        for sum in self.distances.chunks_exact_mut(self.q) {
            let least = sum.iter().copied().min().unwrap_or(0);
            for s in sum {
                *s -= least;
            }
        }
    }

    fn decide(&self, word: &mut [u8]) {
        for (symbol, distances) in word.iter_mut().zip(self.distances.chunks_exact(self.q)) {
            let mut best = 0;
            for (a, &d) in distances.iter().enumerate() {
                if d < distances[best] {
                    best = a;
                }
            }
            *symbol = best as u8;
        }
    }

    fn failing(&self, word: &[u8]) -> u16 {
        let fails = |row: &std::ops::Range<usize>| {
            let sum = self.lanes[row.clone()].iter().fold(0, |sum, lane| sum ^ self.field.product(lane.coefficient, word[lane.column]));
            sum != 0
        };
        self.rows.iter().filter(|row| fails(row)).count() as u16
    }

    pub fn columns(&self) -> usize {
        self.columns
    }
}

fn permute(from: &[u8], costs: &[u16], out: &mut [u16]) {
    for (o, &at) in out.iter_mut().zip(from) {
        *o = costs[at as usize];
    }
}

fn joined<J: Join>(q: usize, ceiling: u16, left: &Vector, right: &Vector, pairs: &mut u32) -> Vector {
    let mut out = [0; 64];
    *pairs += J::join(q, ceiling, left, right, &mut out);
    out
}
