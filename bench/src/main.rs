//! The proved decoder against plain Rust: the same frames, every result compared, times as a ratio.

mod code;
mod field;
mod plain;
mod proved;
mod random;

use code::Code;
use field::Field;
use plain::{Decoder, Full, Join, Selective};
use proved::Proved;
use random::Random;
use std::time::Instant;

/// What became of a frame: the rounds made, what the last one told, and whether the word was concluded.
#[repr(C)]
#[derive(Clone, Copy, PartialEq, Eq, Debug, Default)]
pub struct Decoded {
    pairs: u32,
    rounds: u16,
    failing: u16,
    concluded: bool,
}

const FIELDS: [(u8, u16); 3] = [(2, 0b111), (4, 0b10011), (6, 0b1000011)];

/// Name, columns, rows, weight of a column, ceiling, deviation of the noise.
const CODES: [(&str, usize, usize, usize, u16, f64); 4] = [
    ("short", 12, 6, 2, 31, 0.7),
    ("long, weight 2", 256, 128, 2, 31, 0.65),
    ("long, weight 3", 256, 128, 3, 63, 0.7),
    ("long, weight 4", 256, 128, 4, 1023, 0.65),
];

/// Results of decoding a batch.
#[derive(Clone, PartialEq)]
struct Results {
    decoded: Vec<Decoded>,
    words: Vec<u8>,
    distances: Vec<u16>,
}

impl Results {
    fn new(frames: usize, columns: usize, q: usize) -> Results {
        Results { decoded: vec![Decoded::default(); frames], words: vec![0; frames * columns], distances: vec![0; columns * q] }
    }
}

/// The costs of some frames: a multiple of the known codeword, one noisy sample a bit, and each symbol's samples that speak against it.
fn frames(field: &Field, code: &Code, count: usize, noise: f64, random: &mut Random) -> Vec<u16> {
    let mut costs = Vec::with_capacity(count * code.columns * field.order);
    let scale = f64::from(code.ceiling) / 6.0;
    for _ in 0..count {
        let factor = random.below(field.order) as u8;
        for &symbol in &code.word {
            let sent = field.product(factor, symbol);
            let samples: Vec<f64> = (0..field.degree).map(|i| if sent >> i & 1 == 1 { -1.0 } else { 1.0 } + noise * random.normal()).collect();
            for a in 0..field.order {
                let against: f64 = samples.iter().enumerate().map(|(i, &s)| if (a >> i & 1 == 1) == (s > 0.0) { s.abs() } else { 0.0 }).sum();
                costs.push((against * scale).min(60000.0) as u16);
            }
        }
    }
    costs
}

fn run_plain<J: Join>(decoder: &mut Decoder, costs: &[u16], results: &mut Results) {
    let size = results.distances.len();
    let n = decoder.columns();
    for ((told, costs), word) in results.decoded.iter_mut().zip(costs.chunks_exact(size)).zip(results.words.chunks_exact_mut(n)) {
        *told = decoder.decode::<J>(costs, &mut results.distances, word);
    }
}

fn run_proved(proved: &mut Proved, costs: &[u16], results: &mut Results) {
    let made = proved.decode(costs, &mut results.distances, &mut results.words, &mut results.decoded);
    assert_eq!(made, results.decoded.len(), "the proved decoder refused the code");
}

/// Compares both on each frame after each round: a limit of k rounds stops after the k-th.
fn compare<J: Join>(field: &Field, code: &Code, costs: &[u16], selective: bool) -> usize {
    let size = code.columns * field.order;
    let mut plain = Decoder::new(field, code);
    let mut proved = Proved::new(field, code, selective);
    let mut a = Results::new(1, code.columns, field.order);
    let mut b = a.clone();
    let mut rounds = 0;
    for frame in costs.chunks_exact(size) {
        for limit in 1..=code.limit {
            plain.set_limit(limit);
            proved.set_limit(limit);
            run_plain::<J>(&mut plain, frame, &mut a);
            run_proved(&mut proved, frame, &mut b);
            assert!(a == b, "results differ after round {limit}: plain {:?}, proved {:?}", a.decoded, b.decoded);
            rounds += 1;
            if a.decoded[0].failing == 0 {
                break;
            }
        }
    }
    rounds
}

/// The best of some times, in seconds.
fn best(times: &[f64]) -> f64 {
    times.iter().copied().fold(f64::INFINITY, f64::min)
}

fn measure<J: Join>(name: &str, joiner: &str, field: &Field, code: &Code, noise: f64, seed: u64) {
    let mut random = Random::new(seed);
    let selective = joiner == "selective";
    let compared = compare::<J>(field, code, &frames(field, code, 3, noise, &mut random), selective);
    let mut plain = Decoder::new(field, code);
    let mut proved = Proved::new(field, code, selective);
    // Enough frames for some milliseconds: short enough to fall between interruptions, of which the best time takes no notice.
    let mut costs = frames(field, code, 2, noise, &mut random);
    let mut a = Results::new(2, code.columns, field.order);
    let start = Instant::now();
    run_plain::<J>(&mut plain, &costs, &mut a);
    let count = (0.004 / start.elapsed().as_secs_f64() * 2.0).clamp(2.0, 2000.0) as usize;
    costs = frames(field, code, count, noise, &mut random);
    a = Results::new(count, code.columns, field.order);
    let mut b = a.clone();
    let mut times = (Vec::new(), Vec::new());
    for _ in 0..25 {
        let start = Instant::now();
        run_plain::<J>(&mut plain, &costs, &mut a);
        times.0.push(start.elapsed().as_secs_f64());
        let start = Instant::now();
        run_proved(&mut proved, &costs, &mut b);
        times.1.push(start.elapsed().as_secs_f64());
    }
    assert!(a == b, "results differ");
    let rounds: usize = a.decoded.iter().map(|d| d.rounds as usize).sum();
    let concluded = a.decoded.iter().filter(|d| d.concluded).count();
    let (p, r) = (best(&times.0), best(&times.1));
    println!(
        "| {name} | {} | {joiner} | {count} | {concluded} | {:.1} | {compared} | {:.2} | {:.2} | {:.2} |",
        field.order,
        rounds as f64 / count as f64,
        p / rounds as f64 * 1e6,
        r / rounds as f64 * 1e6,
        r / p,
    );
}

fn main() {
    // A word on the command line picks the rows whose first three columns have it.
    let only: Vec<String> = std::env::args().skip(1).collect();
    let wanted = |row: &str| only.iter().all(|word| row.contains(word.as_str()));
    println!("| code | q | joiner | frames | concluded | rounds a frame | rounds compared | plain, µs a round | proved, µs a round | proved / plain |");
    println!("|---|---|---|---|---|---|---|---|---|---|");
    for (i, &(degree, polynomial)) in FIELDS.iter().enumerate() {
        let field = Field::new(degree, polynomial);
        for (j, &(name, columns, rows, weight, ceiling, noise)) in CODES.iter().enumerate() {
            let seed = (10 * i + j + 1) as u64;
            let code = Code::random(&field, columns, rows, weight, ceiling, 30, &mut Random::new(seed));
            if wanted(&format!("{name} {} full", field.order)) {
                measure::<Full>(name, "full", &field, &code, noise, seed + 100);
            }
            if wanted(&format!("{name} {} selective", field.order)) {
                measure::<Selective>(name, "selective", &field, &code, noise, seed + 100);
            }
        }
    }
}
