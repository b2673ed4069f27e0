//! The search for the loss of device 0 of row-diagonal parity for 11 in plain Rust, with the same layers as the proved
//! program: a map of lists by cost and level, and a look-up for each child. `ratio.sh` times it beside that program.

use std::collections::BTreeMap;

const PRIME: usize = 11;
const SYMBOLS: usize = PRIME - 1;
const BUDGET: usize = 33_554_432;

/// The row of a symbol: a device of data, of row parity, or of diagonal parity.
fn row(device: usize, symbol: usize) -> u128 {
    let cell = |j: usize, r: usize| 1u128 << (j * SYMBOLS + r);
    let parity = |r: usize| (0..PRIME - 1).fold(0, |sum, j| sum ^ cell(j, r));
    match device {
        d if d < PRIME - 1 => cell(d, symbol),
        d if d == PRIME - 1 => parity(symbol),
        _ => (0..PRIME)
            .flat_map(|j| (0..SYMBOLS).map(move |r| (j, r)))
            .filter(|(j, r)| (j + r) % PRIME == symbol)
            .fold(0, |sum, (j, r)| {
                sum ^ if j < PRIME - 1 { cell(j, r) } else { parity(r) }
            }),
    }
}

/// Rows that are worked through, each with the set of symbols that adds up to it.
#[derive(Default)]
struct Basis(Vec<(u128, u128)>);

impl Basis {
    /// What is left of a row, and the set that was taken away from it.
    fn reduce(&self, row: u128, set: u128) -> (u128, u128) {
        self.0
            .iter()
            .fold((row, set), |(row, set), (other, members)| {
                let has_top = row >> (127 - other.leading_zeros()) & 1 == 1;
                if has_top {
                    (row ^ other, set ^ members)
                } else {
                    (row, set)
                }
            })
    }

    /// Adds a row, of which something is left, and clears its top column in the others.
    fn push(&mut self, row: u128, set: u128) {
        let top = 127 - row.leading_zeros();
        for (other, members) in &mut self.0 {
            if *other >> top & 1 == 1 {
                *other ^= row;
                *members ^= set;
            }
        }
        self.0.push((row, set));
    }
}

/// The sets of sum zero among the survivors, and for each lost symbol one set that adds up to it.
fn equations() -> (Vec<u128>, Vec<u128>) {
    let (mut basis, mut nulls) = (Basis::default(), vec![0]);
    for number in SYMBOLS..(PRIME + 1) * SYMBOLS {
        let (left, set) = basis.reduce(row(number / SYMBOLS, number % SYMBOLS), 1 << number);
        if left == 0 {
            let more: Vec<u128> = nulls.iter().map(|null| null ^ set).collect();
            nulls.extend(more);
        } else {
            basis.push(left, set);
        }
    }
    let bases = (0..SYMBOLS)
        .map(|symbol| basis.reduce(row(0, symbol), 0).1)
        .collect();
    (nulls, bases)
}

fn main() {
    let (nulls, bases) = equations();
    let plain = bases.iter().fold(0, |all, base| all | base).count_ones();
    let mut waiting: BTreeMap<(u32, usize), Vec<u128>> = BTreeMap::from([((0, 0), vec![0])]);
    let mut work = 0;
    while let Some(((cost, level), mut layer)) = waiting.pop_first() {
        layer.sort_unstable();
        layer.dedup();
        if level >= SYMBOLS {
            println!("least cost {cost} work {work}");
            return;
        }
        work += layer.len() * nulls.len();
        if work > BUDGET {
            println!("spent cost {plain} budget {BUDGET}");
            return;
        }
        let mut children = vec![];
        for mask in layer {
            children.clear();
            let unions = nulls.iter().map(|null| mask | (null ^ bases[level]));
            children.extend(unions.filter(|child| child.count_ones() <= plain));
            for child in &children {
                waiting
                    .entry((child.count_ones(), level + 1))
                    .or_default()
                    .push(*child);
            }
        }
    }
}
