//! The exact scheme in whole numbers of any size: the densities after t steps, times D to the power t.

use std::cmp::Ordering;

/// A whole number, its digits to the base 2^32 from the lowest, without a leading 0.
#[derive(Clone, Debug, PartialEq, Eq)]
pub struct Whole(Vec<u32>);

impl Whole {
    fn trimmed(mut digits: Vec<u32>) -> Whole {
        while digits.last() == Some(&0) {
            digits.pop();
        }
        Whole(digits)
    }

    pub fn new(value: u32) -> Whole {
        Whole::trimmed(vec![value])
    }

    fn digit(&self, i: usize) -> u64 {
        self.0.get(i).map_or(0, |&digit| u64::from(digit))
    }

    pub fn plus(&self, other: &Whole) -> Whole {
        let mut carry = 0;
        let mut digits = Vec::new();
        for i in 0..=self.0.len().max(other.0.len()) {
            let sum = self.digit(i) + other.digit(i) + carry;
            digits.push(sum as u32);
            carry = sum >> 32;
        }
        Whole::trimmed(digits)
    }

    /// The difference; panics where it would be below 0.
    pub fn minus(&self, other: &Whole) -> Whole {
        assert!(self >= other, "a difference below 0");
        let mut borrow = 0;
        let mut digits = Vec::new();
        for i in 0..self.0.len() {
            let taken = other.digit(i) + borrow;
            borrow = u64::from(self.digit(i) < taken);
            digits.push(((borrow << 32) + self.digit(i) - taken) as u32);
        }
        Whole::trimmed(digits)
    }

    pub fn times(&self, factor: u32) -> Whole {
        let mut carry = 0;
        let mut digits = Vec::new();
        for i in 0..=self.0.len() {
            let product = self.digit(i) * u64::from(factor) + carry;
            digits.push(product as u32);
            carry = product >> 32;
        }
        Whole::trimmed(digits)
    }

    pub fn distance(&self, other: &Whole) -> Whole {
        if self >= other {
            self.minus(other)
        } else {
            other.minus(self)
        }
    }
}

impl Ord for Whole {
    fn cmp(&self, other: &Whole) -> Ordering {
        let from_top = |w: &Whole| w.0.iter().rev().copied().collect::<Vec<u32>>();
        self.0.len().cmp(&other.0.len()).then_with(|| from_top(self).cmp(&from_top(other)))
    }
}

impl PartialOrd for Whole {
    fn partial_cmp(&self, other: &Whole) -> Option<Ordering> {
        Some(self.cmp(other))
    }
}

/// The exact densities after the given steps times D to the power of their number, and that power. With the power Z before
/// a step, a face moves "the smaller of document 01's f and cap × D × Z".
pub fn run(road: [u32; 5], caps: &[u32], cells: &[u32], up: &[u32], down: &[u32]) -> (Vec<Whole>, Whole) {
    let [d, p, q, j, c] = road;
    let mut z = Whole::new(1);
    let mut x: Vec<Whole> = cells.iter().map(|&cell| Whole::new(cell)).collect();
    for t in 0..up.len() {
        let (critical, jam, unit) = (z.times(c), z.times(j), z.times(d));
        let flow = |a: &Whole, b: &Whole, cap: u32| {
            let sent = a.min(&critical).times(p);
            let taken = jam.minus(b.max(&critical)).times(q);
            sent.min(taken).min(unit.times(cap))
        };
        let mut all = vec![z.times(up[t])];
        all.extend(x.iter().cloned());
        all.push(z.times(down[t]));
        let f: Vec<Whole> = all.windows(2).zip(caps).map(|(pair, &cap)| flow(&pair[0], &pair[1], cap)).collect();
        x = (0..x.len()).map(|i| x[i].times(d).plus(&f[i]).minus(&f[i + 1])).collect();
        z = z.times(d);
    }
    (x, z)
}
