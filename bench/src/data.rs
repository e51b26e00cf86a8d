//! Networks shaped like real tables, the same in each run.
use std::collections::HashSet;

/// A linear congruential generator. A number is the upper half of its state.
pub struct Random(u64);

impl Random {
    fn next(&mut self) -> u32 {
        self.0 = self.0.wrapping_mul(6364136223846793005).wrapping_add(1442695040888963407);
        (self.0 >> 32) as u32
    }

    fn below(&mut self, n: usize) -> usize {
        (self.next() as u64 * n as u64 >> 32) as usize
    }

    /// Returns a number below `n`. Small numbers are frequent.
    fn skewed(&mut self, n: usize) -> u64 {
        let r = self.next() as f64 / 2f64.powi(32);
        (n as f64 * r * r) as u64
    }

    fn bits(&mut self) -> u128 {
        (0..4).fold(0, |number, _| number << 32 | self.next() as u128)
    }
}

/// How the networks of one family are drawn.
pub struct Family {
    pub width: u8,
    /// The lengths with their shares in thousandths.
    lengths: &'static [(u8, usize)],
    /// Returns an address of a used block.
    used: fn(&mut Random) -> u128,
    /// The average length of a run of neighbours.
    run: usize,
}

pub const IPV4: Family = Family {
    width: 32,
    lengths: &[(14, 1), (15, 1), (16, 20), (17, 17), (18, 30), (19, 50), (20, 36), (21, 40), (22, 105), (23, 100), (24, 600)],
    used: |random| {
        // Popular blocks of 16 bits are spread over 1.0.0.0 to 223.255.255.255.
        let block = random.skewed(223 << 8) * 12_345_679 % (223 << 8);
        (block as u128 + 256) << 16 | random.bits() >> 112
    },
    run: 6,
};

pub const IPV6: Family = Family {
    width: 128,
    lengths: &[(28, 7), (29, 32), (30, 8), (32, 120), (33, 15), (34, 13), (36, 50), (40, 105), (42, 25), (44, 120), (46, 45), (47, 20), (48, 435), (64, 5)],
    used: |random| {
        // Popular blocks of 32 bits are in five regions.
        let block = random.skewed(24_000);
        let region = [0x2a00, 0x2400, 0x2600, 0x2001, 0x2800][block as usize % 5];
        let rest = block.wrapping_mul(0x9e37_79b9_7f4a_7c15) >> 48;
        region << 112 | (rest as u128) << 96 | random.bits() >> 32
    },
    run: 3,
};

/// Returns `n` networks in random order, and for each an address in a random one of them.
pub fn networks(family: &Family, n: usize) -> (Vec<(u128, u8)>, Vec<u128>) {
    let mut random = Random(family.width as u64);
    let (mut seen, mut all) = (HashSet::new(), Vec::new());
    for &(len, share) in family.lengths {
        let (wanted, size) = (all.len() + n * share / 1000, 1 << (family.width - len));
        while all.len() < wanted {
            let mut address = (family.used)(&mut random) / size * size;
            // a run of neighbours, as a block that is announced in parts
            while all.len() < wanted && seen.insert((address, len)) && random.below(family.run) > 0 {
                all.push((address, len));
                address += size;
            }
        }
    }
    for i in (1..all.len()).rev() {
        all.swap(i, random.below(i + 1));
    }
    let mut address = || {
        let (network, len) = all[random.below(all.len())];
        network | random.bits() % (1 << (family.width - len))
    };
    let addresses = (0..all.len()).map(|_| address()).collect();
    (all, addresses)
}
