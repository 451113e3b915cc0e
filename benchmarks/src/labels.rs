//! Seeded labels, so that every run measures the same work.

/// What every seed is drawn from.
pub const SEED: u64 = 0x9E37_79B9_7F4A_7C15;

/// A xorshift generator; its state is never zero.
pub struct Random(pub u64);

impl Random {
    /// A number from 0 to one under the bound.
    pub fn below(&mut self, bound: usize) -> usize {
        self.0 ^= self.0 << 13;
        self.0 ^= self.0 >> 7;
        self.0 ^= self.0 << 17;
        (((self.0 >> 32) * bound as u64) >> 32) as usize
    }

    /// A label as on a cartridge: a product, then four to ten digits and letters; one in eight is cut short.
    pub fn label(&mut self) -> Vec<u8> {
        let products = ["BETA-", "BETA-K", "PU1K-", "PU1K-HV-", "WS", "LOT ", "7", "MK"];
        let mut label = products[self.below(products.len())].as_bytes().to_vec();
        for _ in 0..4 + self.below(7) {
            label.push(b"0123456789ABCDEFHKLMNPRSTX"[self.below(26)]);
        }
        if self.below(8) == 0 {
            label.truncate(1 + self.below(label.len()));
        }
        label
    }

    /// So many labels, some of them the same or the beginning of another.
    pub fn labels(&mut self, count: usize) -> Vec<Vec<u8>> {
        (0..count).map(|_| self.label()).collect()
    }

    /// The same labels in another order.
    pub fn mixed(&mut self, mut labels: Vec<Vec<u8>>) -> Vec<Vec<u8>> {
        for last in (1..labels.len()).rev() {
            labels.swap(last, self.below(last + 1));
        }
        labels
    }
}

/// The labels of so many lots of one product, from a lot on, fifty of each: its own, those of its nine boxes and those of the
/// forty cartridges in them, as "PU1K-07", "PU1K-073" and "PU1K-073-4"; so every fifth label is the beginning of others.
pub fn lots(first: usize, count: usize) -> Vec<Vec<u8>> {
    let mut labels = Vec::new();
    for lot in first..first + count {
        let lot = format!("PU1K-{lot:02}");
        labels.extend((1..=9).map(|number| format!("{lot}{number}")));
        labels.extend((0..40).map(|number| format!("{lot}{}-{}", number % 9 + 1, number / 9 + 1)));
        labels.push(lot);
    }
    labels.into_iter().map(String::into_bytes).collect()
}

/// The labels of so many serial numbers of one product, from a number on.
pub fn serials(first: usize, count: usize) -> Vec<Vec<u8>> {
    (first..first + count).map(|number| format!("PU1K-{number:04}").into_bytes()).collect()
}
