//! Ranges of values, each of which is to be seen.

/// A range of values, each of which is to be seen.
pub struct Sweep {
    pub title: String,
    seen: Vec<bool>,
}

impl Sweep {
    pub fn new(title: &str, values: usize) -> Sweep {
        Sweep { title: title.to_string(), seen: vec![false; values] }
    }

    /// A range for each packet size, 64 and 512.
    pub fn for_each_size(title: &str, values: [usize; 2]) -> [Sweep; 2] {
        [Sweep::new(&format!("{title}, P = 64"), values[0]), Sweep::new(&format!("{title}, P = 512"), values[1])]
    }

    /// The first value not seen, from `start` on and round; `start` itself where all were seen.
    pub fn missing(&self, start: usize) -> usize {
        let values = self.seen.len();
        (0..values).map(|step| (start + step) % values).find(|&value| !self.seen[value]).unwrap_or(start % values)
    }

    pub fn see(&mut self, value: usize) {
        self.seen[value] = true;
    }

    pub fn len(&self) -> usize {
        self.seen.len()
    }

    pub fn complete(&self) -> bool {
        self.seen.iter().all(|&seen| seen)
    }

    pub fn count(&self) -> usize {
        self.seen.iter().filter(|&&seen| seen).count()
    }
}
