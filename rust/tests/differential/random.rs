//! Random inputs from a seed (splitmix64), and buffers with margins.

/// A sequence of random numbers. A test that fails prints its seed.
pub struct Random {
    seed: u64,
    state: u64,
}

impl Random {
    pub fn new(seed: u64) -> Random {
        Random { seed, state: seed }
    }

    pub fn next(&mut self) -> u64 {
        self.state = self.state.wrapping_add(0x9E37_79B9_7F4A_7C15);
        let mut z = self.state;
        z = (z ^ z >> 30).wrapping_mul(0xBF58_476D_1CE4_E5B9);
        z = (z ^ z >> 27).wrapping_mul(0x94D0_49BB_1331_11EB);
        z ^ z >> 31
    }

    /// A number below the bound.
    pub fn below(&mut self, bound: usize) -> usize {
        (self.next() % bound as u64) as usize
    }

    /// True in so many of a hundred.
    pub fn percent(&mut self, chance: usize) -> bool {
        self.below(100) < chance
    }

    pub fn pick<T: Copy>(&mut self, from: &[T]) -> T {
        from[self.below(from.len())]
    }

    pub fn bytes(&mut self, count: usize) -> Vec<u8> {
        (0..count).map(|_| self.next() as u8).collect()
    }

    /// A number of any size: each bit length is as likely as another.
    pub fn any_size(&mut self) -> u64 {
        let shift = self.below(64);
        self.next() >> shift
    }
}

impl Drop for Random {
    fn drop(&mut self) {
        if std::thread::panicking() {
            eprintln!("the failing case has seed {}", self.seed);
        }
    }
}

/// So many seeds, times DFB_TIMES where it is set.
pub fn seeds(count: u64) -> std::ops::Range<u64> {
    let times = std::env::var("DFB_TIMES").map_or(1, |times| times.parse().expect("DFB_TIMES is a number"));
    0..count * times
}

/// A list that stands in the middle of a larger one, whose margins no call may change.
#[derive(Clone, Debug, PartialEq, Eq)]
pub struct Buffer<T> {
    all: Vec<T>,
}

const MARGIN: usize = 16;

impl<T: Copy> Buffer<T> {
    pub fn new(contents: &[T], mut random: impl FnMut() -> T) -> Buffer<T> {
        let mut all: Vec<T> = (0..MARGIN).map(|_| random()).collect();
        all.extend_from_slice(contents);
        all.extend((0..MARGIN).map(|_| random()));
        Buffer { all }
    }

    pub fn of_length(length: usize, mut random: impl FnMut() -> T) -> Buffer<T> {
        let contents: Vec<T> = (0..length).map(|_| random()).collect();
        Buffer::new(&contents, random)
    }

    /// A list with fixed margins.
    pub fn lent(contents: &[T]) -> Buffer<T>
    where
        T: From<u8>,
    {
        Buffer::new(contents, || T::from(0x5A))
    }

    pub fn list(&mut self) -> &mut [T] {
        let end = self.all.len() - MARGIN;
        &mut self.all[MARGIN..end]
    }

    /// The list and its margins.
    pub fn all(&self) -> &[T] {
        &self.all
    }

    /// The buffer with other elements from a place on.
    pub fn with(&self, at: usize, elements: &[T]) -> Buffer<T> {
        let mut later = self.clone();
        later.list()[at..at + elements.len()].copy_from_slice(elements);
        later
    }
}
