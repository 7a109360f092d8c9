//! A small xorshift generator, so that every case comes back with its seed, its group and its number.

pub struct Rng {
    state: u64,
}

impl Rng {
    pub fn new(seed: u64) -> Rng {
        // Seeds near each other must not give streams near each other: mix first. The state must not be 0.
        let mut z = seed.wrapping_add(0x9e37_79b9_7f4a_7c15);
        z = (z ^ (z >> 30)).wrapping_mul(0xbf58_476d_1ce4_e5b9);
        z = (z ^ (z >> 27)).wrapping_mul(0x94d0_49bb_1331_11eb);
        Rng { state: (z ^ (z >> 31)) | 1 }
    }

    /// The stream of one case of one group.
    pub fn of_case(seed: u64, group: &str, number: usize) -> Rng {
        let mut mixed = seed ^ 0xcbf2_9ce4_8422_2325;
        for byte in group.bytes().chain((number as u64).to_le_bytes()) {
            mixed = (mixed ^ byte as u64).wrapping_mul(0x0000_0100_0000_01b3);
        }
        Rng::new(mixed)
    }

    pub fn next(&mut self) -> u64 {
        self.state ^= self.state >> 12;
        self.state ^= self.state << 25;
        self.state ^= self.state >> 27;
        self.state.wrapping_mul(0x2545_f491_4f6c_dd1d)
    }

    /// Below n; n is at least 1.
    pub fn below(&mut self, n: usize) -> usize {
        ((self.next() >> 16) % n as u64) as usize
    }

    /// From low to high, both included.
    pub fn from(&mut self, low: usize, high: usize) -> usize {
        low + self.below(high - low + 1)
    }

    /// True once in n times.
    pub fn once_in(&mut self, n: usize) -> bool {
        self.below(n) == 0
    }

    pub fn coin(&mut self) -> bool {
        self.once_in(2)
    }

    pub fn pick<'l, T>(&mut self, list: &'l [T]) -> &'l T {
        &list[self.below(list.len())]
    }

    pub fn shuffle<T>(&mut self, list: &mut [T]) {
        for i in (1..list.len()).rev() {
            list.swap(i, self.below(i + 1));
        }
    }

    /// Some of the list's members, in a random order.
    pub fn some<T: Clone>(&mut self, list: &[T], how_many: usize) -> Vec<T> {
        let mut all = list.to_vec();
        self.shuffle(&mut all);
        all.truncate(how_many);
        all
    }
}
