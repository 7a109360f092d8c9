//! Numbers drawn by chance, the same on every machine: Marsaglia's xorshift (2003) with Vigna's multiplier (2016).

pub struct Draw(u64);

impl Draw {
    pub fn new(seed: u64) -> Draw {
        // Seeds near each other must not give runs near each other, and 0 is no state of xorshift.
        let mut draw = Draw(seed.wrapping_mul(0x9E37_79B9_7F4A_7C15) ^ 0x5851_F42D_4C95_7F2D | 1);
        for _ in 0..8 {
            draw.next();
        }
        draw
    }

    fn next(&mut self) -> u64 {
        self.0 ^= self.0 >> 12;
        self.0 ^= self.0 << 25;
        self.0 ^= self.0 >> 27;
        self.0.wrapping_mul(0x2545_F491_4F6C_DD1D)
    }

    /// A number under n, n at least 1.
    pub fn below(&mut self, n: usize) -> usize {
        ((self.next() >> 33) as usize) % n
    }

    /// A number from low to high, both included.
    pub fn between(&mut self, low: usize, high: usize) -> usize {
        low + self.below(high - low + 1)
    }

    /// Yes in p of q cases.
    pub fn chance(&mut self, p: usize, q: usize) -> bool {
        self.below(q) < p
    }

    pub fn pick<T: Copy>(&mut self, from: &[T]) -> T {
        from[self.below(from.len())]
    }

    pub fn sign(&mut self, variable: i32) -> i32 {
        if self.chance(1, 2) {
            variable
        } else {
            -variable
        }
    }

    pub fn shuffle<T>(&mut self, list: &mut [T]) {
        for last in (1..list.len()).rev() {
            list.swap(last, self.below(last + 1));
        }
    }

    /// k different members of a list, in the order drawn.
    pub fn several<T: Copy>(&mut self, from: &[T], k: usize) -> Vec<T> {
        let mut places: Vec<usize> = (0..from.len()).collect();
        self.shuffle(&mut places);
        places.iter().take(k).map(|&place| from[place]).collect()
    }
}
