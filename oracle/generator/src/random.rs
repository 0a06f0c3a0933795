/// A small generator of numbers (splitmix64): the same seed gives the same numbers everywhere.
pub struct Random(u64);

impl Random {
    pub fn new(seeds: &[u64]) -> Random {
        let mut random = Random(0x6a6f_6c7a);
        for seed in seeds {
            random.0 = random.next() ^ seed.wrapping_mul(0xd1b5_4a32_d192_ed03);
        }
        random
    }
    pub fn next(&mut self) -> u64 {
        self.0 = self.0.wrapping_add(0x9e37_79b9_7f4a_7c15);
        let mut mixed = self.0;
        mixed = (mixed ^ (mixed >> 30)).wrapping_mul(0xbf58_476d_1ce4_e5b9);
        mixed = (mixed ^ (mixed >> 27)).wrapping_mul(0x94d0_49bb_1331_11eb);
        mixed ^ (mixed >> 31)
    }
    /// From 0 to `end` - 1.
    pub fn below(&mut self, end: usize) -> usize {
        (self.next() % end as u64) as usize
    }
    /// From `least` to `most`, both included.
    pub fn between(&mut self, least: i32, most: i32) -> i32 {
        let span = most.wrapping_sub(least) as u32 as u64 + 1;
        least.wrapping_add((self.next() % span) as i32)
    }
    pub fn one_in(&mut self, count: usize) -> bool {
        self.below(count) == 0
    }
    pub fn pick<T: Copy>(&mut self, list: &[T]) -> T {
        list[self.below(list.len())]
    }
    pub fn byte(&mut self) -> u8 {
        self.next() as u8
    }
    pub fn bytes(&mut self, count: usize) -> Vec<u8> {
        (0..count).map(|_| self.byte()).collect()
    }
    /// Text without a 00, mostly of ordinary letters.
    pub fn text(&mut self, count: usize) -> Vec<u8> {
        (0..count).map(|_| self.letter()).collect()
    }
    fn letter(&mut self) -> u8 {
        if self.one_in(16) {
            return self.between(1, 255) as u8;
        }
        self.between(0x20, 0x7e) as u8
    }
    /// A number of 32 bits, mostly small or at a limit.
    pub fn number(&mut self) -> i32 {
        match self.below(8) {
            0 => self.next() as i32,
            1 => self.pick(&crate::integer::TELLING),
            2 => self.between(-70, 70),
            3 => self.between(-9000, 9000),
            _ => self.between(-3, 12),
        }
    }
}
