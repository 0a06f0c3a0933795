//! A fixed list of inputs that a sort begins with.

/// A prime number. Behind the smallest inputs the list is gone through in steps of it, so that a short comparison has some of every part.
const STRIDE: usize = 7919;

pub struct Fixed {
    pub smallest: Vec<Vec<u8>>,
    pub others: Vec<Vec<u8>>,
}

impl Fixed {
    /// The input with this index; none behind the list.
    pub fn input(&self, index: u64) -> Option<Vec<u8>> {
        let index = index as usize;
        if index < self.smallest.len() {
            return Some(self.smallest[index].clone());
        }
        let behind = index - self.smallest.len();
        if behind < self.others.len() {
            return Some(self.others[behind * STRIDE % self.others.len()].clone());
        }
        None
    }
}
