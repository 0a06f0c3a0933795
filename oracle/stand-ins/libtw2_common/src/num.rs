/// Casts between integer types: `try_` answers none, `assert_` panics, where the value does not fit.
pub trait Cast: Sized + TryInto<i32> + TryInto<u32> + TryInto<usize> {
    fn try_i32(self) -> Option<i32> {
        self.try_into().ok()
    }
    fn try_usize(self) -> Option<usize> {
        self.try_into().ok()
    }
    fn assert_u32(self) -> u32 {
        self.try_into().ok().expect("the value fits a u32")
    }
    fn assert_usize(self) -> usize {
        self.try_into().ok().expect("the value fits a usize")
    }
}

impl Cast for i32 {}
impl Cast for u32 {}
impl Cast for usize {}
