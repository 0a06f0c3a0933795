//! Stand-in for libtw2_warn: a place for warnings, and one that drops them.

pub trait Warn<W> {
    fn warn(&mut self, warning: W);
}

pub struct Ignore;

impl<W> Warn<W> for Ignore {
    fn warn(&mut self, _warning: W) {}
}
