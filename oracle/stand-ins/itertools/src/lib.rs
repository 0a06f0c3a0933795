//! Stand-in for itertools: `zip_eq` alone.

/// Pairs two sequences and panics unless they have the same length.
pub fn zip_eq<I, J>(left: I, right: J) -> std::iter::Zip<I::IntoIter, J::IntoIter>
where
    I: IntoIterator,
    J: IntoIterator,
    I::IntoIter: ExactSizeIterator,
    J::IntoIter: ExactSizeIterator,
{
    let left = left.into_iter();
    let right = right.into_iter();
    assert_eq!(left.len(), right.len());
    left.zip(right)
}
