//! The set operations that the two programs share.

/// Implements set operations of a trait by the methods of `$blocks`.
///
/// The set has the type `$blocks`, or dereferences to it and converts from it.
#[macro_export]
macro_rules! operations {
    ($blocks:ident) => {
        fn intersection(&self, other: &Self) -> Self {
            $blocks::intersection(self, other).into()
        }
        fn difference(&self, other: &Self) -> Self {
            $blocks::difference(self, other).into()
        }
        fn contains(&self, other: &Self) -> bool {
            $blocks::contains(self, other)
        }
    };
}
