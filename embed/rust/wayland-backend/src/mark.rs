//! What ids have of their connection or server where objects have no pointers: nothing.

/// It is of all connections, and takes no room. Where objects have pointers, a `sys::Address` is in its place.
#[derive(Clone, Copy, Debug, PartialEq, Eq)]
pub(crate) struct NoMark;

impl NoMark {
    /// That of the null id.
    pub(crate) const NONE: NoMark = NoMark;

    pub(crate) fn next() -> NoMark {
        NoMark
    }
}
