//! Buffers as long as a call needs.

/// So many zeros, or none where memory does not hold them.
pub(crate) fn zeros<N: Clone + Default>(length: usize) -> Option<Vec<N>> {
    let mut items = Vec::new();
    items.try_reserve_exact(length).ok()?;
    items.resize(length, N::default());
    Some(items)
}
