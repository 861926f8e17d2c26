//! A slice cut into pieces of one length.

/// The pieces of N items, in order; what is left over at the end is left out.
pub fn pieces<T: Copy, const N: usize>(items: &[T]) -> impl Iterator<Item = [T; N]> + '_ {
    // Every chunk has N items, so none is dropped here.
    items
        .chunks_exact(N)
        .filter_map(|chunk| chunk.try_into().ok())
}

#[cfg(test)]
mod tests {
    #[test]
    fn the_rest_is_left_out() {
        let pieces: Vec<[u8; 2]> = super::pieces(&[1, 2, 3, 4, 5]).collect();
        assert_eq!(pieces, [[1, 2], [3, 4]]);
    }
}
