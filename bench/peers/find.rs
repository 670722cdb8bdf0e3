//! A search for a byte, as the standard library lends its memchr to nobody.

/// Where `byte` first stands in `s`. Blocks are looked through without an early exit, which makes vector code of it.
pub fn find(byte: u8, s: &[u8]) -> Option<usize> {
    let blocks = s.as_chunks::<16>().0.iter();
    let without = blocks.take_while(|block| !block.iter().fold(false, |any, &b| any | (b == byte)));
    let skipped = 16 * without.count();
    s[skipped..].iter().position(|&b| b == byte).map(|at| skipped + at)
}
