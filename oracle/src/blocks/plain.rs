// plain.rs: a plan's file of 512-byte blocks, written and read by plain Rust that follows requests (iv) and (v) of document 02 and shares nothing with
// the library. The answers are the requests' numbers.
const BLOCK: usize = 512;
const JOBS: usize = 1024;

/// A format's numbers: how many rows a block holds, how many words a row has, how many zero bytes stand before the rows, and how many blocks a file has
/// at the most.
pub trait Format {
    const ROWS: usize;
    const WORDS: usize;
    const ZEROS: usize;
    const MOST: usize;
    /// Where a block's rows start.
    const LEAD: usize = 8 + Self::ZEROS;

    /// How many bytes the file of so many rows has.
    fn size(rows: usize) -> usize {
        rows.div_ceil(Self::ROWS) * BLOCK
    }
}

/// Request (iv)'s.
pub struct Plan;

impl Format for Plan {
    const ROWS: usize = 15;
    const WORDS: usize = 16;
    const ZEROS: usize = 20;
    const MOST: usize = 69;
}

/// Request (v)'s.
pub struct Tower;

impl Format for Tower {
    const ROWS: usize = 7;
    const WORDS: usize = 32;
    const ZEROS: usize = 52;
    const MOST: usize = 147;
}

/// A little-endian word of four bytes.
fn word(bytes: &[u8]) -> u32 {
    u32::from_le_bytes(bytes.try_into().expect("four bytes"))
}

/// The sum of the 127 words before the check.
pub fn check(block: &[u8]) -> u32 {
    block[..508].chunks_exact(4).fold(0, |sum, w| sum.wrapping_add(word(w)))
}

/// The plan's image at the start of `out`: how many bytes it has, or the refusal.
pub fn write<F: Format>(plan: &[u16], out: &mut [u8]) -> Result<usize, u32> {
    if plan.len() % F::WORDS != 0 || plan.len() / F::WORDS > JOBS {
        return Err(21);
    }
    let size = F::size(plan.len() / F::WORDS);
    if out.len() < size {
        return Err(45);
    }
    for (k, (block, rows)) in out.chunks_exact_mut(BLOCK).zip(plan.chunks(F::ROWS * F::WORDS)).enumerate() {
        block[..4].copy_from_slice(&(k as u32).to_le_bytes());
        block[4..8].copy_from_slice(&((rows.len() / F::WORDS) as u32).to_le_bytes());
        block[8..508].fill(0);
        for (to, w) in block[F::LEAD..508].chunks_exact_mut(2).zip(rows) {
            to.copy_from_slice(&w.to_le_bytes());
        }
        let sum = check(block);
        block[508..].copy_from_slice(&sum.to_le_bytes());
    }
    Ok(size)
}

/// The first of 41 to 44 that holds for block k of n.
fn block_fault<F: Format>(block: &[u8], k: usize, n: usize) -> Option<u32> {
    let used = word(&block[4..8]) as usize;
    if word(&block[508..]) != check(block) {
        return Some(41);
    }
    if word(&block[..4]) as usize != k {
        return Some(42);
    }
    if used < 1 || used > F::ROWS || (k + 1 < n && used < F::ROWS) || k * F::ROWS + used > JOBS {
        return Some(43);
    }
    let unused = &block[F::LEAD + used * 2 * F::WORDS..508];
    if block[8..F::LEAD].iter().chain(unused).any(|b| *b != 0) {
        return Some(44);
    }
    None
}

/// The rows of a file at the start of `plan`: how many there are, or the refusal.
pub fn read<F: Format>(bytes: &[u8], plan: &mut [u16]) -> Result<usize, u32> {
    let n = bytes.len() / BLOCK;
    if bytes.len() % BLOCK != 0 || n > F::MOST {
        return Err(40);
    }
    let mut rows = 0;
    for (k, block) in bytes.chunks_exact(BLOCK).enumerate() {
        if let Some(fault) = block_fault::<F>(block, k, n) {
            return Err(fault);
        }
        rows += word(&block[4..8]) as usize;
    }
    if plan.len() < rows * F::WORDS {
        return Err(45);
    }
    for (to, block) in plan[..rows * F::WORDS].chunks_mut(F::ROWS * F::WORDS).zip(bytes.chunks_exact(BLOCK)) {
        for (w, two) in to.iter_mut().zip(block[F::LEAD..508].chunks_exact(2)) {
            *w = u16::from_le_bytes([two[0], two[1]]);
        }
    }
    Ok(rows)
}
