//! Judging and decoding ASCII frames. Digits are handled in blocks of a fixed size without an early exit, since the compiler makes vector code of
//! these.

pub const MAX_FRAME: usize = 517;

const MAX_DIGITS: usize = 514;

/// What ends a frame: CR LF, or any of CR, LF and both.
#[allow(dead_code)] // booth-list reads frames that end with CR LF alone.
#[derive(Clone, Copy)]
pub enum Ending {
    CrLf,
    Any,
}

pub enum Judged {
    /// The bytes end before a decision.
    Undecided,
    /// The last of so many bytes fails.
    Failed(usize),
    /// A frame of `used` bytes with a payload of `len`.
    Frame { used: usize, len: usize },
}

fn is_digit(c: u8) -> bool {
    (c.wrapping_sub(b'0') < 10) | (c.wrapping_sub(b'A') < 6)
}

/// How many digits stand at the front of `s`.
fn digit_run(s: &[u8]) -> usize {
    let mut run = 0;
    for block in s.as_chunks::<16>().0 {
        if !block.iter().fold(true, |all, &c| all & is_digit(c)) {
            break;
        }
        run += 16;
    }
    run + s[run..].iter().take_while(|&&c| is_digit(c)).count()
}

/// The byte that two digits stand for.
fn byte(high: u8, low: u8) -> u8 {
    let value = |c: u8| if c < b'A' { c.wrapping_sub(b'0') } else { c.wrapping_sub(b'A' - 10) };
    value(high) << 4 | value(low)
}

/// Puts the bytes that digits stand for into the front of `to` and gives their sum.
#[inline]
pub fn decode(digits: &[u8], to: &mut [u8]) -> u32 {
    let (blocks, rest) = digits.as_chunks::<32>();
    let (to_blocks, to_rest) = to.split_at_mut(16 * blocks.len());
    let mut sum = 0;
    for (block, to) in blocks.iter().zip(to_blocks.as_chunks_mut::<16>().0) {
        *to = std::array::from_fn(|i| byte(block[2 * i], block[2 * i + 1]));
        sum += to.iter().map(|&b| u32::from(b)).sum::<u32>();
    }
    for (pair, to) in rest.chunks_exact(2).zip(to_rest) {
        *to = byte(pair[0], pair[1]);
        sum += u32::from(*to);
    }
    sum
}

/// Judges what begins with the colon at the front of `s`. With any ending, a frame is complete at a CR or an LF. `sum` gives the sum of the bytes that digits
/// stand for.
#[inline]
pub fn judge(s: &[u8], ending: Ending, sum: impl FnOnce(&[u8]) -> u32) -> Judged {
    let digits = digit_run(&s[1..s.len().min(MAX_DIGITS + 2)]);
    if digits > MAX_DIGITS {
        return Judged::Failed(1 + digits);
    }
    let (run, rest) = s[1..].split_at(digits);
    let ends = match (rest, ending) {
        ([], _) => return Judged::Undecided,
        ([b'\r', ..], _) | ([b'\n', ..], Ending::Any) => true,
        _ => false,
    };
    if !ends || digits < 4 || digits % 2 != 0 || sum(run) % 256 != 0 {
        return Judged::Failed(2 + digits);
    }
    match (rest, ending) {
        (_, Ending::Any) => Judged::Frame { used: 2 + digits, len: digits / 2 - 1 },
        ([_], _) => Judged::Undecided,
        ([_, b'\n', ..], _) => Judged::Frame { used: 3 + digits, len: digits / 2 - 1 },
        _ => Judged::Failed(3 + digits),
    }
}
