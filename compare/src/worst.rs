//! Orders of hashes made against the choice of pivots: what sorting takes longest for, as far as is known (docs/SPEED.md).

/// Parts of so many hashes are sorted by insertion.
const SHORT: usize = 16;

/// All hashes `rest`, but equal ones that are less than all others where each division by a pivot samples: it passes over its part a second
/// time, and parts off those alone. And the places of the rest, as they stand once the pivots are used up.
fn against_pivots(n: usize, rest: u64) -> (Vec<u64>, Vec<usize>) {
    let mut hashes = vec![rest; n];
    let mut left: Vec<usize> = (0..n).collect();
    let levels = 2 * (u64::BITS - (n as u64).leading_zeros()) as u64;
    for level in 0..levels {
        if left.len() <= SHORT {
            break;
        }
        let ninth = left.len() / 9;
        let sampled: &[usize] = if ninth < 16 { &[4, 5] } else { &[4, 5, 7, 8] };
        sampled.iter().for_each(|k| hashes[left[k * ninth]] = level);
        // Both passes move the places as `split` moves hashes; in the first none is less.
        left.rotate_right(1);
        let mut less = 0;
        for i in 0..left.len() {
            left.swap(i, less);
            less += (hashes[left[less]] == level) as usize;
        }
        left.drain(..less);
    }
    (hashes, left)
}

/// Of the rest all but two are equal. The lowest bit but one tells one of the two, the lowest the other, and no bit before them parts off
/// any; they stand near the end, and stay there, so that whether a part rises shows late.
pub fn order(n: usize) -> Vec<u64> {
    let (mut hashes, left) = against_pivots(n, u64::MAX - 1);
    // Each of the first 62 bits moves the last two to the front.
    let end = left.len().saturating_sub(130);
    left[end..].iter().zip([u64::MAX, u64::MAX - 2]).for_each(|(at, h)| hashes[*at] = h);
    hashes
}

/// The rest are two values in turn, which the lowest bit tells: two long parts of equal hashes are left when every bit has divided. Were
/// they not seen to rise, insertion would take quadratic time.
pub fn alternating(n: usize) -> Vec<u64> {
    let (mut hashes, left) = against_pivots(n, 1 << 40);
    left.iter().step_by(2).for_each(|at| hashes[*at] += 1);
    hashes
}
