//! Shares that add up.

use std::cmp::Reverse;

/// Hundredths of a percent.
const WHOLE: u32 = 10_000;

/// The share of each count in their sum: rounded down, and what that leaves goes to those that lost
/// most by it, the first of them where they lost alike. Of nothing each has none.
pub fn shares(counts: &[u64]) -> Vec<u32> {
    let all: u128 = counts.iter().copied().map(u128::from).sum();
    if all == 0 {
        return vec![0; counts.len()];
    }
    let scaled = counts.iter().copied().map(times_whole);
    let mut shares: Vec<u32> = scaled.clone().map(|count| (count / all) as u32).collect();
    let lost: Vec<u128> = scaled.map(|count| count % all).collect();
    let mut by_loss: Vec<usize> = (0..counts.len()).collect();
    by_loss.sort_by_key(|&i| Reverse(lost[i]));
    let left = WHOLE - shares.iter().sum::<u32>();
    for &i in &by_loss[..left as usize] {
        shares[i] += 1;
    }
    shares
}

fn times_whole(count: u64) -> u128 {
    u128::from(count) * u128::from(WHOLE)
}

#[cfg(test)]
mod tests {
    use super::*;

    /// They add up, and each is less than a hundredth of a percent off.
    fn hold_to_counts(counts: &[u64]) {
        let shares = shares(counts);
        assert_eq!(shares.iter().sum::<u32>(), WHOLE, "{counts:?}");
        let all: u128 = counts.iter().copied().map(u128::from).sum();
        for (&count, &share) in counts.iter().zip(&shares) {
            let off = (u128::from(share) * all).abs_diff(times_whole(count));
            assert!(off < all, "{counts:?}");
        }
    }

    #[test]
    fn of_two() {
        for first in 0..=700 {
            hold_to_counts(&[first, 700 - first]);
        }
    }

    #[test]
    fn what_is_left_goes_to_those_that_lost_most() {
        assert_eq!(shares(&[3, 2, 2]), [4286, 2857, 2857]);
        assert_eq!(shares(&[2, 0, 5]), [2857, 0, 7143]);
        assert_eq!(shares(&[1, 1, 1]), [3334, 3333, 3333]);
        assert_eq!(shares(&[1, 20_000]), [0, WHOLE]);
    }

    #[test]
    fn of_the_largest_counts() {
        hold_to_counts(&[u64::MAX; 257]);
        hold_to_counts(&[u64::MAX, 1, u64::MAX - 1]);
        assert_eq!(shares(&[u64::MAX, 0]), [WHOLE, 0]);
    }

    #[test]
    fn of_nothing() {
        assert_eq!(shares(&[0, 0, 0]), [0, 0, 0]);
    }
}
