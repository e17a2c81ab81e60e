//! Numbers as people read them.

/// The root of the mean square: how far a sample is off.
pub fn per_sample(distance: u64, n: usize) -> f64 {
    (distance as f64 / n as f64).sqrt()
}

/// How many times as far a second trace is as the nearest, by roots; nothing if the nearest is at distance 0.
pub fn times_as_far(nearest: u64, second: u64) -> Option<f64> {
    (nearest > 0).then(|| (second as f64 / nearest as f64).sqrt())
}

/// The same in words. Times that would be shown as 1.0 say nothing, so that there are words for them.
pub fn how_far(nearest: u64, second: u64) -> String {
    match times_as_far(nearest, second) {
        _ if nearest == second => "just as near".to_string(),
        Some(times) if times < 1.05 => "nearly as near".to_string(),
        Some(times) => format!("{times:.1} times as far"),
        None => "farther".to_string(),
    }
}

/// The bits that samples take, by what recorders have: 16, or 20 if one of them does not fit these.
pub fn bits_of(samples: &[i32]) -> u32 {
    match samples.iter().all(|&sample| i16::try_from(sample).is_ok()) {
        true => 16,
        false => 20,
    }
}

/// The least and the greatest sample of so many bits.
pub fn limits_of(bits: u32) -> [i32; 2] {
    [-1 << (bits - 1), (1 << (bits - 1)) - 1]
}

/// One and several.
pub fn count(number: usize, one: &str) -> String {
    match number {
        1 => format!("1 {one}"),
        _ if one.ends_with("leaf") => format!("{number} {}aves", &one[..one.len() - 2]),
        _ => format!("{number} {one}s"),
    }
}

/// 1234567 as 1,234,567.
pub fn grouped(number: usize) -> String {
    let digits = number.to_string();
    let mut text = String::new();
    for (at, digit) in digits.chars().enumerate() {
        if at > 0 && (digits.len() - at).is_multiple_of(3) {
            text.push(',');
        }
        text.push(digit);
    }
    text
}

/// The one in the middle; nothing of nothing.
pub fn median(mut list: Vec<f64>) -> f64 {
    list.sort_by(f64::total_cmp);
    list.get(list.len() / 2).copied().unwrap_or_default()
}

#[cfg(test)]
mod tests {
    use super::*;

    #[test]
    fn as_people_read_them() {
        assert_eq!([0, 999, 1000, 12_345_678].map(grouped), ["0", "999", "1,000", "12,345,678"]);
        assert_eq!([count(1, "leaf"), count(2, "leaf"), count(0, "trace")], ["1 leaf", "2 leaves", "0 traces"]);
        assert_eq!(per_sample(400, 4), 10.0);
        assert_eq!([bits_of(&[]), bits_of(&[-32_768, 32_767]), bits_of(&[0, 32_768]), bits_of(&[-32_769])], [16, 16, 20, 20]);
        assert_eq!([limits_of(16), limits_of(20)], [[-32_768, 32_767], [-524_288, 524_287]]);
        assert_eq!((times_as_far(0, 5), times_as_far(4, 16)), (None, Some(2.0)));
        let words = [(4, 16), (100, 100), (1000, 1001), (10_000, 11_100), (0, 5), (0, 0)].map(|(first, second)| how_far(first, second));
        assert_eq!(words, ["2.0 times as far", "just as near", "nearly as near", "1.1 times as far", "farther", "just as near"]);
        assert_eq!((median(vec![3.0, 1.0, 2.0]), median(vec![])), (2.0, 0.0));
    }
}
