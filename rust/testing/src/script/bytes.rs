//! Bytes as a script has them: two hexadecimal digits a byte, `xx*N.` for N times the byte xx, `-` for no byte.

/// More bytes than any call is lent: what a line may stand for at most.
const MOST: usize = 1 << 24;

/// Runs of so many equal bytes and more are shortened.
const SHORTENED: usize = 5;

/// The bytes that a word stands for; nothing if it stands for none, or for more than a script may lend.
///
/// ```
/// use testing::script::bytes::parse;
///
/// assert_eq!(parse("0a00*3.ff"), Some(vec![10, 0, 0, 0, 255]));
/// assert_eq!(parse("-"), Some(vec![]));
/// assert_eq!(parse("0A"), None);
/// ```
pub fn parse(word: &str) -> Option<Vec<u8>> {
    if word == "-" {
        return Some(Vec::new());
    }
    let mut bytes = Vec::new();
    let mut rest = word.as_bytes();
    while let [high, low, behind @ ..] = rest {
        let byte = 16 * digit(*high)? + digit(*low)?;
        let (times, behind) = match behind {
            [b'*', count @ ..] => {
                let end = count.iter().position(|&c| c == b'.')?;
                (times(&count[..end])?, &count[end + 1..])
            }
            _ => (1, behind),
        };
        if bytes.len() + times > MOST {
            return None;
        }
        bytes.resize(bytes.len() + times, byte);
        rest = behind;
    }
    rest.is_empty().then_some(bytes)
}

fn digit(c: u8) -> Option<u8> {
    match c {
        b'0'..=b'9' => Some(c - b'0'),
        b'a'..=b'f' => Some(c - b'a' + 10),
        _ => None,
    }
}

/// How often a byte comes: a decimal number, within what a line may stand for.
fn times(digits: &[u8]) -> Option<usize> {
    let decimal = !digits.is_empty() && digits.iter().all(u8::is_ascii_digit);
    let count = decimal.then(|| std::str::from_utf8(digits).ok()?.parse().ok())??;
    (count <= MOST).then_some(count)
}

/// The word for these bytes, runs of five and more shortened.
///
/// ```
/// use testing::script::bytes::told;
///
/// assert_eq!(told(&[1, 7, 7, 7, 7]), "0107070707");
/// assert_eq!(told(&[1, 7, 7, 7, 7, 7]), "0107*5.");
/// assert_eq!(told(&[]), "-");
/// ```
pub fn told(bytes: &[u8]) -> String {
    if bytes.is_empty() {
        return "-".into();
    }
    let mut word = String::new();
    for run in bytes.chunk_by(|a, b| a == b) {
        let byte = format!("{:02x}", run[0]);
        match run.len() {
            many @ SHORTENED.. => word.push_str(&format!("{byte}*{many}.")),
            few => word.push_str(&byte.repeat(few)),
        }
    }
    word
}

#[cfg(test)]
mod tests {
    use super::*;

    #[test]
    fn both_ways() {
        for bytes in [vec![], vec![0; 4], vec![0; 5], vec![9; 600], vec![1, 1, 2, 2, 2, 2, 2, 2, 3]] {
            assert_eq!(parse(&told(&bytes)), Some(bytes));
        }
    }

    #[test]
    fn words_that_are_none() {
        for word in ["0", "000", "0g", "00*3", "00*.", "00*+3.", "*3.", "00*3.-", "--", "00*99999999999999999999.", "00*16777217."] {
            assert_eq!(parse(word), None, "{word}");
        }
    }
}
