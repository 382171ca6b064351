//! Words as text: upper-case hexadecimal, eight digits a word.

/// The words of a line, if it is made of whole words.
pub fn parse(line: &[u8]) -> Option<Vec<i32>> {
    if line.is_empty() || !line.len().is_multiple_of(8) {
        return None;
    }
    line.chunks_exact(8).map(word).collect()
}

/// One word of eight digits.
fn word(digits: &[u8]) -> Option<i32> {
    let mut value = 0u32;
    for digit in digits {
        let digit = match digit {
            b'0'..=b'9' => digit - b'0',
            b'A'..=b'F' => digit - b'A' + 10,
            _ => return None,
        };
        value = value << 4 | u32::from(digit);
    }
    Some(value as i32)
}

/// Words as a line, without its line feed.
pub fn write(words: &[i32]) -> String {
    let mut line = String::with_capacity(8 * words.len());
    for word in words {
        for shift in (0..8).rev() {
            let digit = (*word as u32) >> (4 * shift) & 15;
            line.push(char::from(b"0123456789ABCDEF"[digit as usize]));
        }
    }
    line
}

/// The lines of a text: each ends at a line feed, the last one perhaps at the end.
pub fn lines(text: &[u8]) -> Vec<&[u8]> {
    let mut lines: Vec<&[u8]> = text.split(|byte| *byte == b'\n').collect();
    if lines.last().is_some_and(|last| last.is_empty()) {
        lines.pop();
    }
    lines
}
