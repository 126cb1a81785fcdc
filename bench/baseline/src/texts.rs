//! What the readers of texts have in common: lines, words and names in normal form.

/// The lines without their ends, each with its number.
pub fn lines(text: &[u8]) -> impl Iterator<Item = (usize, &[u8])> {
    (1..).zip(text.split_inclusive(|byte| *byte == b'\n').map(without_end))
}

fn without_end(line: &[u8]) -> &[u8] {
    match line.strip_suffix(b"\n") {
        Some(line) => line.strip_suffix(b"\r").unwrap_or(line),
        None => line,
    }
}

pub fn is_comment(line: &[u8]) -> bool {
    line.first() == Some(&b'#')
}

/// Puts the words of the line into `found`, in place of those of an earlier line.
pub fn find_words<'a>(found: &mut Vec<&'a [u8]>, line: &'a [u8]) {
    found.clear();
    found.extend(line.split(|byte| matches!(byte, b' ' | b'\t')).filter(|word| !word.is_empty()));
}

pub fn is_name(word: &[u8]) -> bool {
    (1..=55).contains(&word.len())
        && word.iter().all(|byte| byte.is_ascii_alphanumeric() || matches!(byte, b'_' | b'-'))
}

/// The name with `_` for each `-`.
pub fn normal(name: &[u8]) -> Vec<u8> {
    name.iter().map(|byte| if *byte == b'-' { b'_' } else { *byte }).collect()
}
