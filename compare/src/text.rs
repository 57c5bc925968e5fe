//! Cutting a message apart before anything is judged: into lines, and a line into groups.

/// A line without its end, and the place of its first byte in the text it is cut from.
#[derive(Clone, Copy, Debug, PartialEq, Eq)]
pub struct Line<'t> {
    pub place: usize,
    pub text: &'t [u8],
}

/// The lines of a text: up to an LF, less one CR before it. What follows the last LF is a line only if something stands
/// there, and a CR at its end is text, since only CR LF is another end.
pub fn placed_lines(text: &[u8]) -> Vec<Line<'_>> {
    let mut place = 0;
    let mut lines = Vec::new();
    for line in text.split(|&byte| byte == b'\n') {
        lines.push(Line { place, text: line });
        place += line.len() + 1;
    }
    let unended = lines.pop();
    for line in &mut lines {
        line.text = line.text.strip_suffix(b"\r").unwrap_or(line.text);
    }
    lines.extend(unended.filter(|line| !line.text.is_empty()));
    lines
}

pub fn lines(text: &[u8]) -> Vec<&[u8]> {
    placed_lines(text).into_iter().map(|line| line.text).collect()
}

/// The groups of a text, parted by one or more spaces; none where the text is empty or a space stands at its start or end.
pub fn groups(text: &[u8]) -> Option<Vec<&[u8]>> {
    if text.is_empty() || text.starts_with(b" ") || text.ends_with(b" ") {
        return None;
    }
    Some(text.split(|&byte| byte == b' ').filter(|group| !group.is_empty()).collect())
}

/// The groups of a text that has exactly `N`.
pub fn exactly<const N: usize>(text: &[u8]) -> Option<[&[u8]; N]> {
    groups(text)?.try_into().ok()
}

/// The first `count` bytes of a text and the rest; none where it is shorter.
pub fn split(text: &[u8], count: usize) -> Option<(&[u8], &[u8])> {
    (count <= text.len()).then(|| text.split_at(count))
}

/// The number that exactly `count` digits say.
pub fn digits(group: &[u8], count: usize) -> Option<u32> {
    if group.len() != count || !group.iter().all(u8::is_ascii_digit) {
        return None;
    }
    Some(group.iter().fold(0, |number, digit| 10 * number + u32::from(digit - b'0')))
}

/// A group of exactly `N` letters.
pub fn letters<const N: usize>(group: &[u8]) -> Option<[u8; N]> {
    let word = <[u8; N]>::try_from(group).ok()?;
    word.iter().all(u8::is_ascii_uppercase).then_some(word)
}

/// Without the spaces at its start. A tab is no space.
pub fn without_leading_spaces(text: &[u8]) -> &[u8] {
    let spaces = text.iter().take_while(|&&byte| byte == b' ').count();
    &text[spaces..]
}

#[cfg(test)]
mod tests {
    use super::*;

    #[test]
    fn a_cr_is_an_end_only_before_lf() {
        assert_eq!(lines(b"A\r\nB\nC\r"), [&b"A"[..], b"B", b"C\r"]);
        assert_eq!(lines(b"A\r\r\n"), [&b"A\r"[..]]);
        assert_eq!(lines(b"\r\n\n"), [&b""[..], b""]);
        assert!(lines(b"").is_empty());
    }

    #[test]
    fn a_line_stands_behind_the_end_before_it() {
        let places = |text: &'static [u8]| placed_lines(text).iter().map(|line| line.place).collect::<Vec<_>>();
        assert_eq!(places(b"A\r\nB\n\nC"), [0, 3, 5, 6]);
        assert_eq!(places(b"\n\r\n"), [0, 1]);
    }

    #[test]
    fn spaces_at_either_end_are_a_misfit() {
        assert_eq!(groups(b"A   B"), Some(vec![&b"A"[..], b"B"]));
        for text in [&b" A"[..], b"A ", b" ", b""] {
            assert_eq!(groups(text), None);
        }
    }
}
