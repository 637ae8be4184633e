//! Words: numbers as a planner writes them, and text broken into lines.

use super::svg::Font;

const SMALL_NUMBERS: [&str; 13] =
    ["no", "one", "two", "three", "four", "five", "six", "seven", "eight", "nine", "ten", "eleven", "twelve"];

/// A count: in letters up to twelve.
pub fn count(number: usize) -> String {
    SMALL_NUMBERS.get(number).map_or_else(|| number.to_string(), |word| word.to_string())
}

/// With a capital letter.
pub fn begun(words: &str) -> String {
    let mut letters = words.chars();
    letters.next().map_or_else(String::new, |first| first.to_uppercase().chain(letters).collect())
}

/// The words of a text; a number's name stays with its number, as in `t = 1`.
fn words(text: &str) -> Vec<String> {
    let kept = text.replace(" = ", "\u{a0}=\u{a0}");
    kept.split(' ').map(|word| word.replace('\u{a0}', " ")).collect()
}

/// Breaks a text into lines that are no wider than this, also in a wide font.
pub fn lines(text: &str, font: Font, width: i32) -> Vec<String> {
    let most = font.letters(width);
    let mut lines: Vec<String> = Vec::new();
    for word in words(text) {
        match lines.last_mut() {
            Some(line) if line.chars().count() + 1 + word.chars().count() <= most => {
                line.push(' ');
                line.push_str(&word);
            }
            _ => lines.push(word),
        }
    }
    lines
}

#[cfg(test)]
mod tests {
    use super::*;

    #[test]
    fn counts() {
        assert_eq!([0, 1, 12, 13, 32].map(count), ["no", "one", "twelve", "13", "32"]);
        assert_eq!(begun("two of 32"), "Two of 32");
        assert_eq!(begun(""), "");
    }

    #[test]
    fn broken_into_lines() {
        let font = Font::plain(10);
        assert_eq!(font.letters(64), 10);
        assert_eq!(lines("one two three", font, 64), ["one two", "three"]);
        assert_eq!(lines("one two th", font, 64), ["one two th"]);
        assert_eq!(lines("longerthanaline x", font, 64), ["longerthanaline", "x"]);
        assert_eq!(lines("more than t = 1", font, 64), ["more than", "t = 1"]);
    }
}
