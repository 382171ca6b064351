//! Drawings as short text, which the page makes long again: phrases that they are full of are a tilde and a letter.

/// The phrases, by their letters: one that has another in it stands in front of that.
const PHRASES: [(char, &str); 26] = [
    ('a', "\"/></g></g><g class=\"p\" data-n=\"point "),
    ('b', ", on the curve\nx "),
    ('c', ", off the curve\nx "),
    ('d', " pixels ("),
    ('e', " units): touched, with widths edge "),
    ('f', " units): touched, with heights edge "),
    ('g', " units): touched, strong"),
    ('h', " units): weak"),
    ('i', " units)"),
    ('j', "\"><g class=\"b\"><use href=\"#p"),
    ('k', "\"/></g><g class=\"a\"><use href=\"#p"),
    ('l', "\" x=\""),
    ('m', "\" y=\""),
    ('n', "\ny "),
    ('o', "\"><g class=\"b\"><path class=\"hit\" d=\""),
    ('p', "\"/><path class=\"across\" d=\""),
    ('q', "\"/></g><g class=\"a\"><path class=\"hit\" d=\""),
    ('r', "\"/></g></g><g class=\"e m"),
    ('s', "\"/><path d=\""),
    ('t', "\" data-n=\"heights, edge "),
    ('u', "\" data-n=\"widths, edge "),
    ('v', "\ndesign position "),
    ('w', "\nstem with edge "),
    ('x', ", width "),
    ('y', "/64 → "),
    ('z', "/64"),
];

/// A text made short. A tilde is two.
pub fn packed(text: &str) -> String {
    let text = text.replace('~', "~~");
    PHRASES.iter().fold(text, |text, (letter, phrase)| {
        text.replace(phrase, &format!("~{letter}"))
    })
}

/// The phrases as the page's script has them, with what a tilde behind a tilde is.
pub fn script() -> String {
    let phrase = |(letter, phrase): &(char, &str)| format!("{letter}: {phrase:?}, ");
    let phrases: String = PHRASES.iter().map(phrase).collect();
    format!("const PHRASES = {{{phrases}\"~\": \"~\"}};\n")
}

#[cfg(test)]
mod tests {
    use super::{packed, PHRASES};

    /// A short text made long again, as the page does it.
    fn made(text: &str) -> String {
        let mut long = String::new();
        let mut letters = text.chars();
        while let Some(letter) = letters.next() {
            let behind = if letter == '~' { letters.next() } else { None };
            let phrase = PHRASES.iter().find(|(own, _)| Some(*own) == behind);
            long += phrase.map_or(&behind.unwrap_or(letter).to_string(), |(_, phrase)| phrase);
        }
        long
    }

    #[test]
    fn what_is_made_is_what_was_packed() {
        let all: String = PHRASES.iter().map(|(_, phrase)| *phrase).collect();
        let numbers = "point 0, on the curve\nx 1/64 → 2/64 pixels (1 → 2 units): weak";
        for text in [&all, "~", "~a~~b~", "U+007E ~ at 9", numbers, ""] {
            assert_eq!(made(&packed(text)), text);
        }
        assert!(packed(numbers).len() < numbers.len() / 2);
    }
}
