//! Texts at the boundaries of what the reader takes (docs/RULES.md, "Call lists"), each
//! with the refusal that the rules give it.

use crate::text::MOST_BYTES;

/// Where and with what number the reader refuses a text; none if it takes it all.
pub type Refusal = Option<(usize, u8)>;

pub struct Boundary {
    pub name: String,
    pub text: Vec<u8>,
    /// Asked by the tests only.
    #[cfg_attr(not(test), allow(dead_code))]
    pub refusal: Refusal,
}

/// The letters of the table with good numbers for each: what each number is.
const CALLS: [(&str, &[Place]); 11] = [
    ("n", &[Place::Name, Place::Flag, Place::Accesses, Place::Name, Place::Name, Place::Code]),
    ("s", &[Place::Name]),
    ("f", &[Place::Name]),
    ("w", &[Place::Name]),
    ("c", &[Place::Name]),
    ("r", &[Place::Name, Place::Name, Place::Name]),
    ("g", &[Place::Name, Place::Name]),
    ("p", &[Place::Name, Place::Name, Place::Value]),
    ("u", &[Place::Name, Place::Name, Place::Value]),
    ("l", &[Place::Name]),
    ("q", &[]),
];

/// What a number stands for. A name is of a task, a cell, lo or hi.
#[derive(Clone, Copy, PartialEq)]
enum Place {
    Name,
    Flag,
    Accesses,
    Code,
    Value,
}

const ELEMENTS: [(&str, usize); 2] = [("count", 1), ("span", 2)];

/// Tokens that are no numbers. An empty one gives two spaces, or one at the end of a line.
const NO_NUMBERS: [&str; 15] = [
    "", "00", "01", "+1", "-1", "-0", "1.", "0x1", "1e0", "a", "1\t", "1\r", "1\0",
    "18446744073709551616", "100000000000000000000000000000000000000",
];

pub fn boundaries() -> Vec<Boundary> {
    let mut table = Table(Vec::new());
    table.whole_texts();
    table.lengths();
    table.headers();
    for (name, width) in ELEMENTS {
        table.letters(name);
        table.numbers(name, width);
        table.counts(name, width);
        table.sizes(name, width);
    }
    table.strange_bytes();
    table.0
}

struct Table(Vec<Boundary>);

impl Table {
    fn add(&mut self, name: impl Into<String>, text: impl Into<Vec<u8>>, refusal: Refusal) {
        self.0.push(Boundary { name: name.into(), text: text.into(), refusal });
    }

    /// One line between two good ones; it is line 3.
    fn line(&mut self, element: &str, line: &[u8], question: Option<u8>) {
        let text = [element.as_bytes(), b" 4\nq\n", line, b"\nl 0\n"].concat();
        let mut shown = line.escape_ascii().to_string();
        if shown.len() > 60 {
            shown = format!("{}.. ({} bytes)", &shown[..50], line.len());
        }
        self.add(format!("{element}: {shown}"), text, question.map(|no| (3, no)));
    }

    fn whole_texts(&mut self) {
        for (text, line, question) in [
            ("", 1, 20),
            ("\n", 1, 21),
            ("\n\n", 1, 21),
            ("\ncount 4\n", 1, 21),
            ("c", 1, 20),
            ("count 4", 1, 20),
            ("span 256", 1, 20),
            ("count 4\r\n", 1, 21),
            ("count 4\rq\r", 1, 20),
            ("count 4\nq", 2, 20),
            ("count 4\nx", 2, 20),
            ("count 4\n ", 2, 20),
            ("count 4\nq\ns 0\ng 0 0", 4, 20),
            ("count 4\n\n", 2, 22),
            ("count 4\nq\n\n", 3, 22),
            ("count 4\nq\n\nq\n", 3, 22),
            ("count 4\nq\r\n", 2, 23),
            ("count 4\ns 0\r\n", 2, 23),
            ("count 4\n\r\n", 2, 22),
            // A second header begins with the letter of a resume or a start.
            ("count 4\ncount 4\n", 2, 23),
            ("count 4\nspan 4\n", 2, 23),
            ("span 4\nspan 4\n", 2, 23),
            // Only the first no is told.
            ("count 0\nx\n", 1, 21),
            ("count 4\nx\ns 01\n", 2, 22),
        ] {
            let name = format!("text: {}", text.escape_default());
            self.add(name, text, Some((line, question)));
        }
        for text in ["count 4\n", "span 4\n", "count 4\nq\n"] {
            self.add(format!("text: {}", text.escape_default()), text, None);
        }
    }

    fn lengths(&mut self) {
        // A good text of just so many bytes.
        let good = |bytes: usize| {
            let mut text = b"count 4\n".to_vec();
            if bytes % 2 == 1 {
                text.extend(b"l 65\n");
            }
            while text.len() < bytes {
                text.extend(b"q\n");
            }
            text
        };
        for bytes in [MOST_BYTES - 2, MOST_BYTES - 1, MOST_BYTES] {
            self.add(format!("{bytes} good bytes"), good(bytes), None);
        }
        let too_long = Some((0, 19));
        for bytes in [1, 2, 3, MOST_BYTES, 3 * MOST_BYTES, 32 * MOST_BYTES] {
            let bytes = MOST_BYTES + bytes;
            self.add(format!("{bytes} good bytes"), good(bytes), too_long);
        }
        for byte in [0u8, 10, b'0', b'q', 255] {
            let refusal = Some(if byte == 10 { (1, 21) } else { (1, 20) });
            let name = |bytes| format!("{bytes} times byte {byte}");
            self.add(name(MOST_BYTES), vec![byte; MOST_BYTES], refusal);
            self.add(name(MOST_BYTES + 1), vec![byte; MOST_BYTES + 1], too_long);
        }
        // The last line lacks its end, at the limit and beyond it.
        let mut text = good(MOST_BYTES);
        text.pop();
        let lines = text.iter().filter(|&&byte| byte == 10).count() + 1;
        self.add("all but the last byte", text.clone(), Some((lines, 20)));
        text.push(b'0');
        self.add("a digit for the last byte", text.clone(), Some((lines, 20)));
        text.push(b'0');
        self.add("a digit beyond the last byte", text, too_long);
        // One line takes all the bytes that are left.
        for (line, last, question) in [("p 0 0 ", b'9', 23), ("l ", b'0', 23), ("s ", b' ', 23)] {
            let mut text = format!("count 4\n{line}").into_bytes();
            text.resize(MOST_BYTES - 1, last);
            text.push(10);
            self.add(format!("a long line {line}{}..", last as char), text, Some((2, question)));
        }
        // More numbers than any call needs, and as many accesses as a line can say.
        let many = " 0".repeat((MOST_BYTES - 10) / 2);
        self.add("s with many numbers", format!("count 4\ns{many}\n"), Some((2, 24)));
        let accesses = " 0 1 1".repeat(5_000);
        let text = format!("count 4\nn 0 0 5000{accesses}\n");
        self.add("5000 accesses", text, Some((2, 25)));
    }

    fn headers(&mut self) {
        for (name, _) in ELEMENTS {
            for cells in ["1", "2", "255", "256"] {
                let text = format!("{name} {cells}\nl 0\nl {cells}\nl 65535\n");
                self.add(format!("header: {name} {cells}"), text, None);
            }
            for cells in [
                "0", "257", "1000", "65535", "65536", "00", "04", "0256", "+4", "-4", "", " 4",
                "4 ", "4 4", "4\t", "4\r", "4\0", "4q", "4.", "0x4", "18446744073709551615",
                "18446744073709551616", "18446744073709551617", "18446744073709551872",
            ] {
                let text = format!("{name} {cells}\nq\n");
                self.add(format!("header: {}", text.escape_default()), text, Some((1, 21)));
            }
        }
        for header in [
            "", " ", "count", "span", "count4", "span4", "count  4", "count\t4", "count,4",
            " count 4", "\tcount 4", "Count 4", "COUNT 4", "Span 4", "counts 4", "spans 4",
            "coun 4", "spa 4", "c 4", "s 4", "countspan 4", "count span 4", "4", "4 count",
            "flat 4", "q", "\u{feff}count 4", "count\u{a0}4",
        ] {
            let text = format!("{header}\nq\n");
            self.add(format!("header: {}", text.escape_default()), text, Some((1, 21)));
        }
    }

    /// Every byte in the place of the letter, alone and with a number.
    fn letters(&mut self, element: &str) {
        for byte in (0..=255u8).filter(|&byte| byte != 10) {
            let (alone, with_number) = match byte {
                b'q' => (None, Some(24)),
                b's' | b'f' | b'w' | b'c' | b'l' => (Some(24), None),
                b'n' | b'r' | b'g' | b'p' | b'u' => (Some(24), Some(24)),
                _ => (Some(22), Some(22)),
            };
            self.line(element, &[byte], alone);
            self.line(element, &[byte, b' ', b'0'], with_number);
        }
        for line in ["", " ", "  ", " q", "\tq", "0", "0 0", "S 0", "N 0 0 0", "\u{e9} 0"] {
            self.line(element, line.as_bytes(), Some(22));
        }
    }

    /// In each place of each call something that is no number, or that is set off badly.
    fn numbers(&mut self, element: &str, width: usize) {
        for (letter, places) in CALLS {
            let good = good_numbers(places, width);
            for place in 0..good.len() {
                for token in NO_NUMBERS {
                    let mut numbers = good.clone();
                    numbers[place] = token;
                    self.line(element, said(letter, &numbers).as_bytes(), Some(23));
                }
                for gap in ["", "\t", "  ", ",", " \t", "\u{a0}"] {
                    let before = said(letter, &good[..place]);
                    let after = good[place..].join(" ");
                    // Without a gap two numbers are one, which is then one too few.
                    let question = if gap.is_empty() && place > 0 { 24 } else { 23 };
                    self.line(element, format!("{before}{gap}{after}").as_bytes(), Some(question));
                }
            }
            for end in [" ", "  ", "\t", "\r", "\0", ";", " #", "q"] {
                let line = said(letter, &good) + end;
                self.line(element, line.as_bytes(), Some(23));
            }
        }
    }

    /// Too few and too many numbers for each call.
    fn counts(&mut self, element: &str, width: usize) {
        for (letter, places) in CALLS {
            let needed = if letter == "n" { 3 } else { good_numbers(places, width).len() };
            for count in 0..=needed + 3 {
                let question = if count == needed { None } else { Some(24) };
                self.line(element, said(letter, &vec!["0"; count]).as_bytes(), question);
                // The wrong count is told before a number that is too large.
                if count != needed && count > 0 {
                    let line = said(letter, &vec!["65536"; count]);
                    self.line(element, line.as_bytes(), Some(24));
                }
            }
        }
        for accesses in [0, 1, 2, 7, 8, 9, 254, 255] {
            let needed = 3 * accesses;
            for numbers in needed - needed.min(3)..=needed + 3 {
                let line = format!("n 0 0 {accesses}{}", " 1".repeat(numbers));
                let question = if numbers == needed { None } else { Some(24) };
                self.line(element, line.as_bytes(), question);
            }
        }
        // Just right for whoever counts modulo 2^64 or 2^32, or less.
        for line in [
            "n 0 0 18446744073709551615", "n 0 0 12297829382473034411 0",
            "n 0 0 6148914691236517206 0 1", "n 0 0 4294967296", "n 0 0 65536", "n 0 0 256",
            "n 0 0 65537 0 1 1", "n 0 0 257 0 1 1", "n 0 0 1431655766 0 1",
        ] {
            self.line(element, line.as_bytes(), Some(24));
        }
    }

    /// The largest number that fits in each place, and the next.
    fn sizes(&mut self, element: &str, width: usize) {
        for (letter, places) in CALLS {
            let good = good_numbers(places, width);
            for (place, _) in good.iter().enumerate() {
                // All numbers after the last place are of the value.
                let stands_for = places[place.min(places.len() - 1)];
                let (fit, too_large): (&[&str], &[&str]) = match stands_for {
                    Place::Name => (&["255", "256", "65534", "65535"], &["65536", "65537", "131072"]),
                    Place::Flag => (&["0", "1"], &["2", "255", "256", "65535", "65536"]),
                    Place::Code => (&["0", "8", "9", "254", "255"], &["256", "257", "65536"]),
                    Place::Value => (&["0", "65536", "4294967296", "18446744073709551615"], &[]),
                    // The count of numbers goes with it: below.
                    Place::Accesses => continue,
                };
                let mut say = |number: &'static str, question| {
                    let mut numbers = good.clone();
                    numbers[place] = number;
                    self.line(element, said(letter, &numbers).as_bytes(), question);
                };
                for number in fit {
                    say(number, None);
                }
                for number in too_large {
                    say(number, Some(25));
                }
                if stands_for != Place::Value {
                    say("4294967296", Some(25));
                    say("18446744073709551615", Some(25));
                    say("18446744073709551616", Some(23));
                }
            }
        }
        for (accesses, question) in [(255, None), (256, Some(25)), (257, Some(25)), (300, Some(25))] {
            for access in [" 0 1 1", " 65535 65535 255"] {
                let line = format!("n 0 0 {accesses}{}", access.repeat(accesses));
                self.line(element, line.as_bytes(), question);
            }
        }
        // Of 255 accesses only the last does not fit.
        for access in [" 65536 1 1", " 0 65536 1", " 0 1 256"] {
            let line = format!("n 0 0 255{}{access}", " 0 1 1".repeat(254));
            self.line(element, line.as_bytes(), Some(25));
        }
    }

    /// Bytes that no line has, at every kind of place.
    fn strange_bytes(&mut self) {
        for byte in [0u8, 1, 9, 11, 12, 13, 27, 127].into_iter().chain(128..=255) {
            let mut at = |before: &str, after: &str, refusal| {
                let text = [before.as_bytes(), &[byte], after.as_bytes()].concat();
                let name = format!("byte {byte} in {}", text.escape_ascii());
                self.add(name, text, Some(refusal));
            };
            at("", "count 4\nq\n", (1, 21));
            at("cou", "nt 4\nq\n", (1, 21));
            at("count", "4\nq\n", (1, 21));
            at("count ", "\nq\n", (1, 21));
            at("count 4", "\nq\n", (1, 21));
            at("count 4\n", "q\nq\n", (2, 22));
            at("count 4\nq", "\nq\n", (2, 23));
            at("count 4\ns", "0\nq\n", (2, 23));
            at("count 4\ns ", "0\nq\n", (2, 23));
            at("count 4\ns 1", "0\nq\n", (2, 23));
            at("count 4\ns 0", "\nq\n", (2, 23));
            at("count 4\ng 0", "0\nq\n", (2, 23));
            at("count 4\nq\n", "", (3, 20));
        }
    }
}

/// Small numbers that read well, in each place of a call.
fn good_numbers(places: &[Place], width: usize) -> Vec<&'static str> {
    let mut numbers = Vec::new();
    for place in places {
        match place {
            Place::Value => numbers.extend(vec!["3"; width]),
            _ => numbers.push("1"),
        }
    }
    numbers
}

fn said(letter: &str, numbers: &[&str]) -> String {
    let mut line = letter.to_string();
    for number in numbers {
        line.push(' ');
        line += number;
    }
    line
}

#[cfg(test)]
mod tests {
    use super::*;
    use crate::text::tasklist;

    #[test]
    fn each_text_is_refused_as_the_table_says() {
        for Boundary { name, text, refusal } in boundaries() {
            let printed = tasklist(&text);
            let last = printed.lines().last().unwrap_or("");
            match refusal {
                Some((line, question)) => {
                    assert_eq!(last, format!("line {line} no {question}"), "{name}")
                }
                None => assert!(!last.starts_with("line"), "{name}: {last}"),
            }
        }
    }
}
