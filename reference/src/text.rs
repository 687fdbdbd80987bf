//! Call lists and the lines of answers (docs/RULES.md, "Call lists" and "tasklist").

use crate::engine::{Answer, Engine};
use crate::stores::{pile, Count, Element, Span};
use crate::tasks::{Access, Call, MOST_TASKS};

pub const MOST_BYTES: usize = 32_768;

/// The largest task, cell, lo or hi; the largest number of accesses or code.
const MOST_PLACE: u64 = 65_535;
const MOST_CODE: u64 = 255;

/// Which element the header names.
#[derive(Clone, Copy, PartialEq, Eq, Debug)]
pub enum Name {
    Count,
    Span,
}

/// Runs a call list and answers all that is to be printed.
pub fn tasklist(text: &[u8]) -> String {
    if text.len() > MOST_BYTES {
        return refused_line(0, 19);
    }
    let Some((first, rest)) = split_line(text) else {
        return refused_line(1, 20);
    };
    match read_header(first) {
        None => refused_line(1, 21),
        Some((Name::Count, cells)) => run::<Count>(cells, rest),
        Some((Name::Span, cells)) => run::<Span>(cells, rest),
    }
}

/// Reads and runs the lines after the header, each in turn.
fn run<V: Element>(cells: usize, mut rest: &[u8]) -> String {
    let mut engine = Engine::new::<V>(pile::<V>(cells));
    let mut out = String::new();
    let mut number = 1;
    while !rest.is_empty() {
        number += 1;
        let Some((line, after)) = split_line(rest) else {
            return out + &refused_line(number, 20);
        };
        match read_call::<V>(line) {
            Ok(call) => out += &answer_line(&engine.perform(&call)),
            Err(question) => return out + &refused_line(number, question),
        }
        rest = after;
    }
    out
}

/// The first line without its byte 10, and what follows; none if there is no byte 10.
fn split_line(text: &[u8]) -> Option<(&[u8], &[u8])> {
    let end = text.iter().position(|&byte| byte == 10)?;
    Some((&text[..end], &text[end + 1..]))
}

/// A number in decimal, without sign or leading zeros, below 2^64.
fn read_number(digits: &[u8]) -> Option<u64> {
    if digits.is_empty() || (digits[0] == b'0' && digits.len() > 1) {
        return None;
    }
    digits.iter().try_fold(0u64, |number, &digit| {
        if !digit.is_ascii_digit() {
            return None;
        }
        number.checked_mul(10)?.checked_add(u64::from(digit - b'0'))
    })
}

/// The header: an element's name, one space, and a number of cells from 1 to 256.
pub fn read_header(line: &[u8]) -> Option<(Name, usize)> {
    let (name, digits) = if let Some(digits) = line.strip_prefix(b"count ") {
        (Name::Count, digits)
    } else {
        (Name::Span, line.strip_prefix(b"span ")?)
    };
    match read_number(digits)? {
        cells @ 1..=256 => Some((name, cells as usize)),
        _ => None,
    }
}

/// All that follows the letter: numbers, each after its one space.
fn read_numbers(mut rest: &[u8]) -> Option<Vec<u64>> {
    let mut numbers = Vec::new();
    while !rest.is_empty() {
        rest = rest.strip_prefix(b" ")?;
        let end = rest.iter().position(|&byte| byte == b' ').unwrap_or(rest.len());
        numbers.push(read_number(&rest[..end])?);
        rest = &rest[end..];
    }
    Some(numbers)
}

/// Reads a call from its line, or answers the number of the reader's first no.
pub fn read_call<V: Element>(line: &[u8]) -> Result<Call<V>, u8> {
    let (letter, rest) = match line.split_first() {
        Some((letter, rest)) if b"nsfwcrgpulq".contains(letter) => (*letter, rest),
        _ => return Err(22),
    };
    let numbers = read_numbers(rest).ok_or(23)?;
    if !right_count::<V>(letter, &numbers) {
        return Err(24);
    }
    if !all_fit(letter, &numbers) {
        return Err(25);
    }
    let at = |place: usize| numbers[place] as usize;
    let value = |from: usize| V::from_numbers(&numbers[from..]).ok_or(24);
    Ok(match letter {
        b'n' => Call::Create {
            parent: at(0),
            wait: numbers[1] == 1,
            accesses: numbers[3..]
                .chunks(3)
                .map(|a| Access { lo: a[0] as usize, hi: a[1] as usize, code: a[2] })
                .collect(),
        },
        b's' => Call::Start { task: at(0) },
        b'f' => Call::Finish { task: at(0) },
        b'w' => Call::Wait { task: at(0) },
        b'c' => Call::Resume { task: at(0) },
        b'r' => Call::Release { task: at(0), lo: at(1), hi: at(2) },
        b'g' => Call::Read { task: at(0), cell: at(1) },
        b'p' => Call::Write { task: at(0), cell: at(1), value: value(2)? },
        b'u' => Call::Update { task: at(0), cell: at(1), amount: value(2)? },
        b'l' => Call::Look { cell: at(0) },
        _ => Call::Ready { places: MOST_TASKS },
    })
}

/// Question 24. The numbers are counted without bound, since an access count may be huge.
fn right_count<V: Element>(letter: u8, numbers: &[u64]) -> bool {
    let needed: u128 = match letter {
        b'n' => match numbers.get(2) {
            Some(&accesses) => 3 + 3 * u128::from(accesses),
            None => return false,
        },
        b's' | b'f' | b'w' | b'c' | b'l' => 1,
        b'r' => 3,
        b'g' => 2,
        b'p' | b'u' => 2 + V::WIDTH as u128,
        _ => 0,
    };
    numbers.len() as u128 == needed
}

/// Question 25. The numbers of a value always fit.
fn all_fit(letter: u8, numbers: &[u64]) -> bool {
    let places = |some: &[u64]| some.iter().all(|&number| number <= MOST_PLACE);
    match letter {
        b'n' => {
            places(&numbers[..1])
                && numbers[1] <= 1
                && numbers[2] <= MOST_CODE
                && numbers[3..].chunks(3).all(|a| places(&a[..2]) && a[2] <= MOST_CODE)
        }
        b'p' | b'u' => places(&numbers[..2]),
        _ => places(numbers),
    }
}

fn joined<N: ToString>(word: &str, numbers: impl IntoIterator<Item = N>) -> String {
    let mut line = word.to_string();
    for number in numbers {
        line.push(' ');
        line += &number.to_string();
    }
    line.push('\n');
    line
}

fn answer_line<V: Element>(answer: &Answer<V>) -> String {
    match answer {
        Answer::Done => "ok\n".to_string(),
        Answer::Task(number) => joined("task", [number]),
        Answer::Value(value) => joined("value", value.numbers()),
        Answer::Ready(tasks) => joined("ready", tasks),
        Answer::Refused(question) => joined("no", [question]),
        Answer::Fault(fault) => {
            joined("no", [17, fault.cause as usize, usize::from(fault.depth), fault.cell])
        }
    }
}

fn refused_line(line: usize, question: u8) -> String {
    format!("line {line} no {question}\n")
}

#[cfg(test)]
mod tests {
    use super::*;

    fn check(text: &str, wanted: &str) {
        assert_eq!(tasklist(text.as_bytes()), wanted, "{text:?}");
    }

    #[test]
    fn the_given_run() {
        check(
            "count 4\nn 0 0 1 0 2 3\nn 0 0 1 1 3 1\ns 2\ns 1\np 1 1 7\ng 2 1\nr 1 1 2\ns 2\n\
             g 2 1\np 0 1 5\nq\n",
            "task 1\ntask 2\nno 9\nok\nok\nno 2\nok\nok\nvalue 7\nno 16\nready\n",
        );
    }

    #[test]
    fn spans() {
        check(
            "span 2\ng 0 0\nu 0 0 5 6\nu 0 0 7 9\nl 0\np 0 0 9 1\nl 0\np 0 0 1\n",
            "value 18446744073709551615 0\nok\nok\nvalue 5 9\nok\nvalue 9 1\nline 8 no 24\n",
        );
    }

    #[test]
    fn store_faults_are_printed_whole() {
        let mut text = "count 4\n".to_string();
        for n in 0..65 {
            text += &format!("p 0 {} 1\n", 2 + n % 2);
        }
        let printed = tasklist((text.clone() + "p 0 0 1\np 0 2 1\n").as_bytes());
        assert!(printed.ends_with("ok\nno 17 1 2 2\nok\n"));
        text += &"p 0 2 1\n".repeat(1_000 - 65);
        let printed = tasklist((text + "p 0 3 1\np 0 2 1\n").as_bytes());
        assert!(printed.ends_with("ok\nno 17 2 0 3\nno 17 2 0 2\n"));
    }

    #[test]
    fn question_19_at_most_32768_bytes() {
        let mut text = b"count 4\n".to_vec();
        text.extend(b"q\n".repeat((MOST_BYTES - 8) / 2));
        assert_eq!(text.len(), MOST_BYTES);
        assert_eq!(tasklist(&text), "ready\n".repeat((MOST_BYTES - 8) / 2));
        text.push(10);
        assert_eq!(tasklist(&text), "line 0 no 19\n");
        assert_eq!(tasklist(&[255; MOST_BYTES + 1]), "line 0 no 19\n");
        assert_eq!(tasklist(&[255; MOST_BYTES]), "line 1 no 20\n");
    }

    #[test]
    fn question_20_does_each_line_end() {
        check("", "line 1 no 20\n");
        check("count 4", "line 1 no 20\n");
        check("x", "line 1 no 20\n");
        check("count 4\n", "");
        check("count 4\nq", "line 2 no 20\n");
        check("count 4\nq\nx", "ready\nline 3 no 20\n");
    }

    #[test]
    fn question_21_is_it_a_header() {
        for header in ["count 1", "count 256", "span 1", "span 256"] {
            check(&format!("{header}\n"), "");
        }
        for header in [
            "", "count", "count ", "count 0", "count 257", "count 01", "count +1", "count 1 ",
            "count  1", "count 1 1", " count 1", "count\t1", "count 1\r", "Count 1", "counts 1",
            "span", "span 0", "span 257", "spancount 1", "q", "count 18446744073709551617",
        ] {
            check(&format!("{header}\nq\n"), "line 1 no 21\n");
        }
    }

    fn check_line(name: &str, line: &[u8], question: u8) {
        let mut text = format!("{name} 4\nq\n").into_bytes();
        text.extend(line);
        text.extend(b"\nq\n");
        let wanted = format!("ready\nline 3 no {question}\n");
        assert_eq!(tasklist(&text), wanted, "{:?}", String::from_utf8_lossy(line));
    }

    #[test]
    fn question_22_is_the_letter_in_the_table() {
        let lines: [&[u8]; 9] =
            [b"", b" ", b"x", b"Q", b"\r", b"0", b" q", b"\xff", "é 0".as_bytes()];
        for line in lines {
            check_line("count", line, 22);
        }
        for letter in 0..=255u8 {
            let wanted = if b"nsfwcrgpulq".contains(&letter) { 23 } else { 22 };
            // A byte 10 would end the line.
            if letter != 10 {
                check_line("span", &[letter, b'!'], wanted);
            }
        }
    }

    #[test]
    fn question_23_are_there_numbers() {
        let lines: [&[u8]; 17] = [
            b"s ", b"s 1 ", b"s  1", b"s\t1", b"s 1\r", b"s 01", b"s 00", b"s +1", b"s -1",
            b"s1", b"ss", b"q ", b"s 18446744073709551616", b"s 1.0", b"s \xb2", b"s 1\0",
            b"p 0 0 99999999999999999999999999999999999999999999999",
        ];
        for line in lines {
            check_line("count", line, 23);
        }
    }

    #[test]
    fn question_24_are_there_as_many_as_needed() {
        for line in [
            "s", "s 1 1", "f", "w 0 0", "c", "r 0 0", "r 0 0 0 0", "g 0", "g 0 0 0", "p 0 0",
            "p 0 0 0 0", "u 0 0", "l", "l 0 0", "q 0", "n", "n 0", "n 0 0", "n 0 0 1",
            "n 0 0 1 0 1", "n 0 0 0 0", "n 0 0 1 0 1 1 1", "n 0 0 18446744073709551615",
            "n 0 0 12297829382473034411 0", "n 0 0 6148914691236517206 0 1",
            "s 65536 18446744073709551615",
        ] {
            check_line("count", line.as_bytes(), 24);
        }
        for line in ["p 0 0 0", "p 0 0 0 0 0", "u 0 0 0"] {
            check_line("span", line.as_bytes(), 24);
        }
    }

    #[test]
    fn question_25_do_all_fit() {
        for line in [
            "s 65536", "f 65536", "w 65536", "c 18446744073709551615", "r 65536 0 1",
            "r 0 65536 1", "r 0 0 65536", "g 65536 0", "g 0 65536", "p 65536 0 0",
            "p 0 65536 0", "u 65536 0 0", "u 0 65536 0", "l 65536", "n 65536 0 0", "n 0 2 0",
            "n 0 0 1 65536 1 1", "n 0 0 1 0 65536 1", "n 0 0 1 0 1 256",
        ] {
            check_line("count", line.as_bytes(), 25);
        }
        check_line("count", format!("n 0 0 256{}", " 0 1 1".repeat(256)).as_bytes(), 25);
        // The largest that fit.
        let text = format!(
            "count 4\nn 0 0 255{}\nn 65535 1 1 65535 65535 255\nn 0 0 1 0 1 0\nn 0 0 1 0 1 9\n\
             s 65535\nl 65535\nr 0 65535 65535\np 0 0 18446744073709551615\nl 0\n",
            " 65535 65535 255".repeat(255)
        );
        check(&text, "no 4\nno 1\nno 6\nno 6\nno 1\nno 14\nno 5\nok\nvalue 18446744073709551615\n");
    }
}
