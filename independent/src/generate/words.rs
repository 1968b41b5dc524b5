//! Words for the walking program's standard input, sound and damaged.

use super::Rng;
use crate::LONGEST_WORDS;

/// Any input for a solid of so many vertices.
pub fn any(rng: &mut Rng, vertices: usize) -> Vec<u8> {
    let mut words: Vec<String> = vec![rng.below(vertices.max(1)).to_string()];
    for _ in 0..3 {
        words.push(rng.between(-9, 9).to_string());
    }
    if rng.one_in(4) {
        for word in &mut words[1..] {
            *word = rng.between(-32767, 32767).to_string();
        }
    }
    for _ in 0..rng.pick(&[0, 0, 0, 1, 1, 2]) {
        strike(rng, &mut words, vertices);
    }
    let mut input = Vec::new();
    if rng.one_in(5) {
        input.extend(blanks(rng, 3));
    }
    for (i, word) in words.iter().enumerate() {
        if i > 0 {
            input.extend(blanks(rng, 2));
        }
        input.extend(word.as_bytes());
    }
    match rng.below(12) {
        0 => input.extend(blanks(rng, 3)),
        1..=4 => input.push(b'\n'),
        5 => {
            let length = rng.pick(&[LONGEST_WORDS - 1, LONGEST_WORDS, LONGEST_WORDS + 1, 300]);
            input.resize(length, b' ');
        }
        6 => {
            // Leading blanks push the bound of what is split into the words, or just past them.
            let kept = rng.below(input.len() + 2).min(LONGEST_WORDS);
            input.splice(0..0, vec![b' '; LONGEST_WORDS - kept]);
        }
        7 if !input.is_empty() => {
            let i = rng.below(input.len());
            input[i] = rng.pick(b"\t\r+-.x\x00\xff 7");
        }
        8 => {
            // What parts words elsewhere is a part of the word here.
            let blank = |byte: &u8| *byte == b' ' || *byte == b'\n';
            let other = rng.pick(b"\t\t\r\x0b\x0c\x00,\xa0");
            if let Some(i) = input.iter().rposition(blank) {
                input[i] = other;
            }
        }
        _ => {}
    }
    input
}

fn blanks(rng: &mut Rng, most: usize) -> Vec<u8> {
    (0..1 + rng.below(most))
        .map(|_| rng.pick(b"  \n"))
        .collect()
}

fn strike(rng: &mut Rng, words: &mut Vec<String>, vertices: usize) {
    if words.is_empty() {
        words.push("0".into());
    }
    let i = rng.below(words.len());
    match rng.below(12) {
        0 => words[0] = vertices.to_string(),
        1 => words[0] = vertices.saturating_sub(1).to_string(),
        2 => {
            words[0] = rng
                .pick(&["-1", "-0", "00", "99999", "4294967296", "65536"])
                .into()
        }
        3 => {
            words.remove(i);
        }
        4 => words.truncate(i),
        5 => words.push(rng.pick(&["5", "0", "x", "-"]).into()),
        6 => {
            words[i] = rng
                .pick(&["+5", "-", "1.0", "--1", "1e3", "0x1", "one", "1-", "5,"])
                .into()
        }
        7 => {
            words[i] = rng
                .pick(&["32767", "-32767", "32768", "-32768", "007", "-0"])
                .into()
        }
        8 => words[i] = "9".repeat(rng.pick(&[10, 19, 20, 40, 250, 260])),
        9 => {
            words[i] = format!(
                "{}{}",
                "0".repeat(rng.pick(&[5, 100, 245, 255])),
                rng.below(4)
            )
        }
        10 => {
            // Good numbers if what is above 16, 32 or 64 bits were dropped.
            let sign = rng.pick(&["", "-"]);
            let bits = rng.pick(&[16, 32, 64]);
            let value = (1_u128 << bits) + rng.below(4) as u128;
            words[i] = format!("{sign}{value}");
        }
        _ => words[i] = format!("-{}", "18446744073709551617".repeat(1 + rng.below(2))),
    }
}
