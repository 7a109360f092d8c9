//! `outside prep`: the program `prep` is run on texts, and its standard output is compared with what the model prints.

use super::shown;
use crate::cases::formulas::{self, MIDDLE, SMALL, WIDE};
use crate::cases::interlock::interlock;
use crate::cases::long_run::long_run;
use crate::cases::{room, text_edges, texts};
use crate::model::face::program;
use crate::model::writing::write;
use crate::rng::Rng;
use crate::tally::Tally;
use std::collections::BTreeMap;
use std::io::Write;
use std::process::{Command, Stdio};

pub fn prep(seed: u64, command: &[String]) -> i32 {
    let mut tally = Tally::default();
    let mut words: BTreeMap<String, u64> = BTreeMap::new();
    println!("seed {seed}");
    for (number, text) in all_texts(seed).into_iter().enumerate() {
        let wanted = program(&text);
        *words.entry(first_words(&wanted)).or_default() += 1;
        match printed(command, &text) {
            Ok(got) => tally.check(got == wanted, || {
                let (text, got, wanted) = (shown::bytes(&text), shown::bytes(&got), shown::bytes(&wanted));
                format!("seed {seed}, text {number}:\n  {text}\n it prints\n  {got}\n and the model\n  {wanted}")
            }),
            Err(e) => tally.check(false, || format!("seed {seed}, text {number}: {e}\n  {}", shown::bytes(&text))),
        }
    }
    let counts: Vec<String> = words.iter().map(|(word, n)| format!("{word}: {n}")).collect();
    println!("covered: {}", counts.join(", "));
    for word in
        ["c TRUE", "c FALSE", "c FINISHED", "c OUT OF ROOM", "c STOPPED", "r 1", "r 3", "r 4", "r 5", "r 6", "r 7", "r 8", "r 9"]
    {
        tally.check(words.contains_key(word), || format!("no text gave {word}"));
    }
    tally.finish()
}

/// `c` with the outcome, or `r` with its number.
fn first_words(printed: &[u8]) -> String {
    let line = String::from_utf8_lossy(printed).lines().next().unwrap_or_default().to_string();
    line.rsplit_once(' ').map_or(String::new(), |(front, _)| front.to_string())
}

fn all_texts(seed: u64) -> Vec<Vec<u8>> {
    let mut list: Vec<Vec<u8>> = text_edges::SHORT_TEXTS.iter().map(|t| t.as_bytes().to_vec()).collect();
    list.extend(text_edges::long_texts().into_iter().map(|(_, text)| text));
    let stream = |number: usize| Rng::of_case(seed, "prep", number);
    for number in 0..260 {
        let rng = &mut stream(number);
        list.push(match number % 8 {
            0 => texts::damaged(rng, SMALL),
            1 => {
                let variables = rng.from(4, 30);
                write(&formulas::hard(rng, variables))
            }
            2 => {
                let tokens = texts::tokens(rng, MIDDLE);
                texts::spell(rng, &tokens)
            }
            3 => write(&formulas::random(rng, SMALL)),
            4 => write(&formulas::random(rng, MIDDLE)),
            5 => write(&formulas::random(rng, WIDE)),
            _ => {
                let (readings, drives, gates, rules) = (rng.from(1, 8), rng.from(1, 8), rng.from(0, 20), rng.from(1, 20));
                write(&interlock(rng, readings, drives, gates, rules))
            }
        });
    }
    list.push(write(&long_run()));
    list.push(write(&room::resolve_out_of_clauses(&mut stream(1000), 2047)));
    list.push(write(&room::resolve_out_of_literals(&mut stream(1001), 8191)));
    list
}

/// What the program writes on standard output, given the text on standard input. Its exit status is not looked at: the
/// document names none.
fn printed(command: &[String], text: &[u8]) -> Result<Vec<u8>, String> {
    let mut child = Command::new(&command[0])
        .args(&command[1..])
        .stdin(Stdio::piped())
        .stdout(Stdio::piped())
        .spawn()
        .map_err(|e| format!("{} can't be started: {e}", command[0]))?;
    let mut input = child.stdin.take().expect("piped");
    let text = text.to_vec();
    let writer = std::thread::spawn(move || {
        // A program may end before it has read all: a text too long is refused.
        let _ = input.write_all(&text);
    });
    let output = child.wait_with_output().map_err(|e| e.to_string())?;
    let _ = writer.join();
    Ok(output.stdout)
}
