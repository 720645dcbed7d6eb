//! Prints what the program `test_line` must print for the cases on standard input: what the entries on lines answer (RULES 6.3).

use std::io::{Read, Write};

use reference::line::{numbers_into, parse_into, read_into, write_into};
use reference::Message;

/// What slices hold before a call.
const WORD: u32 = 77;
const BYTE: u8 = b'.';

/// The words that there is room for: the numbers of a line, and the residues of a message.
const NUMBERS: usize = 9;
const RESIDUES: usize = 4;

fn main() -> std::io::Result<()> {
    let mut input = Vec::new();
    std::io::stdin().read_to_end(&mut input)?;
    let mut cases: Vec<_> = input.split(|b| *b == b';').collect();
    // behind the last `;` stands no case, unless there are bytes
    if cases.last().is_some_and(|case| case.is_empty()) {
        cases.pop();
    }
    let lines = cases.iter().enumerate().map(|(i, case)| [(i + 1).to_string().as_bytes(), &shown(case), b"\n"].concat());
    std::io::stdout().write_all(&lines.collect::<Vec<_>>().concat())
}

fn shown(case: &[u8]) -> Vec<u8> {
    let numbers = match numbers_into(NUMBERS, case) {
        Ok(words) => format!(",0,{}{}", words.len(), slice(NUMBERS, &words)),
        Err(number) => format!(",{number}{}", slice(NUMBERS, &[])),
    };
    let parsed = parse_into(RESIDUES, case);
    let answers = format!(" numbers{numbers} read{} parse{}", received(&read_into(RESIDUES, case)), received(&parsed));
    [answers.into_bytes(), parsed.map_or(Vec::new(), |message| writes(message, case.len()))].concat()
}

fn received(answer: &Result<Message, u32>) -> String {
    match answer {
        Ok(a) => {
            let t = a.terms;
            let head = slice(7, &[a.kind, t.session, t.tape, t.q, t.m, t.k, t.p]);
            format!(",0{head},{}{}", a.residues.len(), slice(RESIDUES, &a.residues))
        }
        Err(number) => format!(",{number}{}", slice(RESIDUES, &[])),
    }
}

/// The message is written into a slice that is a byte too short, then as one of kind 0, then into a slice as long as its line.
fn writes(message: Message, length: usize) -> Vec<u8> {
    let none = Message { kind: 0, ..message.clone() };
    [written(&message, length - 1), written(&none, length), written(&message, length)].concat()
}

/// The number of the answer, the length, and the slice.
fn written(message: &Message, room: usize) -> Vec<u8> {
    let mut slice = vec![BYTE; room];
    let answer = match write_into(room, message) {
        Ok(line) => {
            slice[..line.len()].copy_from_slice(line.as_bytes());
            format!(" write,0,{}[", line.len())
        }
        Err(number) => format!(" write,{number}["),
    };
    [answer.as_bytes(), &slice, b"]"].concat()
}

/// The words of a slice with these at its start.
fn slice(room: usize, words: &[u32]) -> String {
    let mut all = vec![WORD; room];
    all[..words.len()].copy_from_slice(words);
    all.iter().map(|word| format!(",{word}")).collect()
}
