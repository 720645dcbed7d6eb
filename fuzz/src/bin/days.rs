//! Sessions kept for days: every call is made by a process of its own, which reads from files what the calls before it left, and writes
//! files.
//!
//! `days` makes the files of each run below, starts itself once for each call (`days call RUN NUMBER FOLDER`) and looks at what is left:
//! the shares add to the product, z solves the system, the determinant is that of the sum, dropped and singular sessions are closed and their
//! tapes spent, and all files are what one process alone leaves.

use std::fs;
use std::path::{Path, PathBuf};
use std::process::{Command, ExitCode};

use fuzz::engine::Engine;
use reference::entries::{Deal, Dropping, Entries, First, Next, Reply, Slot};
use reference::machine::seeded;
use reference::matrix::Matrix;
use reference::record::{put_words, words_of};
use reference::Terms;

const LEFT: u32 = 1;
const RIGHT: u32 = 2;
const BLINDER: u32 = 3;
const SOLVER: u32 = 4;

/// The slots of a pool, and the one that is used.
const SLOTS: usize = 3;
const SLOT: usize = 1;

#[derive(Clone, Copy)]
enum Call {
    Deal,
    /// A first step, and after it the step that is due, by the end's number.
    First(u32),
    Next(u32),
    Drop(u32),
}

/// What is played, and with what.
struct Run {
    name: &'static str,
    terms: Terms,
    is_system: bool,
    calls: &'static [Call],
    /// The number that the last call answers; all others are done.
    last: u32,
    /// The inputs' seeds: of left or the blinder, of right or the solver. Of a singular sum one is the other, negated.
    seeds: [u32; 2],
    is_singular: bool,
}

use Call::{Drop, First as Begin, Next as Go};

const RUNS: [Run; 8] = [
    Run {
        name: "product",
        terms: Terms { session: 7, tape: 11, q: 1_000_000, m: 3, k: 5, p: 2 },
        is_system: false,
        calls: &[Call::Deal, Begin(RIGHT), Begin(LEFT), Go(RIGHT)],
        last: 0,
        seeds: [3, 4],
        is_singular: false,
    },
    Run {
        name: "product-dropped",
        terms: Terms { session: 7, tape: 12, q: 2, m: 1, k: 2048, p: 1 },
        is_system: false,
        calls: &[Call::Deal, Begin(RIGHT), Drop(RIGHT)],
        last: 0,
        seeds: [5, 6],
        is_singular: false,
    },
    Run {
        name: "system",
        terms: Terms { session: 8, tape: 13, q: 2_147_483_647, m: 5, k: 5, p: 6 },
        is_system: true,
        calls: &[Call::Deal, Begin(SOLVER), Begin(BLINDER), Go(SOLVER), Go(BLINDER), Go(SOLVER), Go(BLINDER)],
        last: 0,
        seeds: [7, 8],
        is_singular: false,
    },
    Run {
        name: "system-dropped",
        terms: Terms { session: 8, tape: 14, q: 2_147_483_647, m: 16, k: 16, p: 17 },
        is_system: true,
        calls: &[Call::Deal, Begin(SOLVER), Begin(BLINDER), Go(SOLVER), Drop(SOLVER), Go(BLINDER), Drop(BLINDER)],
        last: 0,
        seeds: [9, 10],
        is_singular: false,
    },
    Run {
        name: "system-singular",
        terms: Terms { session: 8, tape: 15, q: 65_537, m: 4, k: 4, p: 5 },
        is_system: true,
        calls: &[Call::Deal, Begin(SOLVER), Begin(BLINDER), Go(SOLVER), Go(BLINDER), Go(SOLVER)],
        last: 10,
        seeds: [11, 11],
        is_singular: true,
    },
    Run {
        name: "determinant",
        terms: Terms { session: 9, tape: 16, q: 2_147_483_647, m: 16, k: 16, p: 16 },
        is_system: true,
        calls: &[Call::Deal, Begin(SOLVER), Begin(BLINDER), Go(SOLVER), Go(BLINDER), Go(SOLVER), Go(BLINDER)],
        last: 0,
        seeds: [12, 13],
        is_singular: false,
    },
    Run {
        name: "determinant-dropped",
        terms: Terms { session: 9, tape: 17, q: 65_537, m: 3, k: 3, p: 3 },
        is_system: true,
        calls: &[Call::Deal, Begin(SOLVER), Begin(BLINDER), Go(SOLVER), Go(BLINDER), Drop(SOLVER), Drop(BLINDER)],
        last: 0,
        seeds: [14, 15],
        is_singular: false,
    },
    Run {
        name: "determinant-zero",
        terms: Terms { session: 9, tape: 18, q: 65_537, m: 4, k: 4, p: 4 },
        is_system: true,
        calls: &[Call::Deal, Begin(SOLVER), Begin(BLINDER), Go(SOLVER), Go(BLINDER), Go(SOLVER), Go(BLINDER)],
        last: 0,
        seeds: [11, 11],
        is_singular: true,
    },
];

fn bytes(words: &[u32]) -> Vec<u8> {
    words.iter().flat_map(|w| w.to_le_bytes()).collect()
}

/// Raw words for so many residues, with some that are skipped.
fn raw(seed: u32, residues: usize) -> Vec<u8> {
    bytes(&seeded(seed, 0, 2 * residues + 20))
}

/// All that a party keeps, and the last line that it has sent.
#[derive(Clone, PartialEq, Eq)]
struct Party {
    files: [Vec<u8>; 5],
}

const NAMES: [&str; 5] = ["record", "pool", "scratch", "result", "line"];

impl Party {
    /// A party that has no session yet, and of whose pool's words one is 0.
    fn new(run: &Run, end: u32) -> Party {
        let t = &run.terms;
        let mut pool = bytes(&seeded(77, 0, SLOTS * run.slot_size()));
        put_words(&[0], &mut pool[4 * SLOT * run.slot_size()..]);
        let scratch = vec![85; 4 * Engine::scratch_words(end, t.m, t.k, t.p)];
        let result = vec![170; 4 * t.rows() * t.columns()];
        Party { files: [vec![0; 4 * Engine::record_words()], pool, scratch, result, Vec::new()] }
    }

    fn path(folder: &Path, number: usize, name: &str) -> PathBuf {
        folder.join(format!("{number}-{name}"))
    }

    fn read(folder: &Path, number: usize) -> Party {
        Party { files: NAMES.map(|name| fs::read(Self::path(folder, number, name)).expect("a file is read")) }
    }

    fn write(&self, folder: &Path, number: usize) {
        for (name, file) in NAMES.iter().zip(&self.files) {
            fs::write(Self::path(folder, number, name), file).expect("a file is written");
        }
    }

    fn record(&self) -> Vec<u32> {
        words_of(&self.files[0])
    }

    fn result(&self, count: usize) -> Vec<u32> {
        words_of(&self.files[3])[..count].to_vec()
    }

    /// The words of the slot that is used.
    fn tape(&self, run: &Run) -> Vec<u32> {
        words_of(&self.files[1])[SLOT * run.slot_size()..][..run.slot_size()].to_vec()
    }
}

impl Call {
    fn name(self) -> String {
        let end = |number: u32| ["left", "right", "blinder", "solver"][number as usize - 1];
        match self {
            Call::Deal => "deal".to_string(),
            Begin(number) => format!("first {}", end(number)),
            Go(number) => format!("next {}", end(number)),
            Drop(number) => format!("drop {}", end(number)),
        }
    }
}

impl Run {
    /// The ends of the first and the second party.
    fn ends(&self) -> [u32; 2] {
        if self.is_system {
            [BLINDER, SOLVER]
        } else {
            [LEFT, RIGHT]
        }
    }

    fn slot_size(&self) -> usize {
        let t = &self.terms;
        self.ends().map(|end| Engine::tape_words(end, t.m, t.k, t.p)).into_iter().max().unwrap_or(0) + 2
    }

    /// An input: X or Y, or a matrix and, in a system, a vector.
    fn input(&self, end: u32) -> Vec<u32> {
        let t = &self.terms;
        let seed = self.seeds[usize::from(end == RIGHT || end == SOLVER)];
        let count = match end {
            LEFT => t.rows() * t.inner(),
            RIGHT => t.inner() * t.columns(),
            _ => t.rows() * t.columns(),
        };
        let mut words = seeded(seed, t.q, count);
        if self.is_singular && end == BLINDER {
            words.iter_mut().for_each(|w| *w = (t.q - *w) % t.q);
        }
        words
    }

    fn start(&self) -> [Party; 2] {
        self.ends().map(|end| Party::new(self, end))
    }

    fn perform(&self, call: Call, parties: &mut [Party; 2]) -> Reply {
        let [one, two] = parties;
        match call {
            Call::Deal => self.deal(one, two),
            Begin(end) | Go(end) | Drop(end) => {
                let (own, other) = if end == self.ends()[0] { (one, two) } else { (two, one) };
                self.step(call, end, own, &other.files[4])
            }
        }
    }

    fn deal(&self, one: &mut Party, two: &mut Party) -> Reply {
        let (t, sort) = (self.terms, u32::from(self.is_system));
        let words = raw(21, Engine::deal_count(sort, t.m, t.k, t.p));
        let slot = Slot { pool: &mut one.files[1], size: self.slot_size(), index: SLOT };
        Engine::deal(Deal { sort, slot, second: &mut two.files[1], terms: t, words: &words })
    }

    fn step(&self, call: Call, end: u32, own: &mut Party, message: &[u8]) -> Reply {
        let t = self.terms;
        let [record, pool, scratch, result, sent] = &mut own.files;
        let kinds = 1..=if self.is_system { 6 } else { 2 };
        let mut line = vec![0; kinds.map(|kind| Engine::line_bytes(kind, t.q, t.m, t.k, t.p)).max().unwrap_or(0)];
        let slot = Slot { pool, size: self.slot_size(), index: SLOT };
        let reply = match call {
            Begin(_) => {
                let (input, words) = (bytes(&self.input(end)), raw(22, Engine::coin_count(end, t.m, t.k, t.p)));
                let (input, words, line) = (&input[..], &words[..], &mut line[..]);
                Engine::first(First { record, end, slot, terms: t, input, words, scratch, message, line, result })
            }
            Go(_) => Engine::next(Next { record, slot, scratch, message, line: &mut line, result }),
            _ => Engine::drop(Dropping { record, slot, scratch }),
        };
        if reply.bytes != 0 {
            *sent = line[..reply.bytes].to_vec();
        }
        reply
    }

    /// Whether every call was answered as it should be.
    fn is_right(&self, number: usize, reply: &Reply) -> bool {
        reply.number == if number + 1 == self.calls.len() { self.last } else { 0 }
    }

    /// What is wrong with what is left, if anything is.
    fn fault(&self, parties: &[Party; 2]) -> Option<&'static str> {
        let t = &self.terms;
        for (end, party) in self.ends().into_iter().zip(parties) {
            // a blinder whose solver found a singular sum, and a left end that was never called, are still as they were
            let waits = (self.last == 10 && end == BLINDER) || (end == LEFT && self.name == "product-dropped");
            if waits {
                continue;
            }
            let body = Engine::tape_words(end, t.m, t.k, t.p);
            if party.record()[7..].iter().any(|w| *w != 0) || party.record()[0] != end {
                return Some("a record is not closed");
            }
            if party.files[2].iter().any(|b| *b != 0) {
                return Some("a scratch is not zeros");
            }
            if party.tape(self)[0] != 3 || party.tape(self)[7..body].iter().any(|w| *w != 0) {
                return Some("a tape is not spent");
            }
        }
        let is_whole = self.last == 0 && !self.name.ends_with("dropped");
        (is_whole && !self.is_solved(parties)).then_some("the answer is wrong")
    }

    fn is_solved(&self, parties: &[Party; 2]) -> bool {
        let (t, n) = (&self.terms, self.terms.rows());
        let matrix = |height, width, words: &[u32]| Matrix::new(t.q, height, width, words);
        let [one, two] = self.ends().map(|end| self.input(end));
        if self.is_system {
            let sum = matrix(n, n, &one[..n * n]).plus(&matrix(n, n, &two[..n * n]));
            if t.is_determinant() {
                return u64::from(parties[0].result(1)[0]) == sum.determinant();
            }
            let sides = matrix(n, 1, &one[n * n..]).plus(&matrix(n, 1, &two[n * n..]));
            return sum.times(&matrix(n, 1, &parties[0].result(n))) == sides;
        }
        let product = matrix(n, t.inner(), &one).times(&matrix(t.inner(), t.columns(), &two));
        let shares = parties.each_ref().map(|party| matrix(n, t.columns(), &party.result(n * t.columns())));
        shares[0].plus(&shares[1]) == product
    }
}

/// One call, on what is in a folder.
fn call(name: &str, number: usize, folder: &Path) -> bool {
    let run = RUNS.iter().find(|run| run.name == name).expect("a run");
    let mut parties = [0, 1].map(|party| Party::read(folder, party));
    let reply = run.perform(run.calls[number], &mut parties);
    parties.iter().enumerate().for_each(|(i, party)| party.write(folder, i));
    run.is_right(number, &reply)
}

/// A run by many processes, and by this one alone.
fn whole(run: &Run, folder: &Path) -> Result<(), String> {
    let program = std::env::current_exe().expect("this program");
    let mut alone = run.start();
    alone.iter().enumerate().for_each(|(i, party)| party.write(folder, i));
    for number in 0..run.calls.len() {
        let status = Command::new(&program).args(["call", run.name, &number.to_string()]).arg(folder).status().expect("a process");
        if !status.success() || !run.is_right(number, &run.perform(run.calls[number], &mut alone)) {
            return Err(format!("{} was not answered as it should be", run.calls[number].name()));
        }
    }
    let parties = [0, 1].map(|party| Party::read(folder, party));
    if parties != alone {
        return Err("the files are not what one process leaves".to_string());
    }
    run.fault(&parties).map_or(Ok(()), |why| Err(why.to_string()))
}

fn main() -> ExitCode {
    let arguments: Vec<String> = std::env::args().skip(1).collect();
    if let [word, name, number, folder] = &arguments[..] {
        let is_right = word == "call" && call(name, number.parse().expect("a number"), Path::new(folder));
        return if is_right { ExitCode::SUCCESS } else { ExitCode::FAILURE };
    }
    let mut code = ExitCode::SUCCESS;
    for run in &RUNS {
        let folder = std::env::temp_dir().join(format!("days-{}-{}", std::process::id(), run.name));
        fs::create_dir(&folder).expect("a folder");
        match whole(run, &folder) {
            Ok(()) => println!("{}: {} calls, each by a process of its own", run.name, run.calls.len()),
            Err(why) => {
                println!("{}: {why}", run.name);
                code = ExitCode::FAILURE;
            }
        }
        fs::remove_dir_all(&folder).expect("the folder is removed");
    }
    code
}
