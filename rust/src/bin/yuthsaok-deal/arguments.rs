//! What the arguments ask for.

use std::collections::BTreeMap;
use std::ffi::OsString;
use std::path::PathBuf;

use yuthsaok::{is_prime, Shape};

use crate::Failure;

pub const HELP: &str = "\
yuthsaok-deal makes tapes for two parties, as two files of which each party gets one.

  yuthsaok-deal product --q Q --sides M,K,P --count N (--numbers FILE | --from T) LEFT RIGHT
  yuthsaok-deal system --q Q --unknowns U --count N (--numbers FILE | --from T) BLINDER SOLVER
  yuthsaok-deal determinant --q Q --rows R --count N (--numbers FILE | --from T) BLINDER SOLVER
  yuthsaok-deal show [--slot-words S] FILE..
  yuthsaok-deal --help | --version

  --q Q           the modulus: 2 to 2147483647, and prime for a system or a determinant
  --sides M,K,P   X is M by K and Y is K by P: M and P up to 32, K up to 2048, M*K and K*P up to 2048
  --unknowns U    the unknowns of the system, up to 16
  --rows R        the rows, and columns, of the determinant, up to 16
  --count N       how many tapes are made; a file has at most 1 GiB
  --numbers FILE  holds the next unused tape number, and is moved on before a tape is made; made with 1 where it is missing
  --from T        the first tape number, where you keep account yourself: a number must never be used twice
  --slot-words S  how the pool is cut, where its first tape doesn't tell

A file is a pool in bytes and nothing else: slots of one size behind each other, that of the longer half, words of 32 bits with the lowest
byte first. `show` prints its slots and no word of a matrix.

A file that holds a tape that is ready or in use is never written over; one whose tapes are all spent is replaced. A dealing that was
cut off may leave one file of two, or hidden files that end in .part: with --numbers the next dealing under these names removes the
latter, and of the former it says so. Tapes are secret: hand
each file to its party alone, over a channel that nobody else reads, and keep no copy.

Exits with 0; with 1 where files can't be read, written or written over; with 2 where the arguments ask for what can't be.
";

/// The bytes of the largest file that is made.
const LARGEST: u64 = 1 << 30;

pub enum Command {
    Help,
    Version,
    Deal(Order),
    Show { files: Vec<PathBuf>, slot_words: Option<usize> },
}

/// What is to be dealt.
pub struct Order {
    pub shape: Shape,
    pub count: u32,
    pub numbers: Numbers,
    /// The file of the left or blinder's halves, and that of the others.
    pub files: [PathBuf; 2],
}

/// Where the tape numbers come from.
pub enum Numbers {
    File(PathBuf),
    From(u32),
}

/// The arguments, sorted.
struct Given {
    options: BTreeMap<&'static str, OsString>,
    files: Vec<PathBuf>,
}

pub fn parse(arguments: impl Iterator<Item = OsString>) -> Result<Command, Failure> {
    let arguments: Vec<OsString> = arguments.collect();
    if arguments.iter().any(|argument| argument == "--help") {
        return Ok(Command::Help);
    }
    let Some((verb, rest)) = arguments.split_first() else {
        return usage("say product, system, determinant or show");
    };
    match verb.to_str() {
        Some("--version") if rest.is_empty() => Ok(Command::Version),
        Some("product") => product(Given::sort(rest, &["--q", "--sides", "--count", "--numbers", "--from"])?),
        Some("system") => system(Given::sort(rest, &["--q", "--unknowns", "--count", "--numbers", "--from"])?),
        Some("determinant") => determinant(Given::sort(rest, &["--q", "--rows", "--count", "--numbers", "--from"])?),
        Some("show") => show(Given::sort(rest, &["--slot-words"])?),
        _ => usage(format!("{} is none of product, system, determinant and show", verb.display())),
    }
}

fn usage<T>(sentence: impl Into<String>) -> Result<T, Failure> {
    Err(Failure::Usage(sentence.into()))
}

fn product(given: Given) -> Result<Command, Failure> {
    let q = given.number("--q")?;
    let sides: Vec<&str> = given.text("--sides")?.split(',').collect();
    let &[m, k, p] = &sides[..] else {
        return usage("--sides takes three numbers, as in 1,30,1");
    };
    let shape = Shape::Product { q, m: number("--sides", m)?, k: number("--sides", k)?, p: number("--sides", p)? };
    order(given, shape)
}

fn system(given: Given) -> Result<Command, Failure> {
    let shape = Shape::System { q: given.number("--q")?, n: given.number("--unknowns")? };
    order(given, shape)
}

fn determinant(given: Given) -> Result<Command, Failure> {
    let shape = Shape::Determinant { q: given.number("--q")?, n: given.number("--rows")? };
    order(given, shape)
}

fn order(given: Given, shape: Shape) -> Result<Command, Failure> {
    check_shape(shape)?;
    let count = given.number("--count")?;
    if count == 0 || u64::from(count) * 4 * shape.slot_words() as u64 > LARGEST {
        return usage(format!("--count is at least 1, and at most {} of {shape}", LARGEST / (4 * shape.slot_words() as u64)));
    }
    let numbers = given.numbers(count)?;
    let Ok(files) = <[PathBuf; 2]>::try_from(given.files) else {
        return usage("name two files, one for each end");
    };
    Ok(Command::Deal(Order { shape, count, numbers, files }))
}

fn check_shape(shape: Shape) -> Result<(), Failure> {
    let q = shape.modulus();
    if !(2..=2_147_483_647).contains(&q) {
        return usage(format!("--q is 2 to 2147483647, and not {q}"));
    }
    match shape {
        Shape::System { .. } if !is_prime(q) => usage(format!("--q of a system is prime, and {q} is not")),
        Shape::Determinant { .. } if !is_prime(q) => usage(format!("--q of a determinant is prime, and {q} is not")),
        Shape::System { n, .. } if shape.slot_words() == 0 => usage(format!("--unknowns is 1 to 16, and not {n}")),
        Shape::Determinant { n, .. } if shape.slot_words() == 0 => usage(format!("--rows is 1 to 16, and not {n}")),
        Shape::Product { m, k, p, .. } if shape.slot_words() == 0 => {
            usage(format!("--sides {m},{k},{p} is out of bounds: M and P are 1 to 32, K, M*K and K*P are 1 to 2048"))
        }
        _ => Ok(()),
    }
}

fn show(given: Given) -> Result<Command, Failure> {
    let slot_words = match given.options.contains_key("--slot-words") {
        true => Some(given.number("--slot-words")? as usize),
        false => None,
    };
    if slot_words.is_some_and(|words| words < 7) {
        return usage("--slot-words is at least 7, the words of a tape's header");
    }
    if given.files.is_empty() {
        return usage("name a file to show");
    }
    Ok(Command::Show { files: given.files, slot_words })
}

fn number(option: &str, text: &str) -> Result<u32, Failure> {
    let is_plain = !text.is_empty() && text.bytes().all(|byte| byte.is_ascii_digit());
    match text.parse() {
        Ok(number) if is_plain => Ok(number),
        _ => usage(format!("{option} takes whole numbers up to 4294967295, and \"{text}\" is none")),
    }
}

impl Given {
    fn sort(arguments: &[OsString], known: &[&'static str]) -> Result<Given, Failure> {
        let mut given = Given { options: BTreeMap::new(), files: Vec::new() };
        let mut arguments = arguments.iter();
        let mut are_options_over = false;
        while let Some(argument) = arguments.next() {
            if argument == "--" && !are_options_over {
                are_options_over = true;
                continue;
            }
            if are_options_over || !argument.as_encoded_bytes().starts_with(b"-") {
                given.files.push(argument.into());
                continue;
            }
            let Some(option) = known.iter().find(|option| argument == **option) else {
                return usage(format!("{} is not known here", argument.display()));
            };
            let Some(value) = arguments.next() else {
                return usage(format!("{option} lacks its value"));
            };
            if given.options.insert(option, value.clone()).is_some() {
                return usage(format!("{option} is given twice"));
            }
        }
        Ok(given)
    }

    fn text(&self, option: &str) -> Result<&str, Failure> {
        match self.options.get(option) {
            Some(value) => value.to_str().ok_or_else(|| Failure::Usage(format!("{option} is not text"))),
            None => usage(format!("{option} is missing")),
        }
    }

    fn number(&self, option: &str) -> Result<u32, Failure> {
        number(option, self.text(option)?)
    }

    fn numbers(&self, count: u32) -> Result<Numbers, Failure> {
        match (self.options.get("--numbers"), self.options.contains_key("--from")) {
            (Some(file), false) => Ok(Numbers::File(file.into())),
            (None, true) => {
                let first = self.number("--from")?;
                if first == 0 {
                    return usage("--from is at least 1");
                }
                if first.checked_add(count - 1).is_none() {
                    return usage(format!("tape numbers are 1 to 4294967295, and there are not {count} of them from {first} on"));
                }
                Ok(Numbers::From(first))
            }
            _ => usage("give one of --numbers and --from"),
        }
    }
}
