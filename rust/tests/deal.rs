//! The dealer's program: what it makes serves whole sessions, and what it must not write over stays.

mod common;

use std::fs::{self, File};
use std::os::unix::fs::{symlink, PermissionsExt};
use std::path::{Path, PathBuf};
use std::process::{Child, Command, Stdio};
use std::time::Duration;

use common::*;
use yuthsaok::{deal, Pool, Session, SessionNumber, Shape, Slot, Status, TapeNumber, Terms};

const PRODUCT: &str = "product --q 31 --sides 1,30,1 --count 3";
const SHAPE: Shape = Shape::Product { q: 31, m: 1, k: 30, p: 1 };

/// A folder of a test's own, in which the program is run.
struct Folder(PathBuf);

/// What a run of the program said.
#[derive(Debug, PartialEq)]
struct Said {
    status: i32,
    out: String,
    err: String,
}

impl Folder {
    fn new(name: &str) -> Folder {
        let path = Path::new(env!("CARGO_TARGET_TMPDIR")).join(name);
        let _ = fs::remove_dir_all(&path);
        fs::create_dir_all(&path).unwrap();
        Folder(path)
    }

    fn at(&self, name: &str) -> PathBuf {
        self.0.join(name)
    }

    fn start(&self, arguments: &str) -> Child {
        let mut command = Command::new(env!("CARGO_BIN_EXE_yuthsaok-deal"));
        command.current_dir(&self.0).args(arguments.split_whitespace());
        command.stdout(Stdio::piped()).stderr(Stdio::piped()).spawn().unwrap()
    }

    fn run(&self, arguments: &str) -> Said {
        said(self.start(arguments))
    }

    fn names(&self) -> Vec<String> {
        let mut names: Vec<_> = fs::read_dir(&self.0).unwrap().map(|entry| entry.unwrap().file_name().into_string().unwrap()).collect();
        names.sort();
        names
    }

    fn pool(&self, name: &str, shape: Shape) -> Pool {
        Pool::from_bytes(fs::read(self.at(name)).unwrap(), shape.slot_words()).unwrap()
    }

    fn numbers(&self, name: &str) -> Vec<u32> {
        self.pool(name, SHAPE).tapes().map(|tape| tape.number.0).collect()
    }
}

fn said(child: Child) -> Said {
    let output = child.wait_with_output().unwrap();
    let text = |bytes| String::from_utf8(bytes).unwrap();
    Said { status: output.status.code().unwrap(), out: text(output.stdout), err: text(output.stderr) }
}

fn done(out: &str) -> Said {
    Said { status: 0, out: out.into(), err: String::new() }
}

fn failed(sentence: &str) -> Said {
    Said { status: 1, out: String::new(), err: format!("yuthsaok-deal: {sentence}\n") }
}

fn misused(sentence: &str) -> Said {
    Said { status: 2, out: String::new(), err: format!("yuthsaok-deal: {sentence} (yuthsaok-deal --help says more)\n") }
}

#[test]
fn a_product_is_worked_out_with_every_dealt_tape() {
    let folder = Folder::new("product");
    let made = "3 tapes of a product 2 by 5 by 3 modulo 1000000, numbers 7 to 9, in left.tapes and right.tapes; 28 words a slot\n";
    assert_eq!(folder.run("product --q 1000000 --sides 2,5,3 --count 3 --from 7 left.tapes right.tapes"), done(made));
    assert_eq!(folder.names(), ["left.tapes", "right.tapes"]);
    let (shape, q) = (Shape::Product { q: 1_000_000, m: 2, k: 5, p: 3 }, 1_000_000);
    let (mut left, mut right) = (folder.pool("left.tapes", shape), folder.pool("right.tapes", shape));
    assert_eq!((left.slots(), right.slots()), (3, 3));
    for number in 7..10 {
        let terms = Terms { session: SessionNumber(1), tape: TapeNumber(number), shape };
        let slot = left.find(terms.tape).unwrap();
        assert_eq!((slot, right.find(terms.tape)), (Slot(number as usize - 7), Some(slot)));
        let (x, y) = (residues(10, q), residues(15, q));
        let (mut session, first) = Session::right(&mut right, slot, terms, &y).unwrap();
        let (_, second) = Session::left(&mut left, slot, terms, &x, &random_words(6), &first.line).unwrap();
        let last = session.next(&mut right, slot, &second.line).unwrap();
        assert_eq!(plus(&second.result, &last.result, q), times(&x, &y, [2, 5, 3], q));
    }
}

#[test]
fn a_system_is_solved_with_every_dealt_tape() {
    let folder = Folder::new("system");
    let made = "4 tapes of a system of 3 unknowns modulo 2, numbers 1 to 4, in blinder and solver; 49 words a slot\n";
    assert_eq!(folder.run("system --q 2 --unknowns 3 --count 4 --numbers next blinder solver"), done(made));
    let shape = Shape::System { q: 2, n: 3 };
    let (mut blinders, mut solvers) = (folder.pool("blinder", shape), folder.pool("solver", shape));
    let (l, m) = ([1, 1, 0, 0, 1, 0, 0, 0, 1], [0, 1, 1, 1, 0, 0, 1, 1, 0]);
    for number in 1..5 {
        let terms = Terms { session: SessionNumber(1), tape: TapeNumber(number), shape };
        let slot = Slot(number as usize - 1);
        let (mut solving, first) = Session::solver(&mut solvers, slot, terms, &l, &[1, 0, 1]).unwrap();
        let (mut blinding, second) = blinder(&mut blinders, slot, terms, &m, &[0, 1, 1], &first.line);
        let third = solving.next(&mut solvers, slot, &second.line).unwrap();
        let fourth = blinding.next(&mut blinders, slot, &third.line).unwrap();
        let fifth = solving.next(&mut solvers, slot, &fourth.line).unwrap();
        let z = blinding.next(&mut blinders, slot, &fifth.line).unwrap().result;
        assert_eq!(times(&plus(&l, &m, 2), &z, [3, 3, 1], 2), [1, 1, 0]);
    }
}

#[test]
fn a_determinant_is_worked_out_with_every_dealt_tape() {
    let folder = Folder::new("determinant");
    let made = "3 tapes of a determinant 2 by 2 modulo 101, numbers 1 to 3, in blinder and solver; 23 words a slot\n";
    assert_eq!(folder.run("determinant --q 101 --rows 2 --count 3 --numbers next blinder solver"), done(made));
    let shape = Shape::Determinant { q: 101, n: 2 };
    let (mut blinders, mut solvers) = (folder.pool("blinder", shape), folder.pool("solver", shape));
    for number in 1..4 {
        let terms = Terms { session: SessionNumber(1), tape: TapeNumber(number), shape };
        let slot = Slot(number as usize - 1);
        let (mut solving, first) = Session::solver(&mut solvers, slot, terms, &[1, 2, 3, 4], &[]).unwrap();
        let (mut blinding, second) = blinder(&mut blinders, slot, terms, &[5, 0, 0, 1], &[], &first.line);
        let third = solving.next(&mut solvers, slot, &second.line).unwrap();
        let fourth = blinding.next(&mut blinders, slot, &third.line).unwrap();
        let sixth = solving.next(&mut solvers, slot, &fourth.line).unwrap();
        // 6 × 5 − 2 × 3
        assert_eq!(blinding.next(&mut blinders, slot, &sixth.line).unwrap().result, [24]);
    }
}

#[test]
fn files_are_for_their_owner_alone() {
    let folder = Folder::new("mode");
    folder.run(&format!("{PRODUCT} --from 1 left right"));
    for name in ["left", "right"] {
        assert_eq!(fs::metadata(folder.at(name)).unwrap().permissions().mode() & 0o777, 0o600);
    }
    assert_ne!(fs::read(folder.at("left")).unwrap(), fs::read(folder.at("right")).unwrap());
}

/// Writes a status into a slot's first word.
fn set_status(folder: &Folder, name: &str, slot: usize, status: u8) {
    let mut bytes = fs::read(folder.at(name)).unwrap();
    bytes[4 * SHAPE.slot_words() * slot] = status;
    fs::write(folder.at(name), bytes).unwrap();
}

/// Spends the tapes of right's file by giving sessions up.
fn spend(folder: &Folder, name: &str) {
    let mut pool = folder.pool(name, SHAPE);
    for tape in pool.tapes().collect::<Vec<_>>() {
        let terms = Terms { session: SessionNumber(1), tape: tape.number, shape: SHAPE };
        let (mut session, _) = Session::right(&mut pool, tape.slot, terms, &[0; 30]).unwrap();
        session.give_up(&mut pool, tape.slot).unwrap();
    }
    fs::write(folder.at(name), pool.into_bytes()).unwrap();
}

/// Said of a file whose other one is missing.
const LONE: &str = "; the other file is not there: if a dealing was cut off, remove this one and deal again";

/// Files of dealers that were killed go, and no other.
#[test]
fn what_a_killed_dealer_left_is_removed() {
    let folder = Folder::new("killed");
    for name in [".left.0000000a0123beef.part", ".right.0000000a0123beef.part", ".left.part", ".left.0000000a0123beeg.part", "left.part"] {
        fs::write(folder.at(name), "half a tape").unwrap();
    }
    assert_eq!(folder.run(&format!("{PRODUCT} --numbers next left right")).status, 0);
    let kept = [".left.0000000a0123beeg.part", ".left.part", "left", "left.part", "next", "right"];
    assert_eq!(folder.names(), kept.map(String::from));
}

/// However a pool is cut, `show` prints its headers or nothing: masks modulo 2 and 3 look like headers now and then.
#[test]
fn no_cut_shows_a_word_of_a_matrix() {
    let folder = Folder::new("cuts");
    for (q, sides, own) in [(2, "1,30,1", 38), (3, "1,9,1", 17), (3, "2,2,2", 15)] {
        for turn in 0..3 {
            let files = format!("a{q}-{own}-{turn} b{q}-{own}-{turn}");
            assert_eq!(folder.run(&format!("product --q {q} --sides {sides} --count 6 --from 1 {files}")).status, 0);
            for words in (7..6 * own + 1).filter(|words| *words != own) {
                let said = folder.run(&format!("show --slot-words {words} a{q}-{own}-{turn}"));
                assert_eq!((said.status, said.out), (1, String::new()), "{files} cut by {words}");
            }
        }
    }
}

#[test]
fn unused_tapes_are_never_written_over() {
    let folder = Folder::new("unused");
    assert_eq!(folder.run(&format!("{PRODUCT} --numbers next left right")).status, 0);
    let before = [fs::read(folder.at("left")).unwrap(), fs::read(folder.at("right")).unwrap()];
    let unused = "is not written over: it has 3 tapes that are not spent (3 ready, 0 in use)";
    assert_eq!(folder.run(&format!("{PRODUCT} --numbers next left right")), failed(&format!("left {unused}")));
    assert_eq!(folder.run(&format!("{PRODUCT} --numbers next new right")), failed(&format!("right {unused}{LONE}")));
    assert_eq!([fs::read(folder.at("left")).unwrap(), fs::read(folder.at("right")).unwrap()], before);
    assert_eq!(
        (folder.names(), fs::read(folder.at("next")).unwrap()),
        (["left", "next", "right"].map(String::from).into(), b"0000000004\n".to_vec())
    );

    spend(&folder, "right");
    set_status(&folder, "right", 2, 2);
    let in_use = "right is not written over: it has 1 tape that is not spent (0 ready, 1 in use)";
    assert_eq!(folder.run(&format!("{PRODUCT} --numbers next new right")), failed(&format!("{in_use}{LONE}")));
    set_status(&folder, "right", 2, 3);
    let made = "3 tapes of a product 1 by 30 by 1 modulo 31, numbers 4 to 6, in new and right; 38 words a slot\n";
    let replaced = "right had no unused tape and was written over\n";
    assert_eq!(folder.run(&format!("{PRODUCT} --numbers next new right")), done(&format!("{made}{replaced}")));
    assert_eq!((folder.numbers("new"), folder.numbers("right")), (vec![4, 5, 6], vec![4, 5, 6]));
}

#[test]
fn what_is_no_used_up_file_of_tapes_is_not_written_over() {
    let folder = Folder::new("other");
    let run = |name: &str| folder.run(&format!("{PRODUCT} --from 1 {name} right"));
    fs::write(folder.at("letter"), "Dear reader, \n").unwrap();
    assert_eq!(run("letter"), failed("letter is not written over, since it is no file of tapes: its 14 bytes are not whole words"));
    fs::create_dir(folder.at("folder")).unwrap();
    assert_eq!(run("folder"), failed("folder is not written over, since it is a folder or a device"));
    symlink("/dev/null", folder.at("device")).unwrap();
    assert_eq!(run("device"), failed("device is not written over, since it is a folder or a device"));

    // A spent tape in a slot that is longer than it tells, and behind it a ready one, where no slot seems to begin.
    let (zeros, words) = (vec![0; 61], random_words(61));
    for (size, slots, slot, words) in
        [(76, 2, 1, &words), (39, 38, 5, &words), (39, 38, 5, &zeros), (39, 38, 37, &zeros), (57, 2, 1, &zeros)]
    {
        let mut pools = [(); 2].map(|()| Pool::new(size, slots));
        let [left, right] = &mut pools;
        deal(left, right, Slot(slot), TapeNumber(2), SHAPE, words).unwrap();
        let mut bytes = right.as_bytes().to_vec();
        bytes[..28].copy_from_slice(&[3, 1, 0, 31, 1, 30, 1].map(u32::to_le_bytes).concat());
        fs::write(folder.at("long"), &bytes).unwrap();
        assert_eq!((run("long").status, fs::read(folder.at("long")).unwrap()), (1, bytes));
    }

    for blank in [0, 8] {
        fs::write(folder.at("blank"), vec![0; blank]).unwrap();
        fs::remove_file(folder.at("right")).ok();
        assert_eq!(run("blank").status, 0);
    }
}

#[test]
fn numbers_are_given_once() {
    let folder = Folder::new("numbers");
    let next = || fs::read_to_string(folder.at("next")).unwrap();
    assert_eq!(folder.run(&format!("{PRODUCT} --numbers next a b")).status, 0);
    assert_eq!((folder.numbers("a"), next().as_str()), (vec![1, 2, 3], "0000000004\n"));
    assert_eq!(folder.run(&format!("{PRODUCT} --numbers next c d")).status, 0);
    assert_eq!((folder.numbers("d"), next().as_str()), (vec![4, 5, 6], "0000000007\n"));

    fs::write(folder.at("next"), "4294967293\n").unwrap();
    assert_eq!(folder.run(&format!("{PRODUCT} --numbers next e f")).status, 0);
    assert_eq!((folder.numbers("e"), next().as_str()), (vec![4294967293, 4294967294, 4294967295], "4294967296\n"));
    let over = "the numbers in next can't be used: tape numbers end with 4294967295, and from 4294967296 on there are not 3 left";
    assert_eq!(folder.run(&format!("{PRODUCT} --numbers next g h")), failed(over));

    for wrong in ["", "7", "0\n", "07\n", "+7\n", "7\n\n", "seven\n", "-7\n", "99999999999999999999\n"] {
        fs::write(folder.at("next"), wrong).unwrap();
        let said = folder.run(&format!("{PRODUCT} --numbers next g h"));
        let sentence = "the numbers in next can't be used: it must hold the next unused tape number, from 1 up, and the end of the line";
        assert_eq!((said, next().as_str()), (failed(sentence), wrong));
    }
    assert!(!folder.at("g").exists());
}

#[test]
fn numbers_are_moved_on_before_tapes_are_made() {
    let folder = Folder::new("before");
    let long = "n".repeat(250);
    let said = folder.run(&format!("{PRODUCT} --numbers next left {long}"));
    assert_eq!((said.status, folder.names(), fs::read(folder.at("next")).unwrap()), (1, vec!["next".into()], b"0000000004\n".to_vec()));
}

#[test]
fn a_second_dealer_waits() {
    let folder = Folder::new("lock");
    fs::write(folder.at("next"), "5\n").unwrap();
    let held = File::open(folder.at("next")).unwrap();
    held.lock().unwrap();
    let mut child = folder.start(&format!("{PRODUCT} --numbers next left right"));
    std::thread::sleep(Duration::from_millis(300));
    assert!(child.try_wait().unwrap().is_none());
    held.unlock().unwrap();
    assert_eq!((said(child).status, folder.numbers("left")), (0, vec![5, 6, 7]));
}

#[test]
fn dealers_at_one_time_share_no_number() {
    let folder = Folder::new("together");
    fs::write(folder.at("next"), "1\n").unwrap();
    let children: Vec<Child> = (0..8).map(|i| folder.start(&format!("{PRODUCT} --numbers next left{i} right{i}"))).collect();
    children.into_iter().for_each(|child| assert_eq!(said(child).status, 0));
    let mut numbers: Vec<u32> = (0..8).flat_map(|i| folder.numbers(&format!("left{i}"))).collect();
    numbers.sort();
    assert_eq!(numbers, (1..25).collect::<Vec<_>>());
}

#[test]
fn two_names_of_one_file_are_refused() {
    let folder = Folder::new("names");
    let run = |names: &str| folder.run(&format!("{PRODUCT} {names}"));
    assert_eq!(run("--from 1 left left"), misused("left and left are one file"));
    assert_eq!(run("--from 1 left ./left"), misused("left and ./left are one file"));
    assert_eq!(run("--numbers left left right"), misused("left and left are one file"));
    assert!(folder.names().is_empty());
    fs::write(folder.at("left"), "").unwrap();
    fs::hard_link(folder.at("left"), folder.at("hard")).unwrap();
    symlink("left", folder.at("soft")).unwrap();
    assert_eq!(run("--from 1 left hard"), misused("left and hard are one file"));
    assert_eq!(run("--from 1 soft left"), misused("soft and left are one file"));
    assert_eq!(run("--from 1 left gone/right").status, 1);
}

/// Left's pool of README's product: a spent slot, an empty one, a ready one; right's has one in use.
fn known_files(folder: &Folder) {
    let shape = Shape::Product { q: 7, m: 1, k: 2, p: 1 };
    let mut pools = [(); 2].map(|()| Pool::new(10, 3));
    let [left, right] = &mut pools;
    for (slot, number) in [(0, 4), (2, 1234567)] {
        deal(left, right, Slot(slot), TapeNumber(number), shape, &[1, 4, 6, 3, 2]).unwrap();
    }
    let terms = Terms { session: SessionNumber(9), tape: TapeNumber(4), shape };
    let (_, first) = Session::right(right, Slot(0), terms, &[2, 6]).unwrap();
    Session::left(left, Slot(0), terms, &[3, 5], &[5], &first.line).unwrap();
    fs::write(folder.at("left"), left.as_bytes()).unwrap();
    fs::write(folder.at("right"), right.as_bytes()).unwrap();
}

#[test]
fn show_has_headers_and_no_matrix() {
    let folder = Folder::new("show");
    known_files(&folder);
    let table = |name: &str, status: &str, counts: &str| {
        format!(
            "{name}: 3 slots of 10 words\n\
             slot  number   sort     q  sides        status\n\
             0     4        product  7  1 by 2 by 1  {status}\n\
             1     -        -        -  -            empty\n\
             2     1234567  product  7  1 by 2 by 1  ready\n\
             {counts}\n"
        )
    };
    let left = table("left", "spent", "1 ready, 0 in use, 1 spent, 1 empty");
    let right = table("right", "in use", "1 ready, 1 in use, 0 spent, 1 empty");
    assert_eq!(folder.run("show left"), done(&left));
    assert_eq!(folder.run("show --slot-words 10 left right"), done(&format!("{left}\n{right}")));

    folder.run("system --q 2147483647 --unknowns 1 --count 1 --from 4294967295 blinder solver");
    let system = "solver: 1 slot of 13 words\n\
                  slot  number      sort    q           sides      status\n\
                  0     4294967295  system  2147483647  1 unknown  ready\n\
                  1 ready, 0 in use, 0 spent, 0 empty\n";
    assert_eq!(folder.run("show solver"), done(system));

    folder.run("determinant --q 101 --rows 3 --count 1 --from 7 one other");
    let determinant = "one: 1 slot of 43 words\n\
                       slot  number  sort         q    sides   status\n\
                       0     7       determinant  101  3 by 3  ready\n\
                       1 ready, 0 in use, 0 spent, 0 empty\n";
    assert_eq!(folder.run("show one"), done(determinant));
}

#[test]
fn show_refuses_what_is_no_file_of_tapes() {
    let folder = Folder::new("no-tapes");
    known_files(&folder);
    let bytes = fs::read(folder.at("left")).unwrap();
    fs::create_dir(folder.at("folder")).unwrap();
    fs::write(folder.at("odd"), &bytes[..39]).unwrap();
    fs::write(folder.at("cut"), &bytes[..44]).unwrap();
    fs::write(folder.at("empty"), "").unwrap();
    fs::write(folder.at("later"), &bytes[40..]).unwrap();
    fs::write(folder.at("stray"), [&bytes[..40], &[9; 40]].concat()).unwrap();
    let run = |arguments: &str, why: &str| assert_eq!(folder.run(&format!("show {arguments}")), failed(why));
    run("gone", "gone can't be read: No such file or directory (os error 2)");
    run("folder", "folder can't be read: Is a directory (os error 21)");
    run("odd", "odd is no file of tapes: its 39 bytes are not whole words");
    run("cut", "cut is no file of tapes: its 11 words are not whole slots of 10 words");
    run("empty", "empty is no file of tapes: it is empty");
    run("stray", "stray is no file of tapes: cut by 10 words, slot 1 holds no tape");
    run("--slot-words 9 left", "left is no file of tapes: its 30 words are not whole slots of 9 words");
    run("--slot-words 15 left", "left is no file of tapes: cut by 15 words, slot 1 holds no tape");
    let first = "it does not begin with a tape (where its first slot is empty, --slot-words says how it is cut)";
    run("later", &format!("later is no file of tapes: {first}"));
    let later = folder.run("show --slot-words 10 later");
    assert_eq!((later.status, later.out.lines().last()), (0, Some("1 ready, 0 in use, 0 spent, 1 empty")));
}

#[test]
fn misuse_is_told_in_a_sentence() {
    let folder = Folder::new("misuse");
    let tail = "--count 3 --from 1 left right";
    let cases = [
        (String::new(), "say product, system, determinant or show"),
        ("deal".into(), "deal is none of product, system, determinant and show"),
        (format!("product --sides 1,30,1 {tail}"), "--q is missing"),
        (format!("product --q 31 {tail}"), "--sides is missing"),
        (format!("product --q 31 --sides 1,30 {tail}"), "--sides takes three numbers, as in 1,30,1"),
        (format!("product --q 31 --sides 1,x,1 {tail}"), "--sides takes whole numbers up to 4294967295, and \"x\" is none"),
        (format!("product --q +31 --sides 1,30,1 {tail}"), "--q takes whole numbers up to 4294967295, and \"+31\" is none"),
        (format!("product --q 1 --sides 1,30,1 {tail}"), "--q is 2 to 2147483647, and not 1"),
        (format!("system --q 6 --unknowns 2 {tail}"), "--q of a system is prime, and 6 is not"),
        (format!("system --q 5 --unknowns 17 {tail}"), "--unknowns is 1 to 16, and not 17"),
        (format!("system --q 5 --sides 1,1,2 {tail}"), "--sides is not known here"),
        (format!("determinant --q 6 --rows 2 {tail}"), "--q of a determinant is prime, and 6 is not"),
        (format!("determinant --q 5 --rows 0 {tail}"), "--rows is 1 to 16, and not 0"),
        (format!("determinant --q 5 --rows 17 {tail}"), "--rows is 1 to 16, and not 17"),
        (format!("determinant --q 5 {tail}"), "--rows is missing"),
        (format!("determinant --q 5 --unknowns 2 {tail}"), "--unknowns is not known here"),
        (
            "product --q 31 --sides 1,30,1 --count 0 --from 1 a b".into(),
            "--count is at least 1, and at most 7064090 of a product 1 by 30 by 1 modulo 31",
        ),
        (format!("{PRODUCT} left right"), "give one of --numbers and --from"),
        (format!("{PRODUCT} --numbers n --from 1 left right"), "give one of --numbers and --from"),
        (format!("{PRODUCT} --from 0 left right"), "--from is at least 1"),
        (format!("{PRODUCT} --from 4294967294 a b"), "tape numbers are 1 to 4294967295, and there are not 3 of them from 4294967294 on"),
        (format!("{PRODUCT} --from 1 left"), "name two files, one for each end"),
        (format!("{PRODUCT} --from 1 --from 2 left right"), "--from is given twice"),
        (format!("{PRODUCT} left right --from"), "--from lacks its value"),
        ("show".into(), "name a file to show"),
        ("show --slot-words 6 left".into(), "--slot-words is at least 7, the words of a tape's header"),
    ];
    for (arguments, sentence) in cases {
        assert_eq!(folder.run(&arguments), misused(sentence), "{arguments}");
    }
    assert!(folder.names().is_empty());
}

#[test]
fn help_and_version_are_told() {
    let folder = Folder::new("help");
    assert_eq!(folder.run("--version"), done(&format!("yuthsaok-deal {}\n", yuthsaok::version())));
    let help = folder.run("--help");
    assert!(help.status == 0 && help.out.contains("yuthsaok-deal show") && help.err.is_empty());
    assert_eq!(folder.run("product --help"), help);
}

#[test]
fn dealt_tapes_are_ready() {
    let folder = Folder::new("ready");
    folder.run(&format!("{PRODUCT} --from 1 left right"));
    for name in ["left", "right"] {
        let pool = folder.pool(name, SHAPE);
        assert!(pool.tapes().all(|tape| tape.status == Status::Ready && tape.shape() == Some(SHAPE)));
    }
}
