//! The runs of RULES 9.3 on bytes, a determinant, and what RULES 11 says of records and lengths.

use reference::answers::Reference;
use reference::entries::*;
use reference::record::{put_words, words_of};
use reference::Terms;

fn bytes(words: &[u32]) -> Vec<u8> {
    words.iter().flat_map(|w| w.to_le_bytes()).collect()
}

/// An end of a session: its record, its pool of one slot, its scratch.
struct Party {
    record: Vec<u8>,
    pool: Vec<u8>,
    scratch: Vec<u8>,
    line: [u8; 100],
    result: Vec<u8>,
}

impl Party {
    fn new(words: usize) -> Party {
        Party { record: vec![0; RECORD], pool: vec![0; 4 * words], scratch: vec![7; 12], line: [1; 100], result: vec![9; 8] }
    }

    fn slot(pool: &mut [u8]) -> Slot<'_> {
        Slot { size: pool.len() / 4, index: 0, pool }
    }

    fn first(&mut self, end: u32, terms: Terms, input: &[u32], words: &[u32], message: &[u8]) -> Reply {
        Reference::first(First {
            record: &mut self.record,
            end,
            slot: Self::slot(&mut self.pool),
            terms,
            input: &bytes(input),
            words: &bytes(words),
            scratch: &mut self.scratch,
            message,
            line: &mut self.line,
            result: &mut self.result,
        })
    }

    fn next(&mut self, message: &[u8]) -> Reply {
        Reference::next(Next {
            record: &mut self.record,
            slot: Self::slot(&mut self.pool),
            scratch: &mut self.scratch,
            message,
            line: &mut self.line,
            result: &mut self.result,
        })
    }

    fn head(&self) -> Vec<u32> {
        words_of(&self.record)[..9].to_vec()
    }
}

fn deal(one: &mut Party, two: &mut Party, sort: u32, terms: Terms, words: &[u32]) -> Reply {
    Reference::deal(Deal { sort, slot: Party::slot(&mut one.pool), second: &mut two.pool, terms, words: &bytes(words) })
}

#[test]
fn the_product() {
    let t = Terms::product(9, 4, 7, 1, 2, 1);
    let (mut left, mut right) = (Party::new(10), Party::new(10));
    assert_eq!(deal(&mut left, &mut right, 0, t, &[1, 4, 6, 3, 2]), Reply { number: 0, read: 5, bytes: 0 });
    assert_eq!(right.first(2, t, &[2, 6], &[], b""), Reply { number: 0, read: 0, bytes: 18 });
    assert_eq!(right.line[..19], *b"1,9,4,7,1,2,1,3,3\n\x01");
    assert_eq!(right.head(), [2, 9, 4, 7, 1, 2, 1, 2, 0]);
    assert_eq!(left.first(1, t, &[3, 5], &[5], &right.line[..18]), Reply { number: 0, read: 1, bytes: 20 });
    assert_eq!(left.line[..21], *b"2,9,4,7,1,2,1,4,2,3\n\x01");
    assert_eq!(left.head(), [1, 9, 4, 7, 1, 2, 1, 0, 0]);
    assert_eq!(left.result, [5, 0, 0, 0, 9, 9, 9, 9]);
    assert_eq!(left.next(b"2,9,4,7,1,2,1,4,2,3\n").number, 5);
    assert_eq!(right.next(&left.line[..20]), Reply::default());
    assert_eq!(right.result, [3, 0, 0, 0, 9, 9, 9, 9]);
    assert_eq!(right.head(), [2, 9, 4, 7, 1, 2, 1, 0, 0]);
    assert_eq!(words_of(&right.pool), [3, 4, 0, 7, 1, 2, 1, 0, 0, 0]);
}

#[test]
fn the_system() {
    let t = Terms::system(9, 4, 5, 1);
    for (m, number) in [(1, 0), (3, 10)] {
        let (mut blinder, mut solver) = (Party::new(13), Party::new(13));
        assert_eq!(deal(&mut blinder, &mut solver, 1, t, &[1, 4, 2, 0, 3, 3, 2, 1]).read, 8);
        let sent = solver.first(4, t, &[2, 3], &[], b"").bytes;
        let sent = blinder.first(3, t, &[m, 1], &[2, 1, 2], &solver.line[..sent]).bytes;
        assert_eq!(blinder.head(), [3, 9, 4, 5, 1, 1, 2, 3, m]);
        let sent = solver.next(&blinder.line[..sent]).bytes;
        assert_eq!(solver.head(), [4, 9, 4, 5, 1, 1, 2, 4, 4]);
        let sent = blinder.next(&solver.line[..sent]).bytes;
        let last = solver.next(&blinder.line[..sent]);
        assert_eq!(last.number, number);
        assert_eq!(solver.head(), [4, 9, 4, 5, 1, 1, 2, 0, 0]);
        assert_eq!(words_of(&solver.pool), [3, 4, 1, 5, 1, 1, 2, 0, 0, 0, 0, 0, 0]);
        if number == 0 {
            assert_eq!(blinder.next(&solver.line[..last.bytes]), Reply::default());
            assert_eq!(blinder.result[..4], [3, 0, 0, 0]);
            assert_eq!(blinder.scratch, [0; 12]);
        }
    }
}

#[test]
fn the_determinant() {
    let t = Terms::determinant(9, 4, 5, 1);
    for (m, d) in [(1, 3), (3, 0)] {
        let (mut blinder, mut solver) = (Party::new(11), Party::new(11));
        assert_eq!(deal(&mut blinder, &mut solver, 1, t, &[1, 4, 0, 3, 2, 1]).read, 6);
        let sent = solver.first(4, t, &[2], &[], b"").bytes;
        let sent = blinder.first(3, t, &[m], &[2, 1], &solver.line[..sent]).bytes;
        assert_eq!(blinder.head(), [3, 9, 4, 5, 1, 1, 1, 3, m]);
        let sent = solver.next(&blinder.line[..sent]).bytes;
        assert_eq!(solver.head(), [4, 9, 4, 5, 1, 1, 1, 4, 0]);
        let sent = blinder.next(&solver.line[..sent]).bytes;
        assert_eq!(blinder.head(), [3, 9, 4, 5, 1, 1, 1, 6, m]);
        let sent = solver.next(&blinder.line[..sent]).bytes;
        assert_eq!(solver.line[..sent], *format!("6,9,4,5,1,1,1,{d}\n").as_bytes());
        assert_eq!(solver.head(), [4, 9, 4, 5, 1, 1, 1, 0, 0]);
        singular_p(&mut blinder, &solver.line[..sent]);
        assert_eq!(blinder.next(&solver.line[..sent]), Reply::default());
        assert_eq!(blinder.result, [d, 0, 0, 0, 9, 9, 9, 9]);
        assert_eq!(blinder.scratch, [0, 0, 0, 0, 0, 0, 0, 0, 7, 7, 7, 7]);
        assert_eq!(words_of(&blinder.pool), [3, 4, 1, 5, 1, 1, 1, 0, 0, 0, 0]);
    }
}

/// The last step with another P is refused and changes no byte; P is then put back.
fn singular_p(blinder: &mut Party, message: &[u8]) {
    put_words(&[0], &mut blinder.scratch);
    let before = [&blinder.record, &blinder.pool, &blinder.scratch, &blinder.result].map(Vec::clone);
    assert_eq!(blinder.next(message), Reply { number: 10, read: 0, bytes: 0 });
    assert_eq!([&blinder.record, &blinder.pool, &blinder.scratch, &blinder.result].map(Vec::clone), before);
    put_words(&[2], &mut blinder.scratch);
}

#[test]
fn what_an_entry_judges_itself() {
    let t = Terms::product(9, 4, 7, 1, 2, 1);
    let (mut left, mut right) = (Party::new(10), Party::new(10));
    assert_eq!(deal(&mut left, &mut right, 2, Terms { q: 1, ..t }, &[]).number, 4);
    deal(&mut left, &mut right, 0, t, &[1, 4, 6, 3, 2]);
    // an end that is none goes before q and the message, and a line without form before all
    assert_eq!(left.first(5, Terms { q: 1, ..t }, &[], &[], b"").number, 4);
    assert_eq!(left.first(1, Terms { q: 1, ..t }, &[], &[], b"").number, 1);
    // scratches are whole words, also where they have no use
    right.scratch.push(0);
    assert_eq!(right.first(2, t, &[2, 6], &[], b"").number, 4);
    assert_eq!(right.first(2, Terms { q: 1, ..t }, &[2, 6], &[], b"").number, 2);
    right.scratch.pop();
    put_words(&[0, 0, 0, 0, 0, 0, 0, 1], &mut right.record);
    assert_eq!(right.first(2, t, &[2, 6], &[], b"").number, 5);
    right.record.push(0);
    assert_eq!(right.first(2, t, &[2, 6], &[], b"").number, 4);
    assert_eq!(right.next(b"2,9,4,1,1,2,1,4,2,3\n").number, 2);
}

#[test]
fn sizes() {
    assert_eq!([1, 2, 3, 4].map(|end| Reference::tape_words(end, 2, 2, 3)), [17, 19, 25, 27]);
    assert_eq!([1, 2, 3, 4].map(|end| Reference::coin_count(end, 2, 2, 3)), [6, 0, 10, 0]);
    assert_eq!([0, 1, 2].map(|sort| Reference::deal_count(sort, 2, 2, 3)), [16, 28, 0]);
    assert_eq!(Reference::line_bytes(1, 7, 1, 2, 1), "1,4294967295,4294967295,7,1,2,1,6,6\n".len());
    assert_eq!(Reference::line_bytes(3, 6, 1, 1, 2), 0);
    let mut word = [0; 6];
    assert_eq!((Reference::refusal_word(1, &mut word), &word), (4, b"form\0\0"));
    assert_eq!(Reference::refusal_word(2, &mut word), 0);
}
