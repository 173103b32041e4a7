//! What holds of the prints of `fadzgime_layout`, by the proved library alone: they are read as the texts are, they are
//! their own layout, they have the verdicts of the texts, and they are hardly longer.

use fadzgime_tests::examples::example_macros;
use fadzgime_tests::generators::damaged_macros::damaged_text;
use fadzgime_tests::generators::layouts::text_to_lay_out;
use fadzgime_tests::generators::random::{Random, cases};
use fadzgime_tests::proved::library::{
    self, LAYOUT_ANSWER, LAYOUT_OUTPUT, READ_ANSWER, VERDICT_ANSWER, VERDICT_OUTPUT,
};

use crate::lent::Lent;

/// The print of a text, or the refusal and its place.
fn laid_out(text: &[u8]) -> Result<Vec<u8>, [u64; 2]> {
    let mut out = Lent::new(LAYOUT_OUTPUT);
    let mut answer = [u64::MAX; LAYOUT_ANSWER];
    library::layout(text, out.lend(), &mut answer);
    let [number, place, length] = answer;
    if number == 0 { Ok(out.look()[..length as usize].to_vec()) } else { Err([number, place]) }
}

fn read(text: &[u8]) -> [u64; READ_ANSWER] {
    let mut answer = [u64::MAX; READ_ANSWER];
    library::read(text, &mut answer);
    answer
}

/// The numbers of a verdict, and all bytes of its table and its output.
fn judged(text: &[u8], table: usize, room: usize) -> ([u64; VERDICT_ANSWER], Vec<u8>, Vec<u8>) {
    let (mut table, mut out) = (Lent::new(table), Lent::new(room));
    let mut answer = [u64::MAX; VERDICT_ANSWER];
    library::verdict(text, table.lend(), out.lend(), &mut answer);
    (answer, table.look().to_vec(), out.look().to_vec())
}

/// How many bytes the print may have beyond those of its text: the LFs, and the blanks behind `1` and `2`.
fn most_added(print: &[u8]) -> usize {
    let blank = |pair: &&[u8]| matches!(pair, [b'1' | b'2', b' ']);
    print.iter().filter(|byte| **byte == b'\n').count() + print.windows(2).filter(blank).count()
}

/// Checks the print of a text, if it has one; gives whether it has.
fn check(random: &mut Random, text: &[u8]) -> bool {
    let shown = String::from_utf8_lossy(text);
    let Ok(print) = laid_out(text) else { return false };
    assert!(print.len() <= text.len() + most_added(&print).min(text.len()), "{shown}");
    assert_eq!(read(text)[..2], [0, 0], "{shown}");
    assert_eq!(read(&print), read(text), "{shown}");
    assert_eq!(laid_out(&print).as_ref(), Ok(&print), "{shown}");
    let (table, room) = (*random.pick(&[0, 2_000, 65_536]), *random.pick(&[0, 60, VERDICT_OUTPUT]));
    assert_eq!(judged(&print, table, room), judged(text, table, room), "{shown}");
    true
}

/// A text has a print exactly if it is read, but for prints of more than 4,096 bytes; else it is refused alike.
fn check_refusal(text: &[u8]) {
    match laid_out(text) {
        Ok(_) | Err([15, 0]) => assert_eq!(read(text)[..2], [0, 0]),
        Err(refusal) => assert_eq!(read(text)[..2], refusal),
    }
}

/// Checks so many texts; at least `few` of them have a print.
fn check_texts(count: u64, few: usize, some_text: fn(&mut Random) -> Vec<u8>) {
    let mut printed = 0;
    for seed in 0..cases(count) {
        let random = &mut Random::new(seed + 1_000_000);
        let text = some_text(random);
        check_refusal(&text);
        printed += usize::from(check(random, &text));
    }
    println!("{printed} prints");
    assert!(printed > few || cases(10) < 10);
}

#[test]
fn prints_of_random_macros() {
    check_texts(10_000, 9_000, |random| text_to_lay_out(random).1);
}

#[test]
fn prints_of_damaged_macros() {
    check_texts(40_000, 4_000, damaged_text);
}

#[test]
fn prints_of_examples() {
    for example in example_macros() {
        assert!(check(&mut Random::new(0), example.text.as_bytes()), "{}", example.name);
    }
}
