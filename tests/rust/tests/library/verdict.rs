//! `fadzgime_verdict`.

use fadzgime_tests::answers::{CAPITALS, EQUAL_SIDES_MACROS, named_tests};
use fadzgime_tests::examples::example_macros;
use fadzgime_tests::generators::damaged_macros::damaged_text;
use fadzgime_tests::generators::macros::{macro_text, random_macro};
use fadzgime_tests::generators::random::{Random, cases};
use fadzgime_tests::generators::spread::Spread;
use fadzgime_tests::oracle::enumeration::{Enumerated, enumerate};
use fadzgime_tests::oracle::reader::read_macro;
use fadzgime_tests::oracle::refusal::Refusal;
use fadzgime_tests::oracle::verdict::{Answer, Event, MAX_PAIRS, PAIR_BYTES, verdict};
use fadzgime_tests::proved::library::{self, VERDICT_ANSWER, VERDICT_OUTPUT};

use crate::lent::Lent;

/// The largest table that is of use.
const MOST: usize = MAX_PAIRS * PAIR_BYTES;

/// What is expected: the numbers, the bytes written, whether the table is cleared.
struct Expected {
    answer: [u64; VERDICT_ANSWER],
    written: Vec<u8>,
    searched: bool,
}

impl Expected {
    /// What document 01 asks for an answer.
    fn of(answer: Result<Answer, Refusal>) -> Expected {
        match answer {
            Err(refusal) => Expected {
                answer: [u64::from(refusal.number), refusal.place as u64, 0, 0, 0],
                written: vec![],
                searched: refusal.number == 14 || refusal.number == 6,
            },
            Ok(answer) => {
                let (word, letters) = match &answer.verdict.event {
                    None => (0, 0),
                    Some(Event::Fail(letters)) => (1, letters.len()),
                    Some(Event::Incoherent(letters)) => (2, letters.len()),
                };
                let numbers = [0, 0, word, answer.verdict.pairs as u64, letters as u64];
                Expected { answer: numbers, written: answer.pack(), searched: true }
            }
        }
    }
}

/// Asks the library and compares its numbers and every lent byte.
fn check_against(bytes: &[u8], table: &mut Lent<u8>, room: usize, expected: &Expected) {
    let mut text = Lent::holding(bytes);
    let (mut out, mut answer) = (Lent::new(room), Lent::new(VERDICT_ANSWER + 2));
    let length = table.lend().len();
    library::verdict(text.lend(), table.lend(), out.lend(), answer.lend());
    text.assert_as_lent();
    let shown = String::from_utf8_lossy(bytes);
    assert_eq!(answer.look()[..VERDICT_ANSWER], expected.answer, "table {length} room {room}: {shown}");
    answer.assert_begins(&expected.answer);
    out.assert_begins(&expected.written);
    if expected.searched {
        assert!(table.look().iter().all(|&byte| byte == 0), "the table is not cleared: {shown}");
    } else {
        table.assert_as_lent();
    }
}

/// Compares with the oracle; gives what was answered.
fn check(bytes: &[u8], table: usize, room: usize) -> [u64; VERDICT_ANSWER] {
    let expected = Expected::of(verdict(bytes, table, room));
    check_against(bytes, &mut Lent::new(table), room, &expected);
    expected.answer
}

/// An answer in a word.
fn outcome(answer: [u64; VERDICT_ANSWER]) -> String {
    match answer {
        [0, _, 0, ..] => "pass".to_string(),
        [0, _, 1, ..] => "fail".to_string(),
        [0, _, 2, ..] => "incoherent".to_string(),
        [number, ..] => format!("refused {number}"),
    }
}

/// A table for a macro of so many pairs: one that just suffices, that just does not,
/// any smaller one, one that is no multiple of a pair's bytes, or a large one.
fn some_table(random: &mut Random, pairs: usize) -> usize {
    let exact = PAIR_BYTES * pairs;
    match random.below(8) {
        0 => exact,
        1 => exact.saturating_sub(1),
        2 => exact.saturating_sub(1 + random.below(PAIR_BYTES)),
        3 => random.below(exact + PAIR_BYTES),
        4 => exact + random.below(PAIR_BYTES),
        _ => 65_536,
    }
}

/// An output for an answer of so many bytes.
fn some_room(random: &mut Random, length: usize) -> usize {
    match random.below(6) {
        0 => length,
        1 => length.saturating_sub(1),
        2 => random.below(length + 1),
        _ => length + random.below(40),
    }
}

fn check_with_sizes(random: &mut Random, text: &[u8]) -> [u64; VERDICT_ANSWER] {
    let (pairs, length) = match verdict(text, usize::MAX, usize::MAX) {
        Ok(answer) => (answer.verdict.pairs, answer.pack().len()),
        Err(_) => (MAX_PAIRS, 0),
    };
    let (table, room) = (some_table(random, pairs), some_room(random, length));
    check(text, table, room)
}

fn random_text(random: &mut Random, points: usize) -> Vec<u8> {
    let read = random_macro(random, points);
    macro_text(random, &read)
}

#[test]
fn random_macros() {
    let mut spread = Spread::default();
    for seed in 0..cases(20_000) {
        let random = &mut Random::new(seed);
        let points = *random.pick(&[8, 24, 60]);
        let text = random_text(random, points);
        spread.add(&outcome(check_with_sizes(random, &text)), &text);
    }
    println!("random macros: {spread:?}");
    let wanted = ["pass", "fail", "incoherent", "refused 6", "refused 14"];
    let often = |word: &&str| spread.is_often(word, 200);
    assert!(wanted.iter().all(often) || cases(10) < 10, "{spread:?}");
}

#[test]
fn damaged_macros() {
    let mut spread = Spread::default();
    for seed in 0..cases(10_000) {
        let random = &mut Random::new(seed);
        let text = damaged_text(random);
        let table = *random.pick(&[0, 191, 192, 2_000]);
        spread.add(&outcome(check(&text, table, 100)), &text);
    }
    println!("damaged macros: {spread:?}");
    let often = |number: u8| spread.is_often(&format!("refused {number}"), 100);
    assert!((7..=14).chain([16]).all(often) || cases(10) < 10, "{spread:?}");
}

/// Texts with capitals whose answers are settled, with every table of up to two pairs and every output that is short.
#[test]
fn capitals() {
    for (text, _) in CAPITALS {
        for table in [0, 191, 192, 383, 384, 65_536] {
            for room in 0..40 {
                check(text.as_bytes(), table, room);
            }
        }
    }
}

/// The numbers of the lines of a verdict: its word, pairs and letters.
fn numbers(lines: &str) -> [u64; VERDICT_ANSWER] {
    let number = |line: Option<&str>| line.map_or(0, |line| line.parse().expect("a number"));
    let behind = |begin: &str| lines.lines().find_map(|line| line.strip_prefix(begin));
    let word = ["pass", "fail", "incoherent"].iter().position(|word| behind("verdict ") == Some(word));
    [0, 0, word.expect("a verdict") as u64, number(behind("pairs ")), number(behind("letters "))]
}

/// Macros that test what is already equal, against what was settled, and with every table and output that is short.
#[test]
fn equal_sides() {
    for (text, lines) in EQUAL_SIDES_MACROS {
        assert_eq!(check(text.as_bytes(), 65_536, 4_096), numbers(lines), "{text}");
        for table in (0..=7 * PAIR_BYTES).step_by(PAIR_BYTES / 2) {
            for room in 0..40 {
                check(text.as_bytes(), table, room);
            }
        }
    }
}

/// The numbers of the line of a refusal: its number and its place.
fn refusal(line: &str) -> Option<[u64; VERDICT_ANSWER]> {
    let (number, place) = line.trim_end().strip_prefix("refused ")?.split_once(" at ")?;
    Some([number.parse().ok()?, place.parse().ok()?, 0, 0, 0])
}

/// Tests with names, against what was settled, and with every table and output that is short.
#[test]
fn tests_with_names() {
    for (text, lines) in named_tests() {
        let expected = refusal(lines).unwrap_or_else(|| numbers(lines));
        assert_eq!(check(text.as_bytes(), MOST, VERDICT_OUTPUT), expected, "{text}");
        for table in (0..=5 * PAIR_BYTES).step_by(PAIR_BYTES / 2) {
            for room in 0..40 {
                check(text.as_bytes(), table, room);
            }
        }
    }
}

/// Plain enumeration of executions, no two of them merged, up to a bound.
#[test]
fn enumerated_executions() {
    let (mut whole, mut bounded) = (0, 0);
    for seed in 0..cases(4_000) {
        let random = &mut Random::new(seed + 1_000_000);
        let text = random_text(random, 14);
        let read = read_macro(&text).expect("reads");
        match enumerate(&read, 300) {
            Enumerated::Whole(verdict) => {
                whole += 1;
                let answer = Answer::of(read, verdict);
                let (pairs, length) = (answer.verdict.pairs, answer.pack().len());
                let table = &mut Lent::new(pairs * PAIR_BYTES);
                check_against(&text, table, length, &Expected::of(Ok(answer)));
            }
            Enumerated::Bounded { length, pairs } => {
                bounded += 1;
                let (mut table, mut out) = (vec![0; MOST], vec![0; VERDICT_OUTPUT]);
                let mut answer = [0; VERDICT_ANSWER];
                library::verdict(&text, &mut table, &mut out, &mut answer);
                let [refusal, _, word, found, letters] = answer;
                assert!(refusal == 14 || refusal == 0 && found >= pairs as u64, "{read:?}");
                assert!(word == 0 || letters > length as u64, "{read:?}");
            }
        }
    }
    println!("enumerated: {whole} to the end, {bounded} up to the bound");
    assert!(whole > 2_000 && bounded > 200 || cases(10) < 10);
}

/// Macros of each outcome, all tables of up to three pairs' bytes and all outputs up to
/// one byte more than is needed.
#[test]
fn every_size() {
    let texts: [&[u8]; 6] = [
        b"vars x; tests t/1; assert !t(x);",
        b"vars x; tests t/2; assert t(x,x); assert t(x,x);",
        b"vars x y; funs n/1; while x != y { x := n(x); } assert x = y;",
        b"vars x y z; funs f/2; z := f(x,y); assert x = z;",
        b"vars x y z; funs f/1; z := f(x); z := f(z); assume x = y;",
        b"vars x; skip;",
    ];
    for text in texts {
        let length = verdict(text, MOST, usize::MAX).expect("fits").pack().len();
        for table in (0..=3 * PAIR_BYTES + 1).filter(|bytes| [0, 1, 191].contains(&(bytes % PAIR_BYTES))) {
            for room in 0..=length + 1 {
                check(text, table, room);
            }
        }
        for table in 0..=3 * PAIR_BYTES + 1 {
            check(text, table, length);
        }
    }
}

/// What the table holds before does not matter.
#[test]
fn used_tables() {
    for seed in 0..cases(500) {
        let random = &mut Random::new(seed + 2_000_000);
        let text = random_text(random, 24);
        let expected = Expected::of(verdict(&text, 20_000, 2_000));
        for fill in [0x00, 0x01, 0xff] {
            check_against(&text, &mut Lent::holding(&[fill; 20_000]), 2_000, &expected);
        }
        // An earlier search in the same table.
        let table = &mut Lent::new(20_000);
        library::verdict(&random_text(random, 24), table.lend(), &mut [0; 9], &mut [0; VERDICT_ANSWER]);
        check_against(&text, table, 2_000, &expected);
    }
}

/// Tests between so many registers, each of which doubles the windows for a while,
/// behind assignments that change nothing, each of which is one pair more.
fn doubling(registers: usize, tests: usize, front: usize) -> Vec<u8> {
    let names = &["a", "b", "c", "d", "e", "f", "g", "h"][..registers];
    let mut text = format!("vars {};", names.join(" ")) + &"a:=a;".repeat(front);
    let sides = (0..registers).flat_map(|left| (left + 1..registers).map(move |right| (left, right)));
    for (left, right) in sides.take(tests) {
        text += &format!("if {}!={}{{}}", names[left], names[right]);
    }
    text.into_bytes()
}

/// N is at most 1,024, and full is given exactly when the count passes it.
#[test]
fn largest_tables() {
    for table in [MOST - 1, MOST, MOST + 1, MOST + PAIR_BYTES, 2 * MOST] {
        check(&doubling(8, 12, 0), table, 100);
    }
    let count =
        |front: usize| verdict(&doubling(6, 13, front), usize::MAX, 0).map(|answer| answer.verdict.pairs);
    let pairs = count(0).expect("fits");
    for total in [1023, 1024, 1025] {
        let front = total - pairs;
        assert_eq!(count(front).ok(), (total <= MAX_PAIRS).then_some(total));
        for table in [MOST - 193, MOST - 192, MOST - 1, MOST, MOST + 500] {
            check(&doubling(6, 13, front), table, 100);
        }
    }
}

/// Up to 256 points in a row, the event at the last.
#[test]
fn many_points() {
    for front in [100, 200, 254, 255] {
        for last in ["assert a=b;", "assert a=a;"] {
            let text = format!("vars a b;{}{last}", "a:=a;".repeat(front));
            for room in [2 * front + 11, 2 * front + 12, 2 * front + 13] {
                check(text.as_bytes(), MOST, room);
            }
        }
    }
}

/// A loop that counts in so many binary digits, each a register that holds one of two
/// values; it can be left only when the last digit is set.
fn counter(digits: usize) -> Vec<u8> {
    let names = &["a", "b", "c", "d", "e", "g"][..digits];
    let last = names[digits - 1];
    let step = names.iter().rev().fold(String::new(), |carry, digit| {
        if carry.is_empty() {
            return format!("{digit}:=t;");
        }
        format!("if {digit}=f{{{digit}:=t;}}else{{{digit}:=f;{carry}}}")
    });
    let start: String = names.iter().map(|digit| format!("{digit}:=f;")).collect();
    format!("vars t f {};assume t!=f;{start}while {last}=f{{{step}}}assert a!=f;", names.join(" "))
        .into_bytes()
}

/// The first event comes after many turns of a loop.
#[test]
fn many_turns() {
    for digits in 2..=6 {
        let text = counter(digits);
        let [refusal, _, word, _, letters] = check(&text, MOST, VERDICT_OUTPUT);
        println!("{digits} digits: refusal {refusal}, verdict {word}, {letters} letters");
        assert!(refusal == 14 || word == 1 && letters > 3 << (digits - 1));
    }
}

/// The macros of `examples/`.
#[test]
fn examples() {
    let examples = example_macros();
    assert!(examples.len() > 10);
    for example in examples {
        check(example.text.as_bytes(), 65_536, 4_096);
    }
}

#[test]
fn no_table() {
    check(b"vars x; skip;", 0, 0);
    check(b"vars x; x := x;", 0, 0);
    check(b"vars x; x := x;", 191, 0);
    check(b"vars x; x := x;", 192, 0);
    check(b"vars x; skip;", 500, 20);
    check(b"vars", 500, 20);
}

/// Where the answer is too short, nothing is done: every lent byte stays.
#[test]
fn short_answers() {
    for length in 0..VERDICT_ANSWER {
        for text in ["vars x y; assert x = y;", "vars x y; skip;", "vars"] {
            let mut text = Lent::holding(text.as_bytes());
            let (mut table, mut out, mut answer) = (Lent::new(400), Lent::new(40), Lent::new(length));
            library::verdict(text.lend(), table.lend(), out.lend(), answer.lend());
            text.assert_as_lent();
            table.assert_as_lent();
            out.assert_as_lent();
            answer.assert_as_lent();
        }
    }
}
