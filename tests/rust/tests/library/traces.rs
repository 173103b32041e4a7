//! `fadzgime_write` and `fadzgime_read_trace`.

use fadzgime_tests::generators::random::{Random, cases};
use fadzgime_tests::generators::traces::{any_trace, damage_trace, random_header};
use fadzgime_tests::oracle::letter::{Header, Letter};
use fadzgime_tests::oracle::refusal::Refusal;
use fadzgime_tests::oracle::trace::{Trace, read_trace, write_trace};
use fadzgime_tests::proved::library::{self, READ_TRACE_ANSWER, UNPACKED_BYTES, WRITE_ANSWER};

use crate::lent::Lent;

/// A header as the numbers that the library takes and gives.
fn header_numbers(header: &Header) -> [u8; 3] {
    let bits = header.binary.iter().enumerate().map(|(f, &two)| u8::from(two) << f);
    [header.registers, header.functions, bits.sum()]
}

/// The five bytes of a letter; what it does not use is 0.
fn unpacked(letter: &Letter) -> [u8; UNPACKED_BYTES] {
    match *letter {
        Letter::Copy { target, source } => [0, 0, target, source, 0],
        Letter::Apply { target, function, first, second } => {
            [1, function, target, first, second.unwrap_or(0)]
        }
        Letter::Equal { first, second } => [2, 0, 0, first, second],
        Letter::Unequal { first, second } => [3, 0, 0, first, second],
    }
}

fn all_unpacked(letters: &[Letter]) -> Vec<u8> {
    letters.iter().flat_map(unpacked).collect()
}

/// The letter that five bytes name, if they name one: the letter in the word of these
/// fields, so that unused ones have to be 0.
fn named(fields: &[u8], header: &Header) -> Option<Letter> {
    let &[kind, function, target, first, second] = fields else { return None };
    if kind > 3 || function > 3 || target > 7 || first > 7 || second > 7 {
        return None;
    }
    let fields = [(kind, 14), (function, 12), (target, 9), (first, 6), (second, 3)];
    let word = fields.iter().map(|&(field, shift)| u16::from(field) << shift).sum();
    Letter::unpack(word, header)
}

/// What the writer has to answer for bytes of any kind.
fn expected_write(header: &Header, fields: &[u8], room: usize) -> Result<Vec<u8>, Refusal> {
    if !header.is_well_formed() {
        return Err(Refusal::plain(3));
    }
    let mut letters = Vec::new();
    for (index, part) in fields.chunks(UNPACKED_BYTES).enumerate() {
        letters.push(named(part, header).ok_or(Refusal::at(4, index + 1))?);
    }
    write_trace(header, &letters, room)
}

fn check_write(numbers: [u8; 3], fields: &[u8], room: usize, expected: Result<Vec<u8>, Refusal>) {
    let mut letters = Lent::holding(fields);
    let mut out = Lent::new(room);
    let mut answer = Lent::new(WRITE_ANSWER + 2);
    library::write(numbers, letters.lend(), out.lend(), answer.lend());
    letters.assert_as_lent();
    match expected {
        Ok(bytes) => {
            answer.assert_begins(&[0, 0, bytes.len() as u64]);
            out.assert_begins(&bytes);
        }
        Err(refusal) => {
            answer.assert_begins(&[u64::from(refusal.number), refusal.place as u64, 0]);
            out.assert_as_lent();
        }
    }
}

fn check_read(bytes: &[u8], room: usize) {
    let mut trace = Lent::holding(bytes);
    let mut out = Lent::new(room);
    let mut answer = Lent::new(READ_TRACE_ANSWER + 2);
    library::read_trace(trace.lend(), out.lend(), answer.lend());
    trace.assert_as_lent();
    let read = read_trace(bytes, None).and_then(|read| {
        let short = room < UNPACKED_BYTES * read.letters.len();
        if short { Err(Refusal::plain(6)) } else { Ok(read) }
    });
    match read {
        Ok(Trace { header, letters }) => {
            let [registers, functions, binary] = header_numbers(&header).map(u64::from);
            answer.assert_begins(&[0, 0, registers, functions, binary, letters.len() as u64]);
            out.assert_begins(&all_unpacked(&letters));
        }
        Err(refusal) => {
            answer.assert_begins(&[u64::from(refusal.number), refusal.place as u64, 0, 0, 0, 0]);
            out.assert_as_lent();
        }
    }
}

/// A room that is a little more, just enough or a little less.
fn around(random: &mut Random, enough: usize) -> usize {
    (enough + random.below(5)).saturating_sub(2)
}

/// Unpacked letters written, what was written read, and what was read written again.
#[test]
fn there_and_back() {
    for seed in 0..cases(20_000) {
        let trace = any_trace(&mut Random::new(seed), 40);
        let (header, fields) = (header_numbers(&trace.header), all_unpacked(&trace.letters));
        let mut packed = vec![0; 2 + 2 * trace.letters.len()];
        let mut answer = [0; WRITE_ANSWER];
        library::write(header, &fields, &mut packed, &mut answer);
        assert_eq!(answer, [0, 0, packed.len() as u64]);
        assert_eq!(packed, trace.pack());
        let mut out = vec![0; fields.len()];
        let mut read = [0; READ_TRACE_ANSWER];
        library::read_trace(&packed, &mut out, &mut read);
        assert_eq!(read[..2], [0, 0]);
        assert_eq!(out, fields);
        let again = [read[2] as u8, read[3] as u8, read[4] as u8];
        let mut repacked = vec![0; packed.len()];
        library::write(again, &out, &mut repacked, &mut answer);
        assert_eq!(answer, [0, 0, packed.len() as u64]);
        assert_eq!(repacked, packed);
    }
}

#[test]
fn outputs_of_every_size() {
    for seed in 0..cases(20_000) {
        let random = &mut Random::new(seed);
        let trace = any_trace(random, 8);
        let fields = all_unpacked(&trace.letters);
        let packed = trace.pack();
        let room = around(random, packed.len());
        check_write(
            header_numbers(&trace.header),
            &fields,
            room,
            expected_write(&trace.header, &fields, room),
        );
        check_read(&packed, around(random, fields.len()));
    }
}

/// Unpacked letters with a byte changed, put in or taken away; the headers as well.
#[test]
fn damaged_letters() {
    for seed in 0..cases(50_000) {
        let random = &mut Random::new(seed);
        let trace = any_trace(random, 8);
        let mut fields = all_unpacked(&trace.letters);
        let mut header = trace.header;
        let place = random.below(fields.len().max(1));
        match random.below(5) {
            0 => header = random_header(random),
            1 => fields.insert(place.min(fields.len()), random.byte_below(8)),
            2 if !fields.is_empty() => drop(fields.remove(place)),
            3 if !fields.is_empty() => fields[place] = random.bits() as u8,
            _ if !fields.is_empty() => fields[place] = random.byte_below(9),
            _ => {}
        }
        let room = around(random, 2 + 2 * fields.len().div_ceil(UNPACKED_BYTES));
        check_write(header_numbers(&header), &fields, room, expected_write(&header, &fields, room));
    }
}

/// Every second argument of a one-argument function: only 0 is taken.
#[test]
fn second_arguments() {
    let header = Header::new(8, &[1, 2]);
    for function in 0..2 {
        for second in 0..=255 {
            let fields = [1, function, 2, 1, second];
            check_write(header_numbers(&header), &fields, 4, expected_write(&header, &fields, 4));
        }
    }
}

/// Every header's three numbers up to more than is allowed.
#[test]
fn headers() {
    for registers in 0..=9 {
        for functions in 0..=5 {
            for binary in 0..=32 {
                let mask: Vec<bool> = (0..4).map(|f| binary >> f & 1 == 1).collect();
                let header = Header { registers, functions, binary: mask.try_into().expect("four") };
                let fits = header.is_well_formed() && binary < 16;
                let expected =
                    if fits { Ok(header.pack().to_be_bytes().to_vec()) } else { Err(Refusal::plain(3)) };
                check_write([registers, functions, binary], &[], 2, expected);
            }
        }
    }
}

#[test]
fn damaged_traces() {
    for seed in 0..cases(50_000) {
        let random = &mut Random::new(seed);
        let trace = any_trace(random, 12);
        let bytes = damage_trace(random, &trace);
        let room = around(random, UNPACKED_BYTES * (bytes.len() / 2).saturating_sub(1));
        check_read(&bytes, room);
    }
}

/// An answer that is too short: nothing is done.
#[test]
fn short_answers() {
    for length in 0..WRITE_ANSWER {
        let (mut out, mut answer) = (Lent::new(8), Lent::new(length));
        library::write([1, 0, 0], &[], out.lend(), answer.lend());
        out.assert_as_lent();
        answer.assert_as_lent();
    }
    for length in 0..READ_TRACE_ANSWER {
        let (mut out, mut answer) = (Lent::new(8), Lent::new(length));
        library::read_trace(&[0x10, 0x00, 0x00, 0x00], out.lend(), answer.lend());
        out.assert_as_lent();
        answer.assert_as_lent();
    }
}
