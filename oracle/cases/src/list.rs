//! A fixed list of cases with the reading's answers, for a program that replays
//! them with no Rust at hand.
//!
//! Everything is a word of 64 bits, most significant byte first. The list is the
//! number of cases and then the cases. A case is
//!
//! - the number of its call, in the order of [`CALLS`];
//! - its arguments in order: a number or a float is one word; a slice is its
//!   length, a form and what the form wants;
//! - what it returns;
//! - for each slice that the call may write, in order, a form and what it wants:
//!   the slice after the call.
//!
//! Form 0 of an argument is a word for each item. Form 0 of a slice after the
//! call is a count and so many words: the items at the front; those behind stand
//! as they were given. Form 1 is a first word and a step, for both: each item is
//! the one before plus the step. A byte is a word too.

use crate::case::{Argument, Call, Calls, Case};
use crate::examples::examples;
use crate::generator::{single, Kind, KINDS};
use crate::random::Random;
use crate::reading_calls::Reading;
use crate::report::NUMBERS;

/// The calls in the order of their numbers; what programs print is none of them.
pub const CALLS: [Call; 25] = [
    Call::Moments,
    Call::Curve,
    Call::Slopes,
    Call::Build,
    Call::Change,
    Call::Query,
    Call::Read,
    Call::SheetTensor,
    Call::QuickQuery,
    Call::EvenQuery,
    Call::Write,
    Call::ExactIndex,
    Call::LocateAxis,
    Call::LocateStepIndex,
    Call::Stepped,
    Call::CellValue,
    Call::CursorNext,
    Call::ReadEdition1,
    Call::Surface,
    Call::Verify,
    Call::DirectQuery,
    Call::QuickQueries,
    Call::DirectQueries,
    Call::EvenProfile,
    Call::SteppedMany,
];

/// The seed of the list; another one makes another list.
const SEED: u64 = 1;

/// How many accepted cases of each call the list has.
const ACCEPTED: usize = 20;

/// How many cases of each refusal of each call.
const REFUSED: usize = 2;

/// The most words of a generated case, and of an example: a sheet whose tensor is too long for a
/// surface has 375 bytes at least, and each is a word.
const LONGEST_CASE: usize = 180;
const LONGEST_EXAMPLE: usize = 400;

/// The most bytes that a slice has, which the program `replay` has room for.
const MOST_BYTES: usize = 512;

/// How many generated cases of a kind are looked at.
const LOOKED_AT: u64 = 3_000;

/// The words of the list: the worked examples, and generated cases of every call.
pub fn list() -> Vec<u64> {
    let mut examples = examples();
    examples.retain(few_bytes);
    let mut cases: Vec<Vec<u64>> = examples.iter().map(|case| answered(case).1).collect();
    cases.retain(|words| words.len() <= LONGEST_EXAMPLE);
    for kind in KINDS.into_iter().filter(|kind| kind.is_single_call()) {
        cases.extend(chosen(kind));
    }
    let mut words = vec![cases.len() as u64];
    words.extend(cases.concat());
    words
}

/// Cases of a kind, with enough of every refusal. They are taken from the last on:
/// the first sheets that are read are all one sheet with its damages.
fn chosen(kind: Kind) -> Vec<Vec<u64>> {
    let mut wanted = [REFUSED; NUMBERS];
    wanted[0] = ACCEPTED;
    let mut chosen = Vec::new();
    for number in (0..LOOKED_AT).rev() {
        let mut random = Random::of_case(SEED, kind as u64, number);
        let case = single(kind, number as usize, &mut random);
        let (refusal, words) = answered(&case);
        if wanted[refusal] > 0 && words.len() <= LONGEST_CASE && few_bytes(&case) {
            wanted[refusal] -= 1;
            chosen.push(words);
        }
    }
    chosen
}

/// Whether no slice has too many bytes, which need few words where they are counted up.
fn few_bytes(case: &Case) -> bool {
    case.arguments.iter().all(|argument| match argument {
        Argument::Bytes(lent) => lent.slice().len() <= MOST_BYTES,
        _ => true,
    })
}

/// The refusal and the words of a case.
fn answered(given: &Case) -> (usize, Vec<u64>) {
    let mut after = given.clone();
    let returned = Reading.run(&mut after).expect("the reading answers all");
    let refusal = given.call.refusal(returned);
    (refusal, words(given, returned, &after))
}

fn words(given: &Case, returned: usize, after: &Case) -> Vec<u64> {
    let number = CALLS.iter().position(|call| *call == given.call);
    let mut words = vec![number.expect("every call has a number") as u64];
    for argument in &given.arguments {
        words.extend(argument_words(argument));
    }
    words.push(returned as u64);
    for name in given.call.written() {
        let (given, after) = (given.argument(name).words(), after.argument(name).words());
        words.extend(after_words(&given, &after));
    }
    words
}

fn argument_words(argument: &Argument) -> Vec<u64> {
    let items = argument.words();
    if matches!(argument, Argument::Number(_) | Argument::Float(_)) {
        return items;
    }
    let mut words = vec![items.len() as u64];
    match step(&items) {
        Some(step) => words.extend([1, items[0], step]),
        None => {
            words.push(0);
            words.extend(items);
        }
    }
    words
}

fn after_words(given: &[u64], after: &[u64]) -> Vec<u64> {
    let last_changed = (0..after.len()).rfind(|at| given[*at] != after[*at]);
    let changed = last_changed.map_or(0, |last| last + 1);
    match step(after) {
        Some(step) if changed > 2 => vec![1, after[0], step],
        _ => {
            let mut words = vec![0, changed as u64];
            words.extend(&after[..changed]);
            words
        }
    }
}

/// The step of three or more items that are counted up by it.
fn step(items: &[u64]) -> Option<u64> {
    if items.len() < 3 {
        return None;
    }
    let step = items[1].wrapping_sub(items[0]);
    let counted = |pair: &[u64]| pair[0].wrapping_add(step) == pair[1];
    items.windows(2).all(counted).then_some(step)
}
