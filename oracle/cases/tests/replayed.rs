//! The list is read back as a replaying program reads it, and answered anew.

use cases::{list, Argument, Call, Calls, Case, Reading, CALLS, NUMBERS};

/// The words of a list that are still to be read.
struct Words {
    words: std::vec::IntoIter<u64>,
}

impl Words {
    fn next(&mut self) -> u64 {
        self.words.next().expect("the list has a further word")
    }

    fn take(&mut self, count: usize) -> Vec<u64> {
        (0..count).map(|_| self.next()).collect()
    }

    /// So many items from a first word and a step.
    fn counted(&mut self, count: usize) -> Vec<u64> {
        let (first, step) = (self.next(), self.next());
        let item = |place: u64| first.wrapping_add(place.wrapping_mul(step));
        (0..count as u64).map(item).collect()
    }

    fn slice(&mut self) -> Vec<u64> {
        let length = self.next() as usize;
        match self.next() {
            0 => self.take(length),
            _ => self.counted(length),
        }
    }

    /// A slice after the call, from what was given.
    fn after(&mut self, given: &[u64]) -> Vec<u64> {
        if self.next() == 1 {
            return self.counted(given.len());
        }
        let count = self.next() as usize;
        let mut items = self.take(count);
        items.extend(&given[count..]);
        items
    }

    fn case(&mut self) -> Case {
        let call = CALLS[self.next() as usize];
        let names = call.arguments().iter();
        let arguments = names.map(|name| self.argument(call, name)).collect();
        Case::new(call, arguments)
    }

    fn numbers(&mut self) -> Argument {
        let items: Vec<usize> = self.slice().into_iter().map(|word| word as usize).collect();
        Argument::of_numbers(&items)
    }

    fn argument(&mut self, call: Call, name: &str) -> Argument {
        let one_axis = !call.reads_patterns() && !call.arguments().contains(&"axes");
        match name {
            "points" if one_axis => Argument::Number(self.next() as usize),
            "axes" | "edition" if !call.reads_patterns() => Argument::Number(self.next() as usize),
            "lower" | "direction" | "p0" | "p1" | "d0" | "d1" | "k" | "c0" | "c1" | "c2" | "c3" => {
                Argument::Number(self.next() as usize)
            }
            "point" | "sample" => Argument::Float(f64::from_bits(self.next())),
            "kinds" | "modes" | "directions" | "bytes" | "curve" => {
                let bytes: Vec<u8> = self.slice().into_iter().map(|word| word as u8).collect();
                Argument::of_bytes(&bytes)
            }
            "axes" | "points" | "place" | "labels" | "lanes" | "length" | "uneven" | "found"
            | "location" | "index" | "indices" | "edition" | "cursor" | "point_labels" | "point_indices"
            | "refusals" | "told" => self.numbers(),
            "value" if matches!(call, Call::CellValue | Call::CursorNext) => self.numbers(),
            _ => {
                let floats: Vec<f64> = self.slice().into_iter().map(f64::from_bits).collect();
                Argument::of_floats(&floats)
            }
        }
    }
}

/// The bytes that the program `replay` has room for.
const ROOM: usize = 655_360;

/// The list that the program `replay` is run on.
const STORED: &[u8] = include_bytes!("../../../crates/trial_replay/stdin");

#[test]
fn the_stored_list_is_the_one_that_is_made() {
    let made: Vec<u8> = list().into_iter().flat_map(u64::to_be_bytes).collect();
    assert!(made == STORED, "make expected makes another one");
}

#[test]
fn the_list_gives_the_readings_answers_back() {
    let mut words = Words {
        words: list().into_iter(),
    };
    let count = words.next();
    let mut seen = [[0; NUMBERS]; CALLS.len()];
    for _ in 0..count {
        let given = words.case();
        let mut after = given.clone();
        let returned = Reading.run(&mut after).unwrap();
        assert_eq!(returned, words.next() as usize);
        let refusal = given.call.refusal(returned);
        for name in given.call.written() {
            let expected = words.after(&given.argument(name).words());
            assert_eq!(after.argument(name).words(), expected, "{name}");
        }
        let number = CALLS.iter().position(|&call| call == given.call).unwrap();
        seen[number][refusal] += 1;
    }
    assert_eq!(words.words.len(), 0);
    assert!((300..=1200).contains(&count), "{count}");
    assert!(STORED.len() < ROOM, "{}", STORED.len());
    assert!(seen.iter().all(|refusals| refusals[0] >= 20));
    let refused = |number: usize| seen.iter().any(|refusals| refusals[number] > 0);
    assert!((1..=23).all(refused));
}
