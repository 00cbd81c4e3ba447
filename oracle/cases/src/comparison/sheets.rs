//! Sheets through the writer and the reader: what is written is read, and what is read is written.

use super::Run;
use crate::case::Case;
use crate::generator::{self, Kind};
use crate::lending;
use crate::random::Random;
use crate::sheet::other_edition;
use reading::EXTEND;

impl Run<'_> {
    /// Parts that are written, and the sheet read back.
    pub(super) fn write_and_read(&mut self, random: &mut Random) {
        let given = generator::write(random);
        self.read_back(random, &given);
    }

    /// A sheet that is written and read back, where it is not refused: it has the same parts. The
    /// reader of edition 1 is asked too.
    fn read_back(&mut self, random: &mut Random, given: &Case) {
        let (refusal, written, same) = self.compare(given);
        if refusal != 0 || !same {
            return;
        }
        let length = written.argument("length").numbers()[0];
        let sheet = &written.argument("bytes").bytes()[..length];
        self.compare(&lending::read_edition_1(random, sheet));
        let read = lending::read(random, sheet);
        let (refusal, found, _) = self.compare(&read);
        let expected = with_parts(&found, given);
        self.hold(
            "held against what was written",
            &read,
            (0, &expected),
            (refusal, &found),
        );
    }

    /// A sheet of the reader's cases, by their number, and what it says written back in its own
    /// edition: the same bytes, where nothing is refused. Then it is written in the other edition.
    pub(super) fn written_back(&mut self, seed: u64, number: u64) {
        let random = &mut Random::of_case(seed, Kind::Read as u64, number);
        let read = generator::single(Kind::Read, number as usize, random);
        let (refusal, parts, same) = self.compare(&read);
        if refusal != 0 || !same {
            return;
        }
        let sheet = read.argument("bytes").bytes();
        let edition = parts.argument("edition").numbers()[0];
        let room = generator::room(random, sheet.len());
        let given = lending::write_parts(random, &parts, edition, room);
        let (refusal, found, _) = self.compare(&given);
        if refusal == 0 {
            let mut expected = found.clone();
            let front = &mut expected.argument_mut("bytes").bytes_mut()[..sheet.len()];
            front.copy_from_slice(sheet);
            expected.argument_mut("length").numbers_mut()[0] = sheet.len();
            let title = "held against the sheet that was read";
            self.hold(title, &given, (0, &expected), (refusal, &found));
        }
        let room = sheet.len() + 1;
        let given = lending::write_parts(random, &parts, other_edition(edition), room);
        self.read_back(random, &given);
    }
}

/// A read sheet with the parts of one that was written: past the axes in use stand zeros, and
/// where an end has no number.
fn with_parts(read: &Case, written: &Case) -> Case {
    let mut expected = read.clone();
    let axes = written.argument("axes").number();
    let kinds = &written.argument("kinds").bytes()[..2 * axes];
    expected.argument_mut("axes").numbers_mut()[0] = axes;
    let points = expected.argument_mut("points").numbers_mut();
    points.fill(0);
    points[..axes].copy_from_slice(&written.argument("points").numbers()[..axes]);
    let slots = expected.argument_mut("kinds").bytes_mut();
    slots.fill(0);
    slots[..2 * axes].copy_from_slice(kinds);
    let values = expected.argument_mut("values").floats_mut();
    values.fill(0.0);
    for (end, kind) in kinds.iter().enumerate() {
        if matches!(kind, 1 | 2) {
            values[end] = written.argument("values").floats()[end];
        }
    }
    let modes = expected.argument_mut("modes").bytes_mut();
    modes.fill(EXTEND);
    modes[..axes].copy_from_slice(&written.argument("modes").bytes()[..axes]);
    let edition = written.argument("edition").number();
    expected.argument_mut("edition").numbers_mut()[0] = edition;
    for name in ["knots", "samples"] {
        let numbers = written.argument(name).floats();
        let front = &mut expected.argument_mut(name).floats_mut()[..numbers.len()];
        front.copy_from_slice(numbers);
    }
    expected
}
