//! The two editions of the packed sheet: where the mode's bits stand, what is refused there and in
//! which order, and what the reader of edition 1 says.

mod packed;

use packed::{packed, Field, ONE, ZERO};
use reading::{read, read_edition_1, sheet_tensor, BUFFER, CURVE_SCRATCH, EXTEND, LONGEST_TENSOR};

/// What stands in a buffer that nothing was written to.
const FILL: f64 = 7.25;

/// Edition, one axis of two points, its kinds and its mode.
fn head(edition: u64, kinds: [u64; 2], mode: u64) -> Vec<Field> {
    let [lower, upper] = kinds;
    vec![
        (edition, 4),
        (1, 3),
        (1, 8),
        (lower, 2),
        (upper, 2),
        (mode, 2),
    ]
}

/// The example in edition 2, with any kinds and mode.
fn example(kinds: [u64; 2], mode: u64) -> Vec<u8> {
    let mut fields = head(2, kinds, mode);
    fields.extend(vec![
        ZERO;
        kinds.iter().filter(|k| matches!(k, 1 | 2)).count()
    ]);
    fields.extend([ZERO, ONE, ZERO, ONE]);
    packed(&fields)
}

/// What a read hands over, and the front of both buffers.
#[derive(Debug, PartialEq)]
struct Handed {
    refusal: usize,
    axes: usize,
    points: [usize; 4],
    kinds: [u8; 8],
    modes: [u8; 4],
    edition: usize,
    knots: [f64; 3],
    samples: [f64; 3],
}

/// What is handed over of a sheet that is refused: nothing.
fn refused(refusal: usize) -> Handed {
    Handed {
        refusal,
        axes: 0,
        points: [0; 4],
        kinds: [0; 8],
        modes: [EXTEND; 4],
        edition: 0,
        knots: [FILL; 3],
        samples: [FILL; 3],
    }
}

fn front(numbers: &[f64]) -> [f64; 3] {
    [numbers[0], numbers[1], numbers[2]]
}

fn handed(bytes: &[u8]) -> Handed {
    let (mut knots, mut samples) = (vec![FILL; BUFFER], vec![FILL; BUFFER]);
    let (mut axes, mut points, mut kinds, mut values) = ([9], [9; 4], [9; 8], [9.0; 8]);
    let (mut modes, mut edition) = ([9; 4], [9]);
    let refusal = read(
        bytes,
        &mut knots,
        &mut samples,
        &mut axes,
        &mut points,
        &mut kinds,
        &mut values,
        &mut modes,
        &mut edition,
    );
    Handed {
        refusal,
        axes: axes[0],
        points,
        kinds,
        modes,
        edition: edition[0],
        knots: front(&knots),
        samples: front(&samples),
    }
}

/// The same of the reader of edition 1, which says neither modes nor edition.
fn handed_in_edition_1(bytes: &[u8]) -> Handed {
    let (mut knots, mut samples) = (vec![FILL; BUFFER], vec![FILL; BUFFER]);
    let (mut axes, mut points, mut kinds, mut values) = ([9], [9; 4], [9; 8], [9.0; 8]);
    let refusal = read_edition_1(
        bytes,
        &mut knots,
        &mut samples,
        &mut axes,
        &mut points,
        &mut kinds,
        &mut values,
    );
    Handed {
        refusal,
        axes: axes[0],
        points,
        kinds,
        modes: [EXTEND; 4],
        edition: usize::from(refusal == 0),
        knots: front(&knots),
        samples: front(&samples),
    }
}

#[test]
fn the_mode_is_read() {
    for mode in 0..3 {
        let expected = Handed {
            refusal: 0,
            axes: 1,
            points: [2, 0, 0, 0],
            kinds: [2, 2, 0, 0, 0, 0, 0, 0],
            modes: [mode as u8, 0, 0, 0],
            edition: 2,
            knots: [0.0, 1.0, FILL],
            samples: [0.0, 1.0, FILL],
        };
        assert_eq!(handed(&example([2, 2], mode)), expected);
    }
}

/// Each axis has its own mode, behind its own kinds.
#[test]
fn modes_of_two_axes_stand_apart() {
    let mut fields = vec![(2, 4), (2, 3)];
    for mode in [1, 2] {
        fields.extend([(1, 8), (3, 2), (3, 2), (mode, 2), ZERO, ONE]);
    }
    fields.extend([ONE; 4]);
    let handed = handed(&packed(&fields));
    assert_eq!((handed.refusal, handed.modes), (0, [1, 2, 0, 0]));
}

#[test]
fn mode_bits_3_are_refused_at_their_field() {
    assert_eq!(handed(&example([2, 2], 3)), refused(22));
    // Nothing behind the field is read, and it is read though nothing stands behind it.
    let cut = packed(&head(2, [2, 2], 3));
    assert_eq!(cut.len(), 3);
    assert_eq!(handed(&cut), refused(22));
    // Kinds that do not go together are met before.
    for kinds in [[3, 0], [0, 3], [3, 2], [1, 3]] {
        assert_eq!(handed(&example(kinds, 3)), refused(13));
    }
    assert_eq!(handed(&packed(&head(2, [3, 0], 3))), refused(13));
    // A sheet that ends before the mode has none.
    assert_eq!(handed(&cut[..2]), refused(11));
}

#[test]
fn an_edition_is_1_or_2() {
    for edition in 0..16 {
        let mut sheet = example([2, 2], 0);
        sheet[0] = (edition << 4) as u8 | sheet[0] & 0x0F;
        match edition {
            // In edition 1 each number begins two bits earlier, and the last two bits, which are
            // left over, are zero.
            1 | 2 => assert_eq!(handed(&sheet).edition, edition),
            _ => assert_eq!(handed(&sheet), refused(12)),
        }
    }
}

#[test]
fn the_reader_of_edition_1_shows_nothing_of_edition_2() {
    for mode in 0..4 {
        let sheet = example([2, 2], mode);
        for length in 1..=sheet.len() {
            assert_eq!(handed_in_edition_1(&sheet[..length]), refused(12));
        }
    }
    assert_eq!(handed_in_edition_1(&[]), refused(11));
}

/// On a sheet of edition 1 both readers hand the same over, and the axes are extended.
#[test]
fn edition_1_is_read_as_before() {
    let sheet = include_bytes!("../../../tests/sheet_by_hand/two_axes.sheet");
    for length in 1..=sheet.len() {
        let cut = &sheet[..length];
        assert_eq!(handed(cut), handed_in_edition_1(cut));
    }
    assert_eq!((handed(sheet).refusal, handed(sheet).edition), (0, 1));
}

/// The tensor does not know the modes; a sheet that only the build refuses is handed over.
#[test]
fn a_tensor_of_either_edition() {
    let tensor_of = |sheet: &[u8]| {
        let mut tensor = vec![FILL; LONGEST_TENSOR];
        let (mut modes, mut edition, mut length) = ([9; 4], [9], [9]);
        let refusal = sheet_tensor(
            sheet,
            &mut [FILL; BUFFER],
            &mut [FILL; BUFFER],
            &mut [9],
            &mut [9; 4],
            &mut [9; 8],
            &mut [9.0; 8],
            &mut modes,
            &mut edition,
            &mut tensor,
            &mut [FILL; LONGEST_TENSOR + CURVE_SCRATCH],
            &mut length,
        );
        let numbers = tensor[..4].to_vec();
        (refusal, modes, edition[0], length[0], numbers)
    };
    for mode in 0..3 {
        let expected = (0, [mode as u8, 0, 0, 0], 2, 4, vec![0.0, 1.0, 1.0, 1.0]);
        assert_eq!(tensor_of(&example([2, 2], mode)), expected);
    }
    let refused = tensor_of(&example([0, 0], 2));
    assert_eq!(refused, (9, [2, 0, 0, 0], 2, 0, vec![FILL; 4]));
    let refused = tensor_of(&example([0, 0], 3));
    assert_eq!(refused, (22, [0; 4], 0, 0, vec![FILL; 4]));
}
