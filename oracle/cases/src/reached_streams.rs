//! Edges that the generated streams are to reach, and whether a stream reaches one.

use crate::case::Case;
use crate::reached::Edge;

/// How many edges there are.
pub const STREAM_COUNT: usize = 6;

pub const STREAM_EDGES: [Edge; STREAM_COUNT] = [
    Edge {
        name: "a stream of no bytes",
        is_reached: |case, _| length(case) == 0,
    },
    Edge {
        name: "a stream in pieces of one byte",
        is_reached: |case, _| piece(case) == 1 && length(case) > 1,
    },
    Edge {
        name: "a stream in pieces of 2 to 40 bytes",
        is_reached: |case, _| (2..=40).contains(&piece(case)) && length(case) > piece(case),
    },
    Edge {
        name: "a stream of more than 65,536 bytes read to its end",
        is_reached: |case, refusal| refusal == 0 && length(case) > 65_536,
    },
    Edge {
        name: "a stream of more than 65,536 bytes that stops",
        is_reached: |case, refusal| refusal != 0 && length(case) > 65_536,
    },
    Edge {
        name: "a stream of more than 524,288 bytes read to its end",
        is_reached: |case, refusal| refusal == 0 && length(case) > 524_288,
    },
];

fn length(case: &Case) -> usize {
    case.argument("stream").length()
}

/// The bytes of each piece that the stream is given in, 0 where it is given whole.
fn piece(case: &Case) -> usize {
    case.argument("piece").number()
}
