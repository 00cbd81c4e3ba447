//! Curves of the device, walked by the cursor from its start until it refuses.

/// The bytes of cells: p0, p1, d0, d1 of each.
fn bytes(cells: &[[i32; 4]]) -> Vec<u8> {
    let numbers = cells.iter().flatten();
    numbers.flat_map(|number| number.to_le_bytes()).collect()
}

/// A line for each value, and one for the refusal.
fn walk(name: &str, curve: &[u8]) -> String {
    let (mut cursor, mut value) = ([0], [0]);
    let mut text = format!("{name}\n");
    loop {
        match reading::cursor_next(curve, &mut cursor, &mut value) {
            0 => text += &format!("{}\n", value[0]),
            refusal => return text + &format!("refused {refusal}\n"),
        }
    }
}

pub fn walks() -> String {
    let steep = [1, -2, 256, -131_072];
    let out_of_range = bytes(&[steep, [32_768, 0, 0, 0]]);
    [
        walk("halves", &bytes(&[[0, 1, 0, 0], [0, -1, 0, 0]])),
        walk("steep", &bytes(&[steep])),
        walk("out of range", &out_of_range),
        walk("no whole cells", &out_of_range[..31]),
    ]
    .concat()
}
