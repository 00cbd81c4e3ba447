//! What is printed of sheets.

/// What the sheet program prints of each sheet of a list, where it stands after its length in two bytes.
pub fn tensors(mut list: &[u8]) -> String {
    let mut text = String::new();
    while let Some((length, behind)) = list.split_first_chunk() {
        let (sheet, further) = behind.split_at(usize::from(u16::from_be_bytes(*length)));
        text += &reading::sheet_text(sheet);
        list = further;
    }
    text
}
