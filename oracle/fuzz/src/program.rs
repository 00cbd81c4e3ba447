//! Our programs in this process: each is linked under a name of its own, and reads and writes here.

use std::cell::RefCell;
use std::ffi::{c_int, c_void};
use std::{mem, slice};

extern "C" {
    fn sheet_tensor_main() -> c_int;
    fn sheet_report_main() -> c_int;
    fn device_curve_main() -> c_int;
}

/// What is left of the input of a program, how much of it a read gets at most, and what was printed.
#[derive(Default)]
struct Streams {
    input: Vec<u8>,
    taken: usize,
    piece: usize,
    printed: Vec<u8>,
}

thread_local! {
    static STREAMS: RefCell<Streams> = RefCell::default();
}

/// What a program prints of an input. Where pieces have a size, no read gets more than one.
pub fn printed(name: &str, input: &[u8], piece: usize) -> Vec<u8> {
    STREAMS.set(Streams {
        input: input.to_vec(),
        piece: if piece == 0 { usize::MAX } else { piece },
        ..Streams::default()
    });
    // SAFETY: a program takes nothing, and calls nothing but the two functions below.
    let status = unsafe {
        match name {
            "sheet_tensor" => sheet_tensor_main(),
            "sheet_report" => sheet_report_main(),
            "device_curve" => device_curve_main(),
            other => panic!("{other} is no program"),
        }
    };
    assert_eq!(status, 0);
    STREAMS.with_borrow_mut(|streams| mem::take(&mut streams.printed))
}

/// What the programs read by.
///
/// # Safety
/// The room is live, and has so many bytes.
#[no_mangle]
unsafe extern "C" fn program_read(file: c_int, room: *mut c_void, bytes: usize) -> isize {
    assert_eq!(file, 0);
    STREAMS.with_borrow_mut(|streams| {
        let rest = &streams.input[streams.taken..];
        let given = &rest[..rest.len().min(bytes).min(streams.piece)];
        room.cast::<u8>().copy_from(given.as_ptr(), given.len());
        streams.taken += given.len();
        given.len() as isize
    })
}

/// What they write by.
///
/// # Safety
/// The text is live, and has so many bytes.
#[no_mangle]
unsafe extern "C" fn program_write(file: c_int, text: *const c_void, bytes: usize) -> isize {
    assert_eq!(file, 1);
    let text = slice::from_raw_parts(text.cast::<u8>(), bytes);
    STREAMS.with_borrow_mut(|streams| streams.printed.extend_from_slice(text));
    bytes as isize
}
