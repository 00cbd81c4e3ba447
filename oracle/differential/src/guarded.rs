//! Slices that stand against a page which may not be touched, in turn at their end and at their
//! start: what reads or writes one item too far on that side ends the run, and the case is named.
//! A slice of no items has in turn the page itself and a null pointer.

use std::cell::{Cell, RefCell};
use std::ffi::{c_int, c_void};
use std::{ptr, slice};

extern "C" {
    fn mmap(
        at: *mut c_void,
        bytes: usize,
        access: c_int,
        how: c_int,
        file: c_int,
        from: i64,
    ) -> *mut c_void;
    fn munmap(at: *mut c_void, bytes: usize) -> c_int;
    fn mprotect(at: *mut c_void, bytes: usize, access: c_int) -> c_int;
    fn signal(number: c_int, handler: extern "C" fn(c_int)) -> usize;
    fn write(file: c_int, from: *const c_void, bytes: usize) -> isize;
    fn _exit(status: c_int) -> !;
}

const NO_ACCESS: c_int = 0;
const READ_AND_WRITE: c_int = 3;
const PRIVATE_AND_OF_NO_FILE: c_int = 0x22;
const SEGMENT_FAULT: c_int = 11;
const BUS_FAULT: c_int = 7;

/// The largest page of any system that this runs on.
const PAGE: usize = 65_536;

/// The bytes that are looked at beyond a slice, on the side that has no page.
const MARGIN: usize = 64;
const MARK: u8 = 0xA5;

/// Memory between two pages that may not be touched.
struct Room {
    start: *mut u8,
    bytes: usize,
}

impl Room {
    /// A room for so many bytes and the margin.
    fn new(bytes: usize) -> Self {
        let bytes = (bytes + MARGIN).next_multiple_of(PAGE);
        // SAFETY: no address is asked for, so nothing that is mapped is replaced.
        let whole = unsafe {
            mmap(
                ptr::null_mut(),
                bytes + 2 * PAGE,
                NO_ACCESS,
                PRIVATE_AND_OF_NO_FILE,
                -1,
                0,
            )
        };
        assert_ne!(whole as isize, -1, "memory can be mapped");
        // SAFETY: the room lies within what was mapped.
        let start = unsafe { whole.cast::<u8>().add(PAGE) };
        let failed = unsafe { mprotect(start.cast(), bytes, READ_AND_WRITE) };
        assert_eq!(failed, 0, "memory can be made accessible");
        Self { start, bytes }
    }
}

impl Drop for Room {
    fn drop(&mut self) {
        // SAFETY: this was mapped by `new`, and nobody has it any more.
        unsafe { munmap(self.start.sub(PAGE).cast(), self.bytes + 2 * PAGE) };
    }
}

/// A slice that was lent: where it stands, its bytes, and what it came from.
struct Lent {
    at: *mut u8,
    bytes: usize,
    from: Origin,
}

/// What a lent slice came from: bytes that are only read, bytes that get what was written, or
/// whole numbers of 32 bits that are held in as many places of a usize each.
enum Origin {
    Read(*const u8),
    Written(*mut u8),
    Narrowed(*mut usize),
}

/// The rooms of a thread, and the slices that are lent in them.
#[derive(Default)]
struct Pages {
    rooms: Vec<Room>,
    lent: Vec<Lent>,
    at_the_start: bool,
}

thread_local! {
    static PAGES: RefCell<Pages> = RefCell::default();
    static TITLE: Cell<([u8; 96], usize)> = const { Cell::new(([0; 96], 0)) };
}

impl Pages {
    /// A place for so many bytes, in a room that nothing else is lent in.
    fn place(&mut self, bytes: usize, from: Origin) -> *mut u8 {
        let number = self.lent.len();
        if number == self.rooms.len() {
            self.rooms.push(Room::new(bytes));
        } else if self.rooms[number].bytes < bytes + MARGIN {
            self.rooms[number] = Room::new(bytes);
        }
        let room = &self.rooms[number];
        let skipped = if self.at_the_start {
            0
        } else {
            room.bytes - bytes
        };
        // SAFETY: the slice and its margin lie in the room.
        let at = unsafe { room.start.add(skipped) };
        unsafe { margin(at, bytes, self.at_the_start).write_bytes(MARK, MARGIN) };
        let is_null = bytes == 0 && self.at_the_start;
        self.lent.push(Lent { at, bytes, from });
        if is_null {
            ptr::null_mut()
        } else {
            at
        }
    }

    /// Hands every slice back; none that is only read has changed, nor anything beside one.
    fn hand_back(&mut self) {
        for Lent { at, bytes, from } in self.lent.drain(..) {
            // SAFETY: both sides are live and have so many bytes.
            let (found, beside) = unsafe {
                let beside = margin(at, bytes, self.at_the_start);
                (
                    slice::from_raw_parts(at, bytes),
                    slice::from_raw_parts(beside, MARGIN),
                )
            };
            assert!(
                beside.iter().all(|byte| *byte == MARK),
                "what is beside a slice was written"
            );
            match from {
                Origin::Read(given) => {
                    let given = unsafe { slice::from_raw_parts(given, bytes) };
                    assert!(found == given, "a slice that is only read was written");
                }
                Origin::Written(given) => unsafe { given.copy_from(at, bytes) },
                Origin::Narrowed(given) => {
                    for (number, word) in found.chunks(4).enumerate() {
                        let word = u32::from_ne_bytes(word.try_into().expect("four bytes"));
                        unsafe { *given.add(number) = word as usize };
                    }
                }
            }
        }
        self.at_the_start = !self.at_the_start;
    }
}

/// Where the margin of a slice begins, on the side that has no page.
unsafe fn margin(at: *mut u8, bytes: usize, at_the_start: bool) -> *mut u8 {
    if at_the_start {
        at.add(bytes)
    } else {
        at.sub(MARGIN)
    }
}

/// A slice as the archive takes it to read: where it begins, and its length.
pub fn lent<T>(slice: &[T]) -> (*const T, usize) {
    let (given, bytes) = (slice.as_ptr().cast::<u8>(), size_of_val(slice));
    let at = PAGES.with_borrow_mut(|pages| pages.place(bytes, Origin::Read(given)));
    // SAFETY: the place has so many bytes and is in another room than anything else.
    unsafe { at.copy_from(given, bytes) };
    (at.cast(), slice.len())
}

/// A slice as the archive takes it to write. It has what was written when it is handed back.
pub fn lent_mut<T>(slice: &mut [T]) -> (*mut T, usize) {
    let (given, bytes) = (slice.as_mut_ptr().cast::<u8>(), size_of_val(slice));
    let at = PAGES.with_borrow_mut(|pages| pages.place(bytes, Origin::Written(given)));
    // SAFETY: as above.
    unsafe { at.copy_from(given, bytes) };
    (at.cast(), slice.len())
}

/// The same of whole numbers that have 32 bits for the archive, with a sign or without.
pub fn lent_narrowed<T>(slice: &mut [usize]) -> (*mut T, usize) {
    assert_eq!(size_of::<T>(), 4);
    let given = slice.as_mut_ptr();
    let at = PAGES.with_borrow_mut(|pages| pages.place(4 * slice.len(), Origin::Narrowed(given)));
    for (number, bits) in slice.iter().enumerate() {
        // SAFETY: the place has four bytes for each number, and begins at a multiple of four.
        unsafe { *at.cast::<u32>().add(number) = *bits as u32 };
    }
    (at.cast(), slice.len())
}

/// Hands all that is lent back, once the call has returned.
pub fn hand_back() {
    PAGES.with_borrow_mut(Pages::hand_back);
}

/// Names the case that comes next, and by its number on which side its first call has the pages.
pub fn begin(title: &str, number: u64) {
    let mut text = ([0; 96], title.len().min(96));
    text.0[..text.1].copy_from_slice(&title.as_bytes()[..text.1]);
    TITLE.set(text);
    PAGES.with_borrow_mut(|pages| pages.at_the_start = number.count_ones() % 2 == 1);
}

/// Has the case named where a page is touched, and where an assertion of this file fails.
pub fn name_the_case_at_a_fault() {
    // SAFETY: the handler does nothing but write and end the process.
    unsafe {
        signal(SEGMENT_FAULT, page_touched);
        signal(BUS_FAULT, page_touched);
    }
    let usual = std::panic::take_hook();
    std::panic::set_hook(Box::new(move |panic| {
        let (title, length) = TITLE.get();
        eprintln!("in {}:", String::from_utf8_lossy(&title[..length]));
        usual(panic);
    }));
}

extern "C" fn page_touched(_: c_int) {
    let (title, length) = TITLE.get();
    let texts: [&[u8]; 3] = [
        b"A PAGE WAS TOUCHED that no slice has, in ",
        &title[..length],
        b"\n",
    ];
    for text in texts {
        // SAFETY: the text is live.
        unsafe { write(2, text.as_ptr().cast(), text.len()) };
    }
    // SAFETY: nothing follows.
    unsafe { _exit(1) }
}

#[cfg(test)]
mod tests {
    use super::*;
    use std::env;
    use std::os::fd::AsRawFd;
    use std::process::Command;

    /// Whether a byte may be read, by the word of the system, which gives an error where it may not.
    fn is_open(at: *const u8) -> bool {
        let (_reader, writer) = std::io::pipe().unwrap();
        // SAFETY: the system looks at the byte, and says so where it may not.
        let taken = unsafe { write(writer.as_raw_fd(), at.cast(), 1) };
        taken == 1
    }

    #[test]
    fn a_slice_has_a_page_at_its_end_and_then_at_its_start() {
        begin("a test", 0);
        let numbers = [1.0, 2.0, 3.0];
        for at_the_start in [false, true] {
            assert_eq!(lent(&numbers[..0]).0.is_null(), at_the_start);
            for length in [3, 1] {
                let (at, items) = lent(&numbers[..length]);
                assert_eq!(items, length);
                assert!(at.is_aligned());
                let (first, behind) = (at.cast::<u8>(), at.wrapping_add(length).cast::<u8>());
                assert_eq!(is_open(behind), at_the_start);
                assert_eq!(is_open(first.wrapping_sub(1)), !at_the_start);
            }
            hand_back();
        }
    }

    /// Runs this test once more in a process of its own, where it touches a page.
    #[test]
    fn a_touched_page_ends_the_run_and_names_the_case() {
        if env::var_os("TOUCH_A_PAGE").is_some() {
            name_the_case_at_a_fault();
            begin("query 7 of seed 1", 0);
            let (at, items) = lent(&[1u8, 2]);
            unsafe { at.add(items).read_volatile() };
            return;
        }
        let name = "guarded::tests::a_touched_page_ends_the_run_and_names_the_case";
        let mut again = Command::new(env::current_exe().unwrap());
        again.args(["--exact", name, "--nocapture"]);
        let done = again.env("TOUCH_A_PAGE", "yes").output().unwrap();
        let said = String::from_utf8_lossy(&done.stderr);
        assert!(said.contains("A PAGE WAS TOUCHED that no slice has, in query 7 of seed 1"));
        assert_eq!(done.status.code(), Some(1));
    }

    #[test]
    fn what_is_written_is_handed_back() {
        let (mut bytes, mut words) = ([1u8, 2, 3], [4usize, 5]);
        for _ in 0..2 {
            let (lent_bytes, lent_words) = (lent_mut(&mut bytes), lent_narrowed::<i32>(&mut words));
            unsafe {
                *lent_bytes.0.add(2) += 1;
                *lent_words.0.add(1) = -1;
            }
            hand_back();
        }
        assert_eq!((bytes, words), ([1, 2, 5], [4, 0xFFFF_FFFF]));
    }

    #[test]
    #[should_panic = "a slice that is only read was written"]
    fn a_write_to_what_is_only_read_is_found() {
        let at = lent(&[7u8, 8]).0.cast_mut();
        unsafe { *at = 9 };
        hand_back();
    }

    #[test]
    #[should_panic = "what is beside a slice was written"]
    fn a_write_beside_a_slice_is_found() {
        begin("a test", 1);
        let at = lent_mut(&mut [7u8, 8]).0;
        unsafe { *at.add(2) = 9 };
        hand_back();
    }
}
