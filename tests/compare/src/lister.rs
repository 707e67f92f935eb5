//! The lister in this process: its own main, which `tools/native` has made read, write and seek through the functions here.

use std::cell::RefCell;

extern "C" {
    fn lister_main() -> i32;
}

/// Standard input and output of the lister that runs on this thread.
#[derive(Default)]
struct Ends {
    input: Vec<u8>,
    /// How much of the input was read.
    at: usize,
    output: Vec<u8>,
    /// The most bytes that one read or write moves.
    most: usize,
}

thread_local! {
    static ENDS: RefCell<Ends> = RefCell::default();
}

#[no_mangle]
extern "C" fn lister_read(descriptor: i32, to: *mut u8, length: usize) -> isize {
    if descriptor != 0 {
        return -1;
    }
    ENDS.with_borrow_mut(|ends| {
        let rest = &ends.input[ends.at..];
        let moved = rest.len().min(length).min(ends.most);
        // SAFETY: the lister lends so many bytes.
        unsafe { to.copy_from_nonoverlapping(rest.as_ptr(), moved) };
        ends.at += moved;
        moved as isize
    })
}

#[no_mangle]
extern "C" fn lister_write(descriptor: i32, from: *const u8, length: usize) -> isize {
    if descriptor != 1 {
        return -1;
    }
    ENDS.with_borrow_mut(|ends| {
        let moved = length.min(ends.most);
        // SAFETY: as above.
        let bytes = unsafe { std::slice::from_raw_parts(from, moved) };
        ends.output.extend_from_slice(bytes);
        moved as isize
    })
}

/// Its ends are pipes, in which no place can be sought.
#[no_mangle]
extern "C" fn lister_lseek(_descriptor: i32, _by: i64, _from: i32) -> i64 {
    -1
}

/// What the lister prints of an input; a line more where it does not end well.
pub fn list(input: &[u8], most: usize) -> Vec<u8> {
    ENDS.set(Ends {
        input: input.to_vec(),
        most,
        ..Ends::default()
    });
    // SAFETY: it takes nothing and calls the three functions above alone.
    let status = unsafe { lister_main() };
    let mut output = ENDS.take().output;
    if status != 0 {
        output.extend(format!("exit status {status}\n").bytes());
    }
    output
}
