// The same message line by Rust's own means, with no checks beyond the form of each number.
use std::fmt::Write;

/// # Safety
/// The pointers hold as many bytes and words as the lengths say, and the bytes are ASCII.
#[no_mangle]
pub unsafe extern "C" fn rust_read(s: *const u8, bytes: usize, out: *mut u32, words: usize) -> usize {
    let text = std::str::from_utf8_unchecked(std::slice::from_raw_parts(s, bytes - 1));
    let out = std::slice::from_raw_parts_mut(out, words);
    let mut n = 0;
    for number in text.split(',') {
        let value = number.parse::<u32>().unwrap();
        if 7 <= n {
            out[n - 7] = value;
        }
        n += 1;
    }
    n - 7
}

/// # Safety
/// The pointers hold as many words and bytes as the lengths say.
#[no_mangle]
pub unsafe extern "C" fn rust_write(q: u32, residues: *const u32, words: usize, out: *mut u8, bytes: usize) -> usize {
    // One buffer for all turns, as a caller would keep it.
    static mut TEXT: String = String::new();
    let text = &mut *std::ptr::addr_of_mut!(TEXT);
    text.clear();
    write!(text, "2,9,4,{q},32,64,32").unwrap();
    for residue in std::slice::from_raw_parts(residues, words) {
        write!(text, ",{residue}").unwrap();
    }
    text.push('\n');
    std::slice::from_raw_parts_mut(out, bytes)[..text.len()].copy_from_slice(text.as_bytes());
    text.len()
}
