//! What any program has to do: `floor_copy` reads standard input whole and writes it by one call;
//! `floor_lines` also finds the end and the colon of each line.
use std::io::{Read, Write};
use std::fs::File;
use std::mem::ManuallyDrop;
use std::os::fd::FromRawFd;

unsafe extern "C" {
    fn memchr(at: *const u8, byte: i32, len: usize) -> *const u8;
}

fn find(byte: u8, bytes: &[u8]) -> usize {
    let found = unsafe { memchr(bytes.as_ptr(), byte as i32, bytes.len()) };
    if found.is_null() { bytes.len() } else { found as usize - bytes.as_ptr() as usize }
}

fn main() {
    let mut input = ManuallyDrop::new(unsafe { File::from_raw_fd(0) });
    let mut output = ManuallyDrop::new(unsafe { File::from_raw_fd(1) });
    let mut bytes = Vec::new();
    let mut buffer = [0; 65536];
    loop {
        let count = input.read(&mut buffer).unwrap();
        if count == 0 {
            break;
        }
        bytes.extend_from_slice(&buffer[..count]);
    }
    let mut sum = 0;
    if std::env::args().next().is_some_and(|it| it.ends_with("lines")) {
        let mut rest = &bytes[..];
        while !rest.is_empty() {
            let end = find(b'\n', rest);
            sum += find(b':', &rest[..end]);
            rest = &rest[(end + 1).min(rest.len())..];
        }
    }
    output.write_all(&bytes).unwrap();
    std::hint::black_box(sum);
}
