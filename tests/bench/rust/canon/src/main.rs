//! The program: standard input to standard output.

use std::fs::File;
use std::mem::ManuallyDrop;
use std::os::fd::FromRawFd;
use std::process::ExitCode;

fn main() -> ExitCode {
    // A full map panics: see `filled`.
    std::panic::set_hook(Box::new(|_| ()));
    // The descriptors themselves, without the buffers of `std::io`.
    let mut input = ManuallyDrop::new(unsafe { File::from_raw_fd(0) });
    let mut output = ManuallyDrop::new(unsafe { File::from_raw_fd(1) });
    let answer = canon::run(&mut *input, &mut *output);
    ExitCode::from(canon::exit_status(&answer))
}
