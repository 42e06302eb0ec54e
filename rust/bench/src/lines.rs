//! From a listing to PSV lines in this process: by table2psv and by the oracle, which build.rs links in where they are at hand. Both
//! print into the same sink. The listing's file begins with a path line.

#![cfg_attr(not(all(oracle, table2psv)), allow(dead_code))]

use std::io::{Result, Write};

/// Where lines are printed to. They are thrown away; if it is asked for, a number that tells texts apart is kept of all bytes.
#[derive(Default)]
pub struct Sink {
    sum: Option<u64>,
}

impl Write for Sink {
    fn write(&mut self, bytes: &[u8]) -> Result<usize> {
        if let Some(sum) = &mut self.sum {
            for byte in bytes {
                *sum = sum.wrapping_mul(0x0100_0000_01b3).wrapping_add(u64::from(*byte) + 1);
            }
        }
        Ok(bytes.len())
    }

    fn flush(&mut self) -> Result<()> {
        Ok(())
    }
}

/// Runs a program of which `run` is the main. The answer is the sum, or 0 if it is not asked for.
pub fn print(summed: bool, run: impl Fn(&mut Sink) -> Result<()>) -> Result<u64> {
    let mut sink = Sink { sum: summed.then_some(0) };
    run(&mut sink)?;
    Ok(sink.sum.unwrap_or(0))
}

/// table2psv: its main is called, and it calls the read, write and lseek that stand here in place of the C library's.
#[cfg(table2psv)]
pub mod table2psv {
    use super::Sink;
    use std::cell::RefCell;
    use std::fs::File;
    use std::io::{Read, Result, Write};
    use std::path::Path;
    use std::{mem, slice};

    extern "C" {
        fn table2psv_main() -> i32;
    }

    thread_local! {
        /// Its standard input and output.
        static ENDS: RefCell<Option<(File, Sink)>> = const { RefCell::new(None) };
    }

    pub fn run(file: &Path, out: &mut Sink) -> Result<()> {
        ENDS.set(Some((File::open(file)?, mem::take(out))));
        // It takes nothing and changes nothing but its own locals and, through the two calls below, the ends.
        unsafe { table2psv_main() };
        if let Some((_, sink)) = ENDS.take() {
            *out = sink;
        }
        Ok(())
    }

    /// table2psv takes a read or write that fails for the end. Here it ends the bench, as any panic does under a call from C.
    fn with_ends(f: impl FnOnce(&mut File, &mut Sink) -> Result<usize>) -> isize {
        ENDS.with_borrow_mut(|ends| {
            let (input, output) = ends.as_mut().expect("table2psv runs only in run");
            f(input, output).expect("the listing is read and the lines are printed") as isize
        })
    }

    #[no_mangle]
    unsafe extern "C" fn table2psv_read(_: i32, bytes: *mut u8, len: usize) -> isize {
        // table2psv lends a slice of an array of its own.
        let bytes = unsafe { slice::from_raw_parts_mut(bytes, len) };
        with_ends(|input, _| input.read(bytes))
    }

    #[no_mangle]
    unsafe extern "C" fn table2psv_write(_: i32, bytes: *const u8, len: usize) -> isize {
        let bytes = unsafe { slice::from_raw_parts(bytes, len) };
        with_ends(|_, output| output.write(bytes))
    }

    /// It is told that its input cannot be sought in, as that of a pipe.
    #[no_mangle]
    extern "C" fn table2psv_lseek(_: i32, _: i64, _: i32) -> i64 {
        -1
    }
}
