//! Judges the model on standard input through the archive `libtill_c.a`. Ends as the script `till` does: with 0 for
//! passed, 1 for refused, 2 for a text that is not read, 3 for a failure, where it gives no verdict.
use std::io::{self, Read, Write};
use std::process::ExitCode;

#[repr(C)]
struct TillAnswer {
    number: u64,
    place: u64,
    count: u64,
    first: u64,
    second: u64,
    #[allow(dead_code)] // neither Read nor Judge tells a third value
    third: u64,
}

extern "C" {
    fn till_read(text: *const u8, text_len: usize, store: *mut u16, store_len: usize)
        -> TillAnswer;
    fn till_judge(
        store: *const u16,
        store_len: usize,
        distances: *mut u16,
        distances_len: usize,
        table: *mut u8,
        table_len: usize,
    ) -> TillAnswer;
}

fn read(text: &[u8], store: &mut [u16]) -> TillAnswer {
    unsafe { till_read(text.as_ptr(), text.len(), store.as_mut_ptr(), store.len()) }
}

fn judge(store: &[u16], distances: &mut [u16], table: &mut [u8]) -> TillAnswer {
    unsafe {
        till_judge(
            store.as_ptr(),
            store.len(),
            distances.as_mut_ptr(),
            distances.len(),
            table.as_mut_ptr(),
            table.len(),
        )
    }
}

/// What is said of a text, and the status.
fn told(text: &[u8]) -> io::Result<(String, u8)> {
    let mut store = [0; 4_100];
    let answer = read(text, &mut store);
    if answer.number != 0 {
        let (number, place) = (answer.number, answer.place);
        return Ok((format!("not read: number {number}, place {place}"), 2));
    }
    let answer = judge(&store, &mut [0; 128], &mut [0; 16_384]);
    let (first, second) = (answer.first, answer.second);
    match (answer.number, answer.count) {
        (0, 1) => Ok((format!("passed, rank {first}"), 0)),
        (0, 2..) => Ok((format!("refused at step {first}, depth {second}"), 1)),
        _ => Err(io::Error::other("no verdict")),
    }
}

fn tell() -> io::Result<u8> {
    let mut text = Vec::new();
    // One byte more than a text may have, so that a longer text is told from the longest.
    io::stdin().take(16_385).read_to_end(&mut text)?;
    let (line, status) = told(&text)?;
    let mut out = io::stdout();
    writeln!(out, "{line}")?;
    out.flush()?;
    Ok(status)
}

fn main() -> ExitCode {
    let status = tell().unwrap_or_else(|error| {
        eprintln!("judge: {error}");
        3
    });
    ExitCode::from(status)
}
