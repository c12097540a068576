//! Opens an image that adds numbers, and calls its handler: `adder.c` in Rust.

use sblog::{Image, Who};
use std::error::Error;

const ADDER: &[u8] = include_bytes!("../adder.sbi");

/// Calls the handler by each word of the command line: process 1 of 1 is called by the outside.
fn main() -> Result<(), Box<dyn Error>> {
    let mut handler = Image::open(ADDER)?;
    let mut state = vec![0; handler.state_len()];
    for word in std::env::args().skip(1) {
        let mut message = [0; 64];
        message[..8].copy_from_slice(&word.parse::<u64>()?.to_le_bytes());
        for report in handler.run(&mut state, &[message], Who { me: 1, from: 0, count: 1 })? {
            let sum = u64::from_le_bytes(state[..8].try_into()?);
            println!("state {sum}, r0 {}, {} instructions", report.r0, report.steps);
        }
    }
    Ok(())
}
