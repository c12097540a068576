//! A counter that outlives its process: `service.c` in Rust.

use sblog::{Session, SessionError};
use std::error::Error;
use std::io::{self, BufRead};

const ADDER: &[u8] = include_bytes!("../adder.sbi");

/// More calls than one command leads to.
const BUDGET: u32 = 1000;

/// Hands a number in, has it received, and reads the total.
fn add(session: &mut Session, feed: u32, value: u64) -> Result<u64, Box<dyn Error>> {
    session.input(1, feed, &value.to_le_bytes())?;
    session.drive(BUDGET)?;
    Ok(u64::from_le_bytes(session.state(1)?[..8].try_into()?))
}

/// Loses the process, and brings it back.
fn lose(session: &mut Session) -> Result<(), SessionError> {
    session.crash(1)?;
    let kept = session.recover(1)?;
    session.drive(BUDGET * (kept + 1))?;
    Ok(())
}

fn main() -> Result<(), Box<dyn Error>> {
    let every: u32 = std::env::args().nth(1).map_or(Ok(0), |word| word.parse())?;
    let mut session = Session::open(&[ADDER])?;
    for (command, line) in (1..).zip(io::stdin().lock().lines()) {
        match line?.split_once(' ') {
            Some(("add", number)) => {
                let value = number.trim().parse().unwrap_or(0);
                println!("total {}", add(&mut session, command, value)?);
            }
            _ => print!("{}", session.trace()?),
        }
        if every > 0 && command % every == 0 {
            lose(&mut session)?;
        }
    }
    println!("{}", if session.exact()? { "exact" } else { "not exact" });
    Ok(())
}
