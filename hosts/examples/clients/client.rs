//! Hands COUNT words in for process 1 of a cluster, and prints the words of as many outputs: client SOCKET COUNT. It reconnects, sends
//! again what isn't logged, and drops outputs that it had (docs/FORMATS.md, "Frames of a program").
use std::io::{self, BufReader, Read, Write};
use std::os::unix::net::UnixStream;
use std::{collections::HashMap, env, process, thread, time::Duration};

enum Kind { Input = 1, Logged, Refused, Output, Taken }

const PROCESS: u8 = 1;
const AHEAD: u64 = 256;

fn frame(kind: Kind, process: u8, ssn: u64, payload: &[u8]) -> Vec<u8> {
    let length = 10 + payload.len() as u32;
    [&length.to_le_bytes()[..], &[kind as u8, process], &ssn.to_le_bytes(), payload].concat()
}

/// The SSN before its inputs, how many outputs there were, and the last one of each process.
#[derive(Default)]
struct Progress {
    first: Option<u64>,
    shown: u64,
    had: HashMap<u8, u64>,
}

fn talk(path: &str, count: u64, progress: &mut Progress) -> io::Result<()> {
    let mut out = UnixStream::connect(path)?;
    let (mut file, mut sent, mut head) = (BufReader::new(out.try_clone()?), 0, [0; 14]);
    out.write_all(&[b"SBF1".to_vec(), frame(Kind::Output, 0, 0, &[]), frame(Kind::Logged, PROCESS, 0, &[])].concat())?;
    while progress.shown < count {
        file.read_exact(&mut head)?;
        let (kind, process, ssn) = (head[4], head[5], u64::from_le_bytes(head[6..].try_into().unwrap()));
        let mut payload = vec![0; u32::from_le_bytes(head[..4].try_into().unwrap()) as usize - 10];
        file.read_exact(&mut payload)?;
        if kind == Kind::Refused as u8 {
            process::exit(payload[0].into());
        } else if kind == Kind::Logged as u8 {
            let first = *progress.first.get_or_insert(ssn);
            let last = (first + count).min(ssn + AHEAD);
            let inputs = (sent.max(ssn) + 1..=last).flat_map(|n| frame(Kind::Input, PROCESS, n, &(n - first).to_le_bytes()));
            out.write_all(&inputs.collect::<Vec<u8>>())?;
            sent = sent.max(last);
        } else {
            let had = progress.had.entry(process).or_default();
            if ssn > *had {
                println!("{process} {ssn} {}", u64::from_le_bytes(payload[..8].try_into().unwrap()));
                *had = ssn;
                progress.shown += 1;
            }
            out.write_all(&frame(Kind::Taken, process, ssn, &[]))?;
        }
    }
    Ok(())
}

fn main() {
    let words: Vec<String> = env::args().collect();
    let (count, mut progress) = (words[2].parse().unwrap(), Progress::default());
    while progress.shown < count {
        if talk(&words[1], count, &mut progress).is_err() {
            thread::sleep(Duration::from_millis(20));
        }
    }
}
