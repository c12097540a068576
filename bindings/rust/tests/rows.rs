//! Drives the worked rows, which `bindings/rows.py` prints, and bindings/run puts into the file that SBLOG_ROWS names.

use sblog::*;
use std::error::Error;

/// A code, numbers and bytes.
type Answer = (u32, Vec<u64>, Vec<u8>);
type Told = Result<Answer, Box<dyn Error>>;

struct Row {
    line: String,
    words: Vec<String>,
    want: Answer,
}

fn bytes(word: &str) -> Vec<u8> {
    (1..word.len()).step_by(2).map(|at| u8::from_str_radix(&word[at..at + 2], 16).unwrap()).collect()
}

impl Row {
    fn of(line: &str) -> Row {
        let (call, answer) = line.split_once(" = ").unwrap();
        let (told, written) = answer.rsplit_once(' ').unwrap();
        let told: Vec<u64> = told.split(' ').map(|it| it.parse().unwrap()).collect();
        let words = call.split(' ').skip(1).map(String::from).collect();
        Row { line: line.into(), words, want: (told[0] as u32, told[1..].to_vec(), bytes(written)) }
    }

    fn number<T: TryFrom<u64, Error: std::fmt::Debug>>(&self, at: usize) -> T {
        self.words[at].parse::<u64>().unwrap().try_into().unwrap()
    }

    fn bytes(&self, at: usize) -> Vec<u8> {
        bytes(&self.words[at])
    }

    /// Makes the call, and compares what it told.
    fn check<T>(&self, value: &mut Option<T>, call: &mut impl FnMut(&mut Option<T>, &Row) -> Told) -> usize {
        let found = call(value, self).unwrap_or_else(|error| refusal(&*error));
        assert_eq!(found, self.want, "{}", self.line);
        1
    }
}

/// Drives the tables of one kind, each on a value of its own; a row about a closed one can't be asked.
fn drive<T>(kind: &str, mut call: impl FnMut(&mut Option<T>, &Row) -> Told) {
    let file = std::env::var("SBLOG_ROWS").expect("bindings/run names the rows in SBLOG_ROWS");
    let (mut table, mut value, mut driven) = (String::new(), None, 0);
    for line in std::fs::read_to_string(file).unwrap().lines().filter(|it| it.starts_with(kind)) {
        let (name, row) = (line.split(' ').next().unwrap(), Row::of(line));
        if name != table {
            (table, value) = (name.to_string(), None);
        }
        match row.words[0].as_str() {
            "close" => value = None,
            "open" | "revive" | "resume" | "packet_label" => driven += row.check(&mut value, &mut call),
            _ if value.is_some() => driven += row.check(&mut value, &mut call),
            _ => assert!(row.want.0 == 16 || row.want.0 == 18, "{line}"),
        }
    }
    println!("{driven} rows of {kind}");
    assert!(driven > 10);
}

/// What a refusal tells; 20 if there is none, which the crate tells by `None` and false. Fault 0 is none that the library wrote.
fn refusal(error: &(dyn Error + 'static)) -> Answer {
    let told = |code, fault: Option<u32>| (code, fault.into_iter().map(u64::from).collect(), vec![]);
    if let Some(error) = error.downcast_ref::<SessionError>() {
        return told(error.code(), None);
    }
    match (error.downcast_ref(), error.downcast_ref()) {
        (Some(GatewayError::Bytes(fault)), _) | (_, Some(NodeError::Bytes(fault))) => told(21, Some(*fault).filter(|it| *it != 0)),
        (Some(error), _) => told(error.code(), None),
        (_, Some(error)) => told(error.code(), None),
        _ => told(20, None),
    }
}

fn numbers<const N: usize>(numbers: [u64; N]) -> Told {
    Ok((0, numbers.to_vec(), vec![]))
}

fn number(number: impl TryInto<u64, Error: std::fmt::Debug>) -> Told {
    numbers([number.try_into().unwrap()])
}

fn given(bytes: Vec<u8>) -> Told {
    Ok((0, vec![], bytes))
}

/// A packet or an output with its numbers, if there is one.
fn sent(given: Option<(Vec<u64>, Vec<u8>)>) -> Told {
    given.map(|(numbers, bytes)| (0, numbers, bytes)).ok_or("there is none".into())
}

/// A bundle by its receiver, its count, its size and its first three bytes.
fn bundled(bundle: Option<Bundle>) -> Told {
    sent(bundle.map(|it| (vec![it.to.into(), it.count, it.bytes.len() as u64], it.bytes[..3].to_vec())))
}

fn tallied(Tally { taken, refused, lost }: Tally) -> Told {
    numbers([taken, refused, lost])
}

fn entry(entry: Option<&Entry>) -> Told {
    number(entry.map(|it| 100 * it.call() as u64 + it.answer() as u64).ok_or("there is none")?)
}

#[test]
fn sessions() {
    drive("session.", |session, row| match row.words[0].as_str() {
        "open" => {
            let files: Vec<Vec<u8>> = (1..row.words.len()).map(|at| row.bytes(at)).collect();
            *session = Some(Session::open(&files)?);
            numbers([])
        }
        call => session_call(session.as_mut().unwrap(), call, row),
    });
}

fn session_call(it: &mut Session, call: &str, row: &Row) -> Told {
    match call {
        "input" => number(it.input(row.number(1), row.number(2), &row.bytes(3))?),
        "drive" => it.drive(row.number(1)).map_err(Into::into).map(|it| (12 * u32::from(it.is_stopped), vec![it.accepted.into()], vec![])),
        "transmit" => number(it.transmit(row.number(1), row.number(2), row.number(3))?),
        "copy" => number(it.copy(row.number(1))?),
        "lose" => it.lose(row.number(1)).map_err(Into::into).and_then(|()| numbers([])),
        "arrive" => entry(Some(&it.arrive(row.number(1))?)),
        "checkpoint" => number(it.checkpoint(row.number(1))?),
        "trim" => number(it.trim(row.number(1))?),
        "crash" => number(it.crash(row.number(1))?),
        "recover" => number(it.recover(row.number(1))?),
        "alone" => number(it.recover_alone(row.number(1))?),
        "fill" => {
            while it.room()? > row.number(1) {
                it.trim(0)?;
            }
            number(it.room()?)
        }
        call => session_reading(it, call, row),
    }
}

fn session_reading(it: &Session, call: &str, row: &Row) -> Told {
    match call {
        "standing" => it.standing(row.number(1)).map_err(Into::into).and_then(|(length, phase)| number(length + 100 * phase as u32)),
        "state" => number(it.state(row.number(1))?.len()),
        "saved" => number(it.saved(row.number(1))?.len()),
        "shown" => number(it.shown(row.number(1))?.ok_or("there is none")?.payload.len()),
        "exact" => number(u32::from(it.exact()?)),
        "trace" => number(it.trace()?.len()),
        "room" => number(it.room()?),
        "journal" => number(it.journal()?),
        "entry" => entry(it.entries(row.number(1))?.first()),
        "entries" => number(it.entries(row.number(1))?.len().min(row.number(2))),
        call => panic!("{call}"),
    }
}

#[test]
fn gateways() {
    drive("gateway.", |gateway, row| {
        match row.words[0].as_str() {
            "open" => *gateway = Some(Gateway::open(row.number(1), row.number(2), row.number(3))?),
            "revive" => *gateway = Some(Gateway::revive(&row.bytes(1), row.number(2), 8)?),
            call => return gateway_call(gateway.as_mut().unwrap(), call, row),
        }
        numbers([])
    });
}

fn gateway_call(it: &mut Gateway, call: &str, row: &Row) -> Told {
    match call {
        "apply" => it.apply(&row.bytes(1))?,
        "receive" => it.receive(&row.bytes(1))?,
        "tick" => it.tick()?,
        "input" => return number(it.input(row.number(1), &row.bytes(2))?),
        "receive_all" => return tallied(it.receive_all(&row.bytes(1))?),
        "take" => return sent(it.take()?.map(|it| (vec![it.to.into()], it.bytes))),
        "take_all" => return bundled(it.take_all(row.number(1))?),
        "output" => return sent(it.output()?.map(|it| (vec![it.process.into(), it.ssn], it.payload))),
        "store" => return given(it.store()?),
        "changes" => return given(it.changes()?),
        call => panic!("{call}"),
    }
    numbers([])
}

#[test]
fn nodes() {
    let limits = |row: &Row, at| {
        let [page, tick, numbers, receipts, durable]: [u32; 5] = std::array::from_fn(|place| row.number(at + place));
        Limits { page, tick, numbers, receipts, is_durable: durable == 1 }
    };
    drive("node.", |node, row| {
        match row.words[0].as_str() {
            "open" => *node = Some(Node::open(&row.bytes(1), row.number(2), row.number(3), limits(row, 4))?),
            "revive" => *node = Some(Node::revive(&row.bytes(1), &row.bytes(2), row.number(3), limits(row, 4))?),
            "resume" => *node = Some(Node::resume(&row.bytes(1), &row.bytes(2), limits(row, 3))?),
            "packet_label" => {
                let Label { kind, from, to, ssn, number } = packet_label(&row.bytes(1))?;
                return numbers([kind as u64, from, to, ssn, number]);
            }
            call => return node_call(node.as_mut().unwrap(), call, row),
        }
        numbers([])
    });
}

fn node_call(it: &mut Node, call: &str, row: &Row) -> Told {
    match call {
        "receive" => it.receive(&row.bytes(1))?,
        "tick" => it.tick()?,
        "saved" => it.saved()?,
        "work" => {
            assert_eq!(it.job()?.is_some(), row.want.0 == 0, "{}", row.line);
            return sent(it.work()?.then_some((vec![], vec![])));
        }
        "receive_all" => return tallied(it.receive_all(&row.bytes(1))?),
        "take" => return sent(it.take()?.map(|it| (vec![it.to.into()], it.bytes))),
        "take_all" => return bundled(it.take_all(row.number(1))?),
        "checkpoint" => return given(it.checkpoint()?),
        "suspend" => return given(it.suspend()?),
        "state" => return given(it.state()?),
        "standing" => {
            let Standing { length, base, incarnation, stage, is_exact, receipts, entries, packets, replays, waited_for } = it.standing()?;
            return numbers([length, base, incarnation, stage as u64, is_exact.into(), receipts, entries, packets, replays, waited_for]);
        }
        call => panic!("{call}"),
    }
    numbers([])
}
