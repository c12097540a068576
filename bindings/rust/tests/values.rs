//! What calls leave, worked out by hand, why files and calls are refused, and texts.

use sblog::*;

const ALONE: Who = Who { me: 1, from: 0, count: 1 };

fn file(name: &str) -> Vec<u8> {
    std::fs::read(format!("{}/../../examples/{name}", env!("CARGO_MANIFEST_DIR"))).unwrap()
}

fn message(word: u8) -> [u8; 64] {
    std::array::from_fn(|at| if at == 0 { word } else { 0 })
}

#[test]
fn an_adder_adds() {
    let mut adder = Image::open(&file("adder.sbi")).unwrap();
    let mut state = vec![0; adder.state_len()];
    let reports = adder.run(&mut state, &[message(5), message(7)], ALONE).unwrap();
    assert_eq!(state, 12u64.to_le_bytes());
    assert_eq!(reports, vec![Report { r0: 0, steps: 6, sends: vec![], outputs: vec![] }; 2]);
    assert_eq!(adder.compile().unwrap(), file("native/adder.bin"));
}

#[test]
fn a_relay_sends_and_an_echo_gives() {
    let run = |name, who| Image::open(&file(name)).unwrap().run(&mut [], &[message(9)], who).unwrap().remove(0);
    let sent = run("relay.sbi", Who { count: 2, ..ALONE });
    assert_eq!((sent.sends, sent.outputs), (vec![(2, message(9))], vec![]));
    let given = run("echo.sbi", ALONE);
    assert_eq!((given.sends, given.outputs), (vec![], vec![message(9)]));
}

#[test]
fn files_and_calls_are_refused() {
    let fault = |rule, slot| Fault { rule, slot };
    let mut adder = file("adder.sbi");
    adder[48] = 0xb7; // the last instruction is a move
    let error = Image::open(&adder).unwrap_err();
    assert_eq!((error, error.code()), (ImageError::Rules(fault(2, 5)), 4));
    assert_eq!(error.to_string(), "a rule of the verifier, V1 to V10 (rule 2, slot 5)");
    adder[8] = 0xff; // no opcode
    assert_eq!(Image::open(&adder).unwrap_err(), ImageError::Code(fault(2, 0)));
    adder[3] = b'4';
    assert_eq!(Image::open(&adder).unwrap_err(), ImageError::Header(fault(2, 0)));
    let mut adder = Image::open(&file("adder.sbi")).unwrap();
    assert_eq!(adder.run(&mut [0; 9], &[], ALONE).unwrap_err(), ImageError::State);
    assert_eq!(adder.run(&mut [0; 8], &[], Who { from: 1, ..ALONE }).unwrap_err(), ImageError::Who);
    let mut sized = Image::open(&file("c/sized.sbi")).unwrap();
    assert_eq!(sized.run(&mut [0; 8], &[], ALONE).unwrap_err(), ImageError::Form);
}

#[test]
fn a_session_tells_what_happened() {
    let mut session = Session::open(&[file("adder.sbi")]).unwrap();
    session.input(1, 9, &[7, 7]).unwrap();
    assert_eq!(session.trace().unwrap(), "000001 w0 input 1 9 -> logged 1\n");
    let entry = session.entries(0).unwrap()[0];
    assert_eq!((entry.call(), entry.call_numbers, entry.payload()), (Call::Input, [1, 9, 0], &[7, 7][..]));
    assert_eq!((entry.answer(), entry.answer_numbers), (Answer::Logged, [1, 0]));
    for _ in 0..2 {
        session.drive(100).unwrap();
        assert_eq!(session.state(1).unwrap(), 0x707u64.to_le_bytes());
        session.crash(1).unwrap();
        session.recover(1).unwrap();
    }
    assert_eq!(session.refused(1, 1), 0);
    let mut session = Session::open(&[file("relay.sbi"), file("echo.sbi")]).unwrap();
    session.input(1, 1, &[7]).unwrap();
    session.drive(100).unwrap();
    assert_eq!(session.shown(0).unwrap(), Some(Shown { sender: 2, ssn: 1, payload: message(7).to_vec() }));
    let error = Session::open(&vec![file("adder.sbi"); 16]).unwrap_err();
    assert_eq!(error.to_string(), "there is no such process; to open one, 1 to 15 files");
}

/// The counter's call by the word 5, made by hand: it adds 5 to its state, and gives the sum as an output.
#[test]
fn a_host_makes_the_call_of_a_node() {
    let (mut gateway, counter) = (Gateway::open(1, 60_000, 8).unwrap(), file("node/counter.sbi"));
    let mut node = Node::open(&counter, 1, 1, Limits::default()).unwrap();
    gateway.input(1, &[5]).unwrap();
    node.receive(&gateway.take().unwrap().unwrap().bytes).unwrap();
    let job = node.job().unwrap().unwrap();
    let Job { incarnation, received, me, from, count, ref array, .. } = job;
    assert_eq!((incarnation, received, me, from, count, array[0]), (1, 0, 1, 0, 1, 5));
    let mut record = vec![0; 4416];
    for (at, word) in [(8, 1), (16, 9), (24, 1), (40, 1), (2248, 64), (2256, 5)] {
        record[at] = word;
    }
    assert_eq!(node.done(&job, &record[1..]), Err(NodeError::Left));
    assert_eq!(node.done(&Job { incarnation: 2, ..job.clone() }, &record), Err(NodeError::Unready));
    let mut worked = job.clone();
    worked.array[256] = 5;
    node.done(&worked, &record).unwrap();
    assert_eq!(node.done(&worked, &record), Err(NodeError::Absent));
    assert_eq!(node.state().unwrap(), 5u64.to_le_bytes());
    gateway.receive(&node.take().unwrap().unwrap().bytes).unwrap();
    node.receive(&gateway.take().unwrap().unwrap().bytes).unwrap();
    assert_eq!(node.take().unwrap(), None); // it is durable: the output waits for a checkpoint
    node.checkpoint().unwrap();
    node.saved().unwrap();
    let bundle = node.take_all(1).unwrap().unwrap(); // a longer packet comes alone
    assert_eq!(gateway.receive_all(&bundle.bytes), Ok(Tally { taken: 1, refused: 0, lost: 0 }));
    assert_eq!(gateway.output().unwrap(), Some(Output { process: 1, ssn: 1, payload: message(5).to_vec() }));
}

#[test]
fn a_node_opens_with_a_state() {
    let (counter, five) = (file("node/counter.sbi"), 5u64.to_le_bytes());
    let open = |state: &[u8]| Node::open_with(&counter, 1, 1, Limits::default(), state);
    assert_eq!(open(&five).unwrap().state().unwrap(), five);
    assert_eq!(open(&five[1..]).unwrap_err(), NodeError::Bytes(9));
}

#[test]
fn versions_are_the_same() {
    assert_eq!(version(), env!("CARGO_PKG_VERSION"));
}
