//! What a handler call costs: nanoseconds an instruction of the proved interpreter, beside those of
//! a plain loop over the same instructions that tests nothing and promises nothing.

mod image;
mod plain;

use image::{Insn, Size, file_of};
use std::hint::black_box;
use std::ptr::null_mut;
use std::time::Instant;

/// What a handle points to.
#[repr(C)]
struct Opaque {
    _byte: u8,
}

unsafe extern "C" {
    fn sblog_open(file: *const u8, file_len: usize, handle: *mut *mut Opaque) -> u32;

    fn sblog_run(
        handle: *mut Opaque,
        state: *mut u8,
        state_len: usize,
        messages: *const u8,
        messages_len: usize,
        me: u8,
        from: u8,
        count: u8,
        reports: *mut u8,
        reports_len: usize,
    ) -> u32;

    fn sblog_close(handle: *mut Opaque);

    fn sblog_check(file: *const u8, file_len: usize, fault: *mut u8, fault_len: usize) -> u32;

    fn sblog_call_many(
        file: *const u8,
        file_len: usize,
        state: *mut u8,
        state_len: usize,
        messages: *const u8,
        messages_len: usize,
        me: u8,
        from: u8,
        count: u8,
        reports: *mut u8,
        reports_len: usize,
    ) -> u32;
}

const STATE: usize = 256;
const MESSAGES: usize = 1000;
const ROUNDS: usize = 1000;

fn check(file: &[u8]) -> u32 {
    let mut fault = [0u8; 16];
    unsafe { sblog_check(file.as_ptr(), file.len(), fault.as_mut_ptr(), fault.len()) }
}

fn call_many(file: &[u8], state: &mut [u8], messages: &[u8], reports: &mut [u8]) -> u32 {
    unsafe {
        sblog_call_many(
            file.as_ptr(),
            file.len(),
            state.as_mut_ptr(),
            state.len(),
            messages.as_ptr(),
            messages.len(),
            1,
            0,
            2,
            reports.as_mut_ptr(),
            reports.len(),
        )
    }
}

fn opened(file: &[u8]) -> *mut Opaque {
    let mut handle = null_mut();
    assert_eq!(
        unsafe { sblog_open(file.as_ptr(), file.len(), &mut handle) },
        0
    );
    handle
}

fn run(handle: *mut Opaque, state: &mut [u8], messages: &[u8], reports: &mut [u8]) -> u32 {
    unsafe {
        sblog_run(
            handle,
            state.as_mut_ptr(),
            state.len(),
            messages.as_ptr(),
            messages.len(),
            1,
            0,
            2,
            reports.as_mut_ptr(),
            reports.len(),
        )
    }
}

/// The shortest of some runs, in nanoseconds, and their mean.
fn timed(rounds: usize, mut run: impl FnMut()) -> (f64, f64) {
    let mut least = f64::MAX;
    let mut sum = 0.0;
    for _ in 0..rounds {
        let start = Instant::now();
        run();
        let nanos = start.elapsed().as_nanos() as f64;
        least = least.min(nanos);
        sum += nanos;
    }
    (least, sum / rounds as f64)
}

fn messages() -> Vec<u8> {
    (0..MESSAGES * 64).map(|i| (i * 7 + i / 64) as u8).collect()
}

/// Calls the handler a million times each way, and prints nanoseconds an instruction.
fn measure(name: &str, code: &[Insn]) {
    let file = file_of(STATE as u16, code);
    let messages = messages();
    let mut reports = vec![0u8; MESSAGES * 1064];

    // both leave the same
    let mut state = vec![0u8; STATE];
    assert_eq!(
        call_many(&file, &mut state, &messages, &mut reports),
        0,
        "{name} is refused"
    );
    let steps = u64::from_le_bytes(reports[8..16].try_into().unwrap());
    let mut plain_state = vec![0u8; STATE];
    let mut effects = plain::Effects::new();
    for (i, message) in messages.chunks_exact(64).enumerate() {
        let end = plain::call(code, &mut plain_state, message, 1, 0, 2, &mut effects);
        if i == 0 {
            assert_eq!(end.steps, steps);
            assert_eq!(end.r0.to_le_bytes(), reports[0..8]);
        }
    }
    assert_eq!(state, plain_state, "{name}: the states differ");

    let proved = timed(ROUNDS, || {
        black_box(call_many(
            &file,
            black_box(&mut state),
            &messages,
            &mut reports,
        ));
    });
    let plain = timed(ROUNDS, || {
        for message in messages.chunks_exact(64) {
            black_box(plain::call(
                code,
                black_box(&mut plain_state),
                message,
                1,
                0,
                2,
                &mut effects,
            ));
        }
    });
    let calls = MESSAGES as f64;
    let each = calls * steps as f64;
    println!(
        "{name:9} {steps:4} instructions a call: proved {:8.1} ns a call, {:6.2} ns an instruction (mean {:6.2}); plain {:8.1} and {:6.2} (mean {:6.2}); {:.1} times",
        proved.0 / calls,
        proved.0 / each,
        proved.1 / each,
        plain.0 / calls,
        plain.0 / each,
        plain.1 / each,
        proved.0 / plain.0
    );
}

/// Calls the handler a thousand times a round, by its file and by a handle: all messages at once, and
/// one by one. The ways take turns, round by round. Prints nanoseconds a call, the shortest of the
/// rounds, and how they compare with `sblog_call_many`.
fn measure_handle(name: &str, code: &[Insn]) {
    let file = file_of(STATE as u16, code);
    let messages = messages();
    let mut reports = vec![0u8; MESSAGES * 1064];
    let handle = opened(&file);

    // all three leave the same
    let mut states = [vec![0u8; STATE], vec![0u8; STATE], vec![0u8; STATE]];
    let [by_file, at_once, one_by_one] = &mut states;
    assert_eq!(call_many(&file, by_file, &messages, &mut reports), 0);
    assert_eq!(run(handle, at_once, &messages, &mut reports), 0);
    for message in messages.chunks_exact(64) {
        assert_eq!(run(handle, one_by_one, message, &mut reports), 0);
    }
    assert!(
        by_file == at_once && by_file == one_by_one,
        "{name}: the states differ"
    );

    let mut least = [f64::MAX; 3];
    for _ in 0..ROUNDS {
        let (many, _) = timed(1, || {
            black_box(call_many(
                &file,
                black_box(by_file),
                &messages,
                &mut reports,
            ));
        });
        let (all, _) = timed(1, || {
            black_box(run(handle, black_box(at_once), &messages, &mut reports));
        });
        let (each, _) = timed(1, || {
            for message in messages.chunks_exact(64) {
                black_box(run(handle, black_box(one_by_one), message, &mut reports));
            }
        });
        for (shortest, nanos) in least.iter_mut().zip([many, all, each]) {
            *shortest = shortest.min(nanos / MESSAGES as f64);
        }
    }
    unsafe { sblog_close(handle) };
    let [many, all, each] = least;
    println!(
        "{name:9} ns a call: {many:8.1} by sblog_call_many; by sblog_run {all:8.1} ({:.2} times) with all messages at once, {each:8.1} ({:.2} times) one by one",
        all / many,
        each / many
    );
}

/// Checks an image of so many slots, and prints nanoseconds a slot.
fn measure_check(slots: usize) {
    let file = file_of(STATE as u16, &image::arithmetic(slots));
    assert_eq!(check(&file), 0);
    let rounds = 2_000_000 / slots;
    let (least, mean) = timed(rounds, || {
        black_box(check(black_box(&file)));
    });
    println!(
        "check of {slots:4} slots: {:8.1} µs, {:6.1} ns a slot (mean {:6.1})",
        least / 1000.0,
        least / slots as f64,
        mean / slots as f64
    );
}

fn main() {
    let images = [
        ("two", image::two()),
        ("nothing", image::nothing()),
        ("arith", image::arithmetic(400)),
        ("divide", image::division(400)),
        ("memory", image::memory(400, Size::Double)),
        ("bytes", image::memory(400, Size::Byte)),
        ("branch", image::branches(400)),
        ("number", image::calls(400, 3)),
        ("output", image::outputs(8)),
    ];
    for (name, code) in &images {
        measure(name, code);
    }
    for (name, code) in &images {
        measure_handle(name, code);
    }
    for slots in [128, 256, 512, 1024] {
        measure_check(slots);
    }
}
