//! The functions of the library, as `sblog.h` declares them, and handles.

use crate::image::Fault;
use crate::journal::Entry;
use std::cell::UnsafeCell;
use std::ffi::{c_char, c_void};
use std::ptr::null_mut;

/// What a program holds of a session, a node or a gateway: zeros are closed.
#[repr(C)]
#[derive(Debug)]
pub struct Handle {
    at: *mut c_void,
    held: bool,
}

pub type At = *mut Handle;
type Image = *mut c_void;
type In = *const u8;
type Out = *mut u8;
type Size<'a> = &'a mut usize;
type Number<'a> = &'a mut u32;

unsafe extern "C" {
    pub fn sblog_version() -> *const c_char;
    pub fn sblog_code_text(code: u32) -> *const c_char;
    pub fn sblog_session_code_text(code: u32) -> *const c_char;
    pub fn sblog_gateway_code_text(code: u32) -> *const c_char;
    pub fn sblog_node_code_text(code: u32) -> *const c_char;

    pub fn sblog_check(file: In, file_len: usize, fault: Out, fault_len: usize) -> u32;
    pub fn sblog_open(file: In, file_len: usize, handle: &mut Image) -> u32;
    pub fn sblog_state_len(handle: Image) -> usize;
    pub fn sblog_run(
        handle: Image, state: Out, state_len: usize, messages: In, messages_len: usize, me: u8, from: u8, count: u8, reports: Out,
        reports_len: usize,
    ) -> u32;
    pub fn sblog_compile(handle: Image, out: Out, out_len: usize, size: Size) -> u32;
    pub fn sblog_close(handle: Image);

    pub fn sblog_session_open(files: In, files_len: usize, lengths: *const u32, count: usize, handle: At) -> u32;
    pub fn sblog_session_close(handle: At) -> u32;
    pub fn sblog_session_input(handle: At, to: u8, feed: u32, payload: In, payload_len: usize, ssn: Number) -> u32;
    pub fn sblog_session_drive(handle: At, budget: u32, accepted: Number) -> u32;
    pub fn sblog_session_transmit(handle: At, from: u8, to: u8, ssn: u32, packet: Number) -> u32;
    pub fn sblog_session_copy(handle: At, packet: u32, copy: Number) -> u32;
    pub fn sblog_session_lose(handle: At, packet: u32) -> u32;
    pub fn sblog_session_arrive(handle: At, packet: u32, entry: &mut Entry) -> u32;
    pub fn sblog_session_checkpoint(handle: At, process: u8, covered: Number) -> u32;
    pub fn sblog_session_trim(handle: At, to: u8, dropped: Number) -> u32;
    pub fn sblog_session_crash(handle: At, process: u8, incarnation: Number) -> u32;
    pub fn sblog_session_recover(handle: At, process: u8, kept: Number) -> u32;
    pub fn sblog_session_recover_alone(handle: At, process: u8, kept: Number) -> u32;
    pub fn sblog_session_standing(handle: At, process: u8, length: Number, phase: Number) -> u32;
    pub fn sblog_session_state(handle: At, process: u8, out: Out, out_len: usize, size: Size) -> u32;
    pub fn sblog_session_saved(handle: At, process: u8, out: Out, out_len: usize, size: Size) -> u32;
    pub fn sblog_session_shown(handle: At, place: usize, sender: Out, ssn: Number, out: Out, out_len: usize, size: Size) -> u32;
    pub fn sblog_session_exact(handle: At, exact: Number) -> u32;
    pub fn sblog_session_refused(handle: At, process: u8, code: u32) -> u64;
    pub fn sblog_session_trace(handle: At, out: Out, out_len: usize, size: Size) -> u32;
    pub fn sblog_session_room(handle: At, places: Size) -> u32;
    pub fn sblog_session_journal(handle: At, count: Size) -> u32;
    pub fn sblog_session_entries(handle: At, from: usize, out: *mut Entry, out_len: usize, count: Size) -> u32;

    pub fn sblog_packet_label(packet: In, packet_len: usize, label: &mut [u64; 5], fault: Number) -> u32;

    pub fn sblog_gateway_open(n: u8, page: u32, tick: u32, gateway: At) -> u32;
    pub fn sblog_gateway_revive(store: In, store_len: usize, page: u32, tick: u32, gateway: At, fault: Number) -> u32;
    pub fn sblog_gateway_apply(gateway: At, changes: In, changes_len: usize, fault: Number) -> u32;
    pub fn sblog_gateway_close(gateway: At) -> u32;
    pub fn sblog_gateway_input(gateway: At, process: u8, payload: In, payload_len: usize, ssn: &mut u64) -> u32;
    pub fn sblog_gateway_receive(gateway: At, packet: In, packet_len: usize, fault: Number) -> u32;
    pub fn sblog_gateway_receive_all(gateway: At, bundle: In, bundle_len: usize, tally: &mut [u64; 3]) -> u32;
    pub fn sblog_gateway_take(gateway: At, out: Out, out_len: usize, size: Size, to: Out) -> u32;
    pub fn sblog_gateway_take_all(gateway: At, out: Out, out_len: usize, size: Size, to: Out, count: &mut u64) -> u32;
    pub fn sblog_gateway_tick(gateway: At) -> u32;
    pub fn sblog_gateway_output(gateway: At, process: Out, ssn: &mut u64, out: Out, out_len: usize, size: Size) -> u32;
    pub fn sblog_gateway_store(gateway: At, out: Out, out_len: usize, size: Size) -> u32;
    pub fn sblog_gateway_changes(gateway: At, out: Out, out_len: usize, size: Size) -> u32;

    pub fn sblog_node_open(
        image: In, image_len: usize, me: u8, n: u8, page: u32, tick: u32, numbers: u32, receipts: u32, durable: u32, node: At,
    ) -> u32;
    pub fn sblog_node_open_with(
        image: In, image_len: usize, me: u8, n: u8, page: u32, tick: u32, numbers: u32, receipts: u32, durable: u32, state: In,
        state_len: usize, node: At,
    ) -> u32;
    pub fn sblog_node_revive(
        image: In, image_len: usize, kept: In, kept_len: usize, incarnation: u64, page: u32, tick: u32, numbers: u32, receipts: u32,
        durable: u32, node: At, fault: Number,
    ) -> u32;
    pub fn sblog_node_close(node: At) -> u32;
    pub fn sblog_node_receive(node: At, packet: In, packet_len: usize, fault: Number) -> u32;
    pub fn sblog_node_receive_all(node: At, bundle: In, bundle_len: usize, tally: &mut [u64; 3]) -> u32;
    pub fn sblog_node_take(node: At, out: Out, out_len: usize, size: Size, to: Out) -> u32;
    pub fn sblog_node_take_all(node: At, out: Out, out_len: usize, size: Size, to: Out, count: &mut u64) -> u32;
    pub fn sblog_node_work(node: At) -> u32;
    pub fn sblog_node_job(node: At, array: Out, array_len: usize, size: Size, job: &mut [u64; 6]) -> u32;
    pub fn sblog_node_done(node: At, incarnation: u64, received: u64, array: In, array_len: usize, record: In, record_len: usize) -> u32;
    pub fn sblog_node_tick(node: At) -> u32;
    pub fn sblog_node_checkpoint(node: At, out: Out, out_len: usize, size: Size) -> u32;
    pub fn sblog_node_saved(node: At) -> u32;
    pub fn sblog_node_suspend(node: At, out: Out, out_len: usize, size: Size) -> u32;
    pub fn sblog_node_resume(
        image: In, image_len: usize, suspended: In, suspended_len: usize, page: u32, tick: u32, numbers: u32, receipts: u32, durable: u32,
        node: At, fault: Number,
    ) -> u32;
    pub fn sblog_node_standing(node: At, out: &mut [u64; 10]) -> u32;
    pub fn sblog_node_refused(node: At, code: u32) -> u64;
    pub fn sblog_node_state(node: At, out: Out, out_len: usize, size: Size) -> u32;
}

/// Why the library refused a call: its code, and the fault that it wrote, if it writes one.
pub struct Refused(pub u32, pub Fault);

/// Of a code that isn't 0, with the number of a fault.
pub fn told(code: u32, rule: u32) -> Result<(), Refused> {
    if code == 0 { Ok(()) } else { Err(Refused(code, Fault { rule, slot: 0 })) }
}

/// Of a code that isn't 0.
pub fn done(code: u32) -> Result<(), Refused> {
    told(code, 0)
}

/// None of a call that answers 20: there is none.
pub fn some<T>(told: Result<T, Refused>) -> Result<Option<T>, Refused> {
    match told {
        Err(Refused(20, _)) => Ok(None),
        told => told.map(Some),
    }
}

/// The bytes that a call writes, at first with a buffer of so many. If it answers `room` it says how many it takes, and is made again.
pub fn written(first: usize, room: u32, mut call: impl FnMut(Out, usize, Size) -> u32) -> Result<Vec<u8>, Refused> {
    let (mut out, mut size) = (vec![0; first], 0);
    loop {
        match call(out.as_mut_ptr(), out.len(), &mut size) {
            code if code == room => out.resize(size, 0),
            code => return done(code).map(|()| out[..size].to_vec()),
        }
    }
}

/// An open handle, which is closed when it is dropped.
#[derive(Debug)]
pub struct Held {
    handle: UnsafeCell<Handle>,
    close: unsafe extern "C" fn(At) -> u32,
}

impl Held {
    /// Of what a call opens; nothing else makes one.
    pub fn opened(close: unsafe extern "C" fn(At) -> u32, open: impl FnOnce(At, Number) -> u32) -> Result<Held, Refused> {
        let held = Held { handle: UnsafeCell::new(Handle { at: null_mut(), held: false }), close };
        held.told(open).map(|_| held)
    }

    pub fn at(&self) -> At {
        self.handle.get()
    }

    /// The number that a call writes; of a refused call the fault.
    pub fn told(&self, call: impl FnOnce(At, Number) -> u32) -> Result<u32, Refused> {
        let mut number = 0;
        let code = call(self.at(), &mut number);
        told(code, number).map(|()| number)
    }

    /// The bytes that a call writes.
    pub fn bytes(&self, mut call: impl FnMut(At, Out, usize, Size) -> u32) -> Result<Vec<u8>, Refused> {
        written(1024, 19, |out, room, size| call(self.at(), out, room, size))
    }
}

impl Drop for Held {
    fn drop(&mut self) {
        unsafe { (self.close)(self.at()) };
    }
}
