//! The calls of include/roadparsnip.h over the second interpreter, so that one driver measures both.

use std::slice::{from_raw_parts, from_raw_parts_mut};

use second::{Machine, Outcome, Pixel, Unit};

#[repr(C)]
#[derive(Clone, Copy)]
pub struct HostMachine {
    x: i32,
    y: i32,
    counter: u16,
    mode: u8,
    value: u8,
    write: u8,
    latch: u8,
    increment: u8,
    status: u8,
}

#[repr(C)]
pub struct HostStarted {
    machine: HostMachine,
    answer: u8,
}

#[repr(C)]
pub struct HostRan {
    machine: HostMachine,
    steps: u32,
    words: u32,
    stores: u32,
    answer: u8,
}

#[repr(C)]
pub struct HostRead {
    digit: u8,
    answer: u8,
}

impl From<HostMachine> for Machine {
    fn from(m: HostMachine) -> Machine {
        Machine {
            counter: m.counter,
            x: Unit(i64::from(m.x)),
            y: Unit(i64::from(m.y)),
            mode: m.mode,
            value: m.value,
            write: m.write,
            latch: m.latch,
            increment: m.increment,
            status: m.status,
        }
    }
}

impl From<Machine> for HostMachine {
    fn from(m: Machine) -> HostMachine {
        HostMachine {
            x: m.x.0 as i32,
            y: m.y.0 as i32,
            counter: m.counter,
            mode: m.mode,
            value: m.value,
            write: m.write,
            latch: m.latch,
            increment: m.increment,
            status: m.status,
        }
    }
}

impl From<Outcome> for HostRan {
    fn from(outcome: Outcome) -> HostRan {
        HostRan {
            machine: HostMachine::from(outcome.machine),
            steps: outcome.steps as u32,
            words: outcome.words as u32,
            stores: outcome.stores as u32,
            answer: outcome.answer.number(),
        }
    }
}

/// A slice that may be empty, and then has any pointer.
unsafe fn lent<'a, T>(first: *const T, length: usize) -> &'a [T] {
    if length == 0 {
        &[]
    } else {
        from_raw_parts(first, length)
    }
}

unsafe fn lent_mut<'a, T>(first: *mut T, length: usize) -> &'a mut [T] {
    if length == 0 {
        &mut []
    } else {
        from_raw_parts_mut(first, length)
    }
}

/// # Safety
/// As for every call here: a pointer with a length leads to so many elements; with length 0 it may be
/// null.
#[no_mangle]
pub unsafe extern "C" fn roadparsnip_check(file: *const u16, words: usize) -> u8 {
    second::check(lent(file, words)).number()
}

#[no_mangle]
pub extern "C" fn roadparsnip_fresh() -> HostMachine {
    HostMachine::from(second::fresh())
}

#[no_mangle]
pub extern "C" fn roadparsnip_start(machine: HostMachine, address: u16) -> HostStarted {
    let (answer, machine) = second::start(Machine::from(machine), address);
    HostStarted {
        machine: HostMachine::from(machine),
        answer: answer.number(),
    }
}

/// # Safety
/// See `roadparsnip_check`.
#[no_mangle]
pub unsafe extern "C" fn roadparsnip_step(
    file: *const u16,
    words: usize,
    machine: HostMachine,
    image: *mut u8,
    bytes: usize,
    set: *const u8,
    set_bytes: usize,
) -> HostRan {
    let file = lent(file, words);
    let image = lent_mut(image, bytes);
    let set = lent(set, set_bytes);
    HostRan::from(second::step(file, Machine::from(machine), image, set))
}

/// # Safety
/// See `roadparsnip_check`.
#[no_mangle]
pub unsafe extern "C" fn roadparsnip_run(
    file: *const u16,
    words: usize,
    machine: HostMachine,
    image: *mut u8,
    bytes: usize,
    budget: u32,
    set: *const u8,
    set_bytes: usize,
) -> HostRan {
    let file = lent(file, words);
    let image = lent_mut(image, bytes);
    let set = lent(set, set_bytes);
    let machine = Machine::from(machine);
    HostRan::from(second::run(file, machine, image, u64::from(budget), set))
}

/// # Safety
/// See `roadparsnip_check`.
#[no_mangle]
pub unsafe extern "C" fn roadparsnip_clear(image: *mut u8, bytes: usize) -> u8 {
    second::clear(lent_mut(image, bytes)).number()
}

/// # Safety
/// See `roadparsnip_check`.
#[no_mangle]
pub unsafe extern "C" fn roadparsnip_read_pixel(
    image: *const u8,
    bytes: usize,
    x: i32,
    y: i32,
) -> HostRead {
    let image = lent(image, bytes);
    let (answer, digit) = second::read_pixel(image, Pixel(i64::from(x)), Pixel(i64::from(y)));
    HostRead {
        digit,
        answer: answer.number(),
    }
}
