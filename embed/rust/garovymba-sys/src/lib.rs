//! The calls of incr.h, which says what each asks for and what it gives.
#![no_std]
#![allow(non_camel_case_types)]

use core::ffi::{c_char, c_void};

/// Where a session is kept. It begins as zeros, and isn't copied while it has one.
#[repr(C)]
pub struct incr_slot {
    pub live: u64,
    pub at: *mut c_void,
}

/// What is told of a notice beside its bytes.
#[repr(C)]
#[derive(Default)]
pub struct incr_told {
    pub round: u64,
    pub name: usize,
    pub before: usize,
    pub now: usize,
}

unsafe extern "C" {
    pub fn incr_errstr(answer: i32) -> *const c_char;
    pub fn incr_version() -> i32;
    pub fn incr_open(slot: *mut incr_slot) -> i32;
    pub fn incr_line(slot: *mut incr_slot, text: *const c_char, length: usize, out: *mut u8, room: usize, count: *mut usize) -> i32;
    pub fn incr_rest(slot: *mut incr_slot, out: *mut u8, room: usize, count: *mut usize) -> i32;
    pub fn incr_notice(slot: *mut incr_slot, notice: usize, out: *mut u8, room: usize, told: *mut incr_told) -> i32;
    pub fn incr_close(slot: *mut incr_slot) -> i32;
    pub fn incr_open_at(slots: *mut incr_slot, slots_length: usize, number: usize) -> i32;
    pub fn incr_line_at(
        slots: *mut incr_slot,
        slots_length: usize,
        number: usize,
        text: *const c_char,
        length: usize,
        out: *mut u8,
        room: usize,
        count: *mut usize,
    ) -> i32;
    pub fn incr_rest_at(slots: *mut incr_slot, slots_length: usize, number: usize, out: *mut u8, room: usize, count: *mut usize) -> i32;
    pub fn incr_notice_at(
        slots: *mut incr_slot,
        slots_length: usize,
        number: usize,
        notice: usize,
        out: *mut u8,
        room: usize,
        told: *mut incr_told,
    ) -> i32;
    pub fn incr_close_at(slots: *mut incr_slot, slots_length: usize, number: usize) -> i32;
}
