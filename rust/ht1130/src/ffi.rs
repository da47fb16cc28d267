//! The functions of `ht1130.h` and `ht1130_tools.h` as they are. The rest of this crate is safe.

#![allow(missing_docs)]

use crate::Machine;

extern "C" {
    pub fn ht1130_power_on(
        machine: *mut Machine,
        rate: u8,
        commons: u8,
        wake_pm: u8,
        wake_ps: u8,
        wake_pp: u8,
        image: *const u8,
        image_len: usize,
    ) -> u8;
    pub fn ht1130_apply(
        machine: *mut Machine,
        kind: u16,
        count: u16,
        a: u8,
        b: u8,
        c: u8,
        mask: *const u8,
        mask_len: usize,
    ) -> u8;
    pub fn ht1130_report(machine: *const Machine, out: *mut u8, out_len: usize) -> u8;
    pub fn ht1130_gap_count(machine: *const Machine) -> u64;
    pub fn ht1130_check(mask: *const u8, mask_len: usize, marks: *mut u8, marks_len: usize) -> u64;
    pub fn ht1130_way(mask: *const u8, mask_len: usize, list: *mut u8, list_len: usize) -> u64;
    pub fn ht1130_bound(mask: *const u8, mask_len: usize, address: u16, level: u8) -> u64;
    pub fn ht1130_check_script(
        mask: *const u8,
        mask_len: usize,
        script: *const u8,
        script_len: usize,
        room: usize,
    ) -> u64;
    pub fn ht1130_run_script(
        mask: *const u8,
        mask_len: usize,
        script: *const u8,
        script_len: usize,
        out: *mut u8,
        out_len: usize,
    ) -> u64;
    pub fn ht1130_read(mask: *const u8, mask_len: usize, address: u16) -> u64;
    pub fn ht1130_write(form: u8, a: u8, b: u16) -> u64;
    pub fn ht1130_assemble(text: *const u8, text_len: usize, out: *mut u8, out_len: usize) -> u64;
    pub fn ht1130_glass_read(picture: *const u8, len: usize) -> u64;
    pub fn ht1130_glass_draw(dark: u8, value: i32, places: u8, picture: *mut u8, len: usize)
        -> u64;
    pub fn ht1130_reading(machine: *const Machine) -> u64;
}
