//! The functions of `crates/exports/panel.h`.
//!
//! They ask that every pointer and length are those of a list that may be read, and written where the pointer is `*mut`; that the pointer is aligned and
//! not null; and that no list that is written overlaps another. A slice's pointer and length are such, also when it is empty, and what a `&mut` slice lends
//! overlaps nothing else.
use crate::{Cell, Standing, Tableau, MAX_SIDE};

#[repr(C)]
pub struct StartResult {
    pub refusal: u8,
    pub tableau: Tableau,
}

#[repr(C)]
pub struct RoundResult {
    pub refusal: u8,
    pub finished: bool,
    pub tableau: Tableau,
    pub u: [i64; MAX_SIDE],
    pub v: [i64; MAX_SIDE],
}

#[repr(C)]
pub struct RunResult {
    pub refusal: u8,
    pub finished: bool,
    pub rounds: u64,
    pub tableau: Tableau,
}

#[repr(C)]
pub struct SolveResult {
    pub refusal: u8,
    pub cost: i64,
    pub rounds: u64,
}

#[repr(C)]
pub struct SetUpResult {
    pub refusal: u8,
    pub standing: Standing,
}

#[repr(C)]
pub struct EditResult {
    pub refusal: u8,
    pub cost: i64,
    pub rounds: u64,
    pub after: Standing,
}

#[repr(C)]
pub struct ReadResult {
    pub refusal: u8,
    pub sources: usize,
    pub sinks: usize,
    pub place: usize,
}

#[repr(C)]
pub struct WriteResult {
    pub refusal: u8,
    pub length: usize,
}

#[rustfmt::skip] // as in the header, the lists of a sheet on one line
extern "C" {
    pub fn panel_start(
        supply: *const u64, m: usize, demand: *const u64, n: usize, cost: *const i64, lanes: usize,
    ) -> StartResult;

    pub fn panel_round(
        supply: *const u64, m: usize, demand: *const u64, n: usize, cost: *const i64, lanes: usize,
        cells: *const Cell, count: usize,
    ) -> RoundResult;

    pub fn panel_run(
        supply: *const u64, m: usize, demand: *const u64, n: usize, cost: *const i64, lanes: usize,
        cells: *const Cell, count: usize, allowance: u32,
    ) -> RunResult;

    pub fn panel_settle(
        supply: *const u64, m: usize, demand: *const u64, n: usize, cost: *const i64, lanes: usize,
        cells: *const Cell, count: usize, plan: *mut u64, plan_room: usize,
    ) -> u8;

    pub fn panel_solve(
        supply: *const u64, m: usize, demand: *const u64, n: usize, cost: *const i64, lanes: usize,
        u: *mut i64, u_room: usize, v: *mut i64, v_room: usize, plan: *mut u64, plan_room: usize,
    ) -> SolveResult;

    pub fn panel_set_up(
        supply: *const u64, m: usize, demand: *const u64, n: usize, cost: *const i64, lanes: usize,
    ) -> SetUpResult;

    pub fn panel_edit(
        standing: Standing, row: usize, col: usize, amounts: bool, cost: i64, supply: u64, demand: u64,
        u: *mut i64, u_room: usize, v: *mut i64, v_room: usize, plan: *mut u64, plan_room: usize,
    ) -> EditResult;

    pub fn panel_read_sheet(
        text: *const u8, length: usize,
        supply: *mut u64, supply_room: usize, demand: *mut u64, demand_room: usize, cost: *mut i64, cost_room: usize,
    ) -> ReadResult;

    pub fn panel_write_sheet(
        supply: *const u64, m: usize, demand: *const u64, n: usize, cost: *const i64, lanes: usize,
        out: *mut u8, room: usize,
    ) -> WriteResult;

    pub fn panel_write_plan(
        supply: *const u64, m: usize, demand: *const u64, n: usize, cost: *const i64, lanes: usize,
        out: *mut u8, room: usize,
    ) -> WriteResult;
}
