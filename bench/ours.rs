//! What is timed: the proved functions, by way of C. The only calls of C in the bench, beside the clock's.
use crate::rule::Run;

extern "C" {
    fn brumerola_bench_rule(tasks: u64, rule: u64, count: u64, seed: u64) -> u64;
    fn brumerola_bench_apply(tasks: u64, rule: u64, count: u64, seed: u64) -> u64;
    fn brumerola_bench_apply_in(tasks: u64, rule: u64, count: u64, seed: u64) -> u64;
    fn brumerola_bench_log(table: *const u8, table_size: usize, log: *const u8, log_size: usize) -> u64;
    fn brumerola_bench_tally(table: *const u8, table_size: usize, log: *const u8, log_size: usize) -> u64;
    fn brumerola_bench_bounds(table: *const u8, table_size: usize) -> u64;
    fn brumerola_bench_list(input: *const u8, input_size: usize, out: *mut u8, out_size: usize) -> u64;
    fn brumerola_choice(table: *const u8, table_size: usize, log: *const u8, log_size: usize) -> u32;
}

/// No listing is longer.
pub const ROOM: usize = 131_072;

pub fn rule_alone(run: Run) -> u64 {
    unsafe { brumerola_bench_rule(run.tasks, run.rule, run.count, run.seed) }
}

pub fn apply(run: Run) -> u64 {
    unsafe { brumerola_bench_apply(run.tasks, run.rule, run.count, run.seed) }
}

pub fn apply_in(run: Run) -> u64 {
    unsafe { brumerola_bench_apply_in(run.tasks, run.rule, run.count, run.seed) }
}

pub fn log(table: &[u8], log: &[u8]) -> u64 {
    unsafe { brumerola_bench_log(table.as_ptr(), table.len(), log.as_ptr(), log.len()) }
}

pub fn tally(table: &[u8], log: &[u8]) -> u64 {
    unsafe { brumerola_bench_tally(table.as_ptr(), table.len(), log.as_ptr(), log.len()) }
}

pub fn bounds(table: &[u8]) -> u64 {
    unsafe { brumerola_bench_bounds(table.as_ptr(), table.len()) }
}

pub fn choice(table: &[u8], log: &[u8]) -> u32 {
    unsafe { brumerola_choice(table.as_ptr(), table.len(), log.as_ptr(), log.len()) }
}

/// How many of the bytes that are lent are the text; more than there are where it was refused.
pub fn list(input: &[u8], out: &mut [u8]) -> u64 {
    unsafe { brumerola_bench_list(input.as_ptr(), input.len(), out.as_mut_ptr(), out.len()) }
}
