//! The engine under test. This is the one file to change when its interface does.

use crate::Engine;

/// The linked library.
#[cfg(linked)]
pub const ENGINE: Engine = Engine {
    name: "engine",
    operations: [
        linked::replay,
        linked::round,
        linked::timetable,
        linked::process,
        linked::rank,
        linked::join,
    ],
    live: [
        linked::live_open,
        linked::live_wait,
        linked::live_fire,
        linked::live_close,
        linked::live_state,
        linked::live_timetable,
    ],
};

/// Without a library (TPN_LIB_DIR not set while building) the plain version stands in.
#[cfg(not(linked))]
pub const ENGINE: Engine = Engine {
    name: "plain again",
    ..crate::PLAIN
};

#[cfg(linked)]
mod linked {
    type Foreign = unsafe extern "C" fn(*const u8, usize, *mut u8, usize) -> i64;
    type Numbered = unsafe extern "C" fn(*const u8, usize, u32, *mut u8, usize) -> i64;

    extern "C" {
        fn tpn_replay(
            input: *const u8,
            input_len: usize,
            output: *mut u8,
            output_len: usize,
        ) -> i64;
        fn tpn_round(input: *const u8, input_len: usize, output: *mut u8, output_len: usize)
            -> i64;
        fn tpn_timetable(
            input: *const u8,
            input_len: usize,
            output: *mut u8,
            output_len: usize,
        ) -> i64;
        fn tpn_process(
            input: *const u8,
            input_len: usize,
            output: *mut u8,
            output_len: usize,
        ) -> i64;
        fn tpn_rank(input: *const u8, input_len: usize, output: *mut u8, output_len: usize) -> i64;
        fn tpn_join(input: *const u8, input_len: usize, output: *mut u8, output_len: usize) -> i64;
        fn tpn_live_open(
            input: *const u8,
            input_len: usize,
            output: *mut u8,
            output_len: usize,
        ) -> i64;
        fn tpn_live_wait(
            input: *const u8,
            input_len: usize,
            parts: u32,
            output: *mut u8,
            output_len: usize,
        ) -> i64;
        fn tpn_live_fire(
            input: *const u8,
            input_len: usize,
            transition: u32,
            output: *mut u8,
            output_len: usize,
        ) -> i64;
        fn tpn_live_close(
            input: *const u8,
            input_len: usize,
            rest: u32,
            output: *mut u8,
            output_len: usize,
        ) -> i64;
        fn tpn_live_state(
            input: *const u8,
            input_len: usize,
            output: *mut u8,
            output_len: usize,
        ) -> i64;
        fn tpn_live_timetable(
            input: *const u8,
            input_len: usize,
            output: *mut u8,
            output_len: usize,
        ) -> i64;
    }

    #[inline(always)]
    fn call(function: Foreign, input: &[u8], output: &mut [u8]) -> i64 {
        // Safety: both pairs are live slices, and the library stays within the lengths given.
        unsafe {
            function(
                input.as_ptr(),
                input.len(),
                output.as_mut_ptr(),
                output.len(),
            )
        }
    }

    #[inline(always)]
    fn call_with(function: Numbered, input: &[u8], number: u32, output: &mut [u8]) -> i64 {
        // Safety: as above.
        unsafe {
            function(
                input.as_ptr(),
                input.len(),
                number,
                output.as_mut_ptr(),
                output.len(),
            )
        }
    }

    pub fn replay(input: &[u8], output: &mut [u8]) -> i64 {
        call(tpn_replay, input, output)
    }

    pub fn round(input: &[u8], output: &mut [u8]) -> i64 {
        call(tpn_round, input, output)
    }

    pub fn timetable(input: &[u8], output: &mut [u8]) -> i64 {
        call(tpn_timetable, input, output)
    }

    pub fn process(input: &[u8], output: &mut [u8]) -> i64 {
        call(tpn_process, input, output)
    }

    pub fn rank(input: &[u8], output: &mut [u8]) -> i64 {
        call(tpn_rank, input, output)
    }

    pub fn join(input: &[u8], output: &mut [u8]) -> i64 {
        call(tpn_join, input, output)
    }

    pub fn live_open(input: &[u8], _: u32, output: &mut [u8]) -> i64 {
        call(tpn_live_open, input, output)
    }

    pub fn live_wait(input: &[u8], parts: u32, output: &mut [u8]) -> i64 {
        call_with(tpn_live_wait, input, parts, output)
    }

    pub fn live_fire(input: &[u8], transition: u32, output: &mut [u8]) -> i64 {
        call_with(tpn_live_fire, input, transition, output)
    }

    pub fn live_close(input: &[u8], rest: u32, output: &mut [u8]) -> i64 {
        call_with(tpn_live_close, input, rest, output)
    }

    pub fn live_state(input: &[u8], _: u32, output: &mut [u8]) -> i64 {
        call(tpn_live_state, input, output)
    }

    pub fn live_timetable(input: &[u8], _: u32, output: &mut [u8]) -> i64 {
        call(tpn_live_timetable, input, output)
    }
}
