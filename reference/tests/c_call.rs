//! The comparisons of the C call: they pass a call that is right and stop at one that
//! writes where it may not, refuses too early, keeps memory or meets another thread's call.

use std::hint::black_box;
use std::sync::Mutex;
use std::thread;

use reference::compare::c_call;
use reference::compare::soak::{soak, Soak};
use reference::limits::REFUSED;

/// What the call returns for 23.
const SHORT_OUTPUT: u64 = REFUSED + 23;

/// The soak reads the memory of the whole process.
static ONE_TEST_AT_A_TIME: Mutex<()> = Mutex::new(());

/// # Safety
/// The pointer is good for the length, or the length is 0.
unsafe fn lent<'a>(query: *const u8, length: usize) -> &'a [u8] {
    if length == 0 {
        &[]
    } else {
        std::slice::from_raw_parts(query, length)
    }
}

/// The model behind the C signature.
unsafe extern "C" fn model(
    query: *const u8,
    query_length: usize,
    output: *mut u8,
    output_length: usize,
) -> u64 {
    let output = if output_length == 0 {
        &mut []
    } else {
        std::slice::from_raw_parts_mut(output, output_length)
    };
    reference::c_call::fanchuki_plan(lent(query, query_length), output)
}

/// The same, but it writes one byte behind the plan.
unsafe extern "C" fn writes_behind(
    query: *const u8,
    query_length: usize,
    output: *mut u8,
    output_length: usize,
) -> u64 {
    let returned = model(query, query_length, output, output_length);
    if returned > 0 && returned < REFUSED {
        output.add(returned as usize).write(0);
    }
    returned
}

/// The same, but it clears the front of an output that is too short.
unsafe extern "C" fn clears_a_short_output(
    query: *const u8,
    query_length: usize,
    output: *mut u8,
    output_length: usize,
) -> u64 {
    let returned = model(query, query_length, output, output_length);
    if returned == SHORT_OUTPUT && output_length > 0 {
        output.write(0);
    }
    returned
}

/// The same, but it refuses an empty output though there is no route.
unsafe extern "C" fn refuses_before_no_route(
    query: *const u8,
    query_length: usize,
    output: *mut u8,
    output_length: usize,
) -> u64 {
    match model(query, query_length, output, output_length) {
        0 if output_length == 0 => SHORT_OUTPUT,
        returned => returned,
    }
}

#[test]
fn the_c_call_passes_when_it_is_right() {
    let _alone = ONE_TEST_AT_A_TIME.lock().unwrap();
    assert!(c_call::compare(model, 43, 300).is_ok());
}

#[test]
fn the_c_call_fails_when_it_is_wrong() {
    let _alone = ONE_TEST_AT_A_TIME.lock().unwrap();
    assert!(c_call::compare(writes_behind, 43, 300).is_err());
    assert!(c_call::compare(clears_a_short_output, 43, 300).is_err());
    assert!(c_call::compare(refuses_before_no_route, 43, 300).is_err());
}

/// What the soak says of 20,000 calls.
fn soaked(call: c_call::CCall, threads: u64) -> &'static str {
    match soak(call, Soak { calls: 20_000, threads, seed: 44 }).unwrap() {
        Ok(report) if report.memory_stays() => "passes",
        Ok(_) => "memory grew",
        Err(_) => "mismatch",
    }
}

/// The same, but it keeps 64 bytes.
unsafe extern "C" fn keeps_memory(
    query: *const u8,
    query_length: usize,
    output: *mut u8,
    output_length: usize,
) -> u64 {
    Box::leak(black_box(Box::new([1u8; 64])));
    model(query, query_length, output, output_length)
}

/// The same, but it plans a query that every thread puts in one place.
unsafe extern "C" fn shares_the_query(
    query: *const u8,
    query_length: usize,
    output: *mut u8,
    output_length: usize,
) -> u64 {
    static PLACE: Mutex<Vec<u8>> = Mutex::new(Vec::new());
    *PLACE.lock().unwrap() = lent(query, query_length).to_vec();
    thread::yield_now();
    let query = PLACE.lock().unwrap().clone();
    model(query.as_ptr(), query.len(), output, output_length)
}

#[test]
fn the_soak_passes_what_is_right_and_nothing_else() {
    let _alone = ONE_TEST_AT_A_TIME.lock().unwrap();
    assert_eq!(soaked(model, 4), "passes");
    assert_eq!(soaked(keeps_memory, 4), "memory grew");
    assert_eq!(soaked(shares_the_query, 1), "passes");
    assert_eq!(soaked(shares_the_query, 4), "mismatch");
}
