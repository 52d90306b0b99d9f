// The stack of a thread that calls: STACK_MOST bytes are enough for the call; with too little the process ends at the
// guard page.

use bovkact_planner::{outcome, report, starts, starts_into, Conditions, Interval, STACK_MOST};
use std::env;
use std::process::Command;
use std::thread;

const WORKED: &[u8] = include_bytes!("../../../examples/worked.plan");

// What a thread of Rust takes itself; less than 6,000 bytes were measured.
const THREAD: usize = 8 * 1024;

// The calls, and what each takes beside the library.
const CALLS: [(fn(), usize); 4] = [
    (|| assert!(outcome(WORKED, 3).is_ok()), 0),
    (|| assert!(report(WORKED, &mut [0; 100]).is_ok()), 0),
    (|| assert!(starts_into(WORKED, 3, Conditions::ALL, &mut [Interval::default(); 4]).is_ok()), 0),
    (|| assert!(starts(WORKED, 3, Conditions::ALL).is_ok()), 16_384),
];

// Makes a call in a thread with a stack of so many bytes.
fn call_within(stack: usize, call: fn()) {
    thread::Builder::new().stack_size(stack).spawn(call).unwrap().join().unwrap();
}

#[test]
fn enough() {
    for (call, more) in CALLS {
        call_within(STACK_MOST + more + THREAD, call);
    }
}

// Runs itself anew for each call, which the environment names. Rust's handler of faults names one in the guard page.
#[test]
fn too_little() {
    if let Ok(call) = env::var("TOO_LITTLE_FOR") {
        return call_within(64 * 1024, CALLS[call.parse::<usize>().unwrap()].0);
    }
    for call in 0..CALLS.len() {
        let mut program = Command::new(env::current_exe().unwrap());
        program.args(["--exact", "too_little", "--nocapture"]).env("TOO_LITTLE_FOR", call.to_string());
        let ended = program.output().unwrap();
        let said = String::from_utf8_lossy(&ended.stderr);
        assert!(!ended.status.success() && said.contains("has overflowed its stack"), "call {call}: {said}");
    }
}
