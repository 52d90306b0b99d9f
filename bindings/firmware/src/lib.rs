//! An example of a station's own software in Rust without std: core alone, no heap, a panic handler of its own. It
//! offers one function to whatever starts it, here to C.

#![no_std]

use bovkact_planner::{outcome, place_of, report, starts_into, version};
use bovkact_planner::{Condition, Conditions, Interval, Outcome, Refusal, REPORT_MOST, RUNS_MOST, VERSION};

// The start of the activity with this id. Where it is refused, the first start that it would have without its windows.
// None where there is none, or no such activity. It takes 18 KB of stack beside STACK_MOST.
fn start_of(plan: &[u8], id: u32) -> Result<Option<u32>, Refusal> {
    let mut text = [0; REPORT_MOST];
    let Some(place) = place_of(report(plan, &mut text)?, id) else {
        return Ok(None);
    };
    match outcome(plan, place)? {
        Outcome::Placed { start } => Ok(Some(start)),
        Outcome::Refused { .. } => {
            let mut runs = [Interval::default(); RUNS_MOST];
            let runs = starts_into(plan, place, Conditions::all_but(Condition::W), &mut runs)?;
            Ok(runs.first().map(|run| run.first))
        }
    }
}

/// `start_of` for C: the start; -1 where there is none, -2 where the library is of another version, and where the plan
/// is refused the refusal's number below -100.
///
/// # Safety
///
/// `plan` points to `length` bytes that nobody writes during the call.
#[no_mangle]
pub unsafe extern "C" fn firmware_start_of(plan: *const u8, length: usize, id: u32) -> i64 {
    if version() != VERSION {
        return -2;
    }
    // SAFETY: as said above.
    let plan = unsafe { core::slice::from_raw_parts(plan, length) };
    match start_of(plan, id) {
        Ok(Some(start)) => start.into(),
        Ok(None) => -1,
        Err(refusal) => -100 - i64::from(refusal.reason.number()),
    }
}

// Firmware would restart the station here. No call of the planner comes to this.
#[panic_handler]
fn panic(_: &core::panic::PanicInfo) -> ! {
    loop {}
}
