//! The planner's library and the probe's: the one place that calls them.

use crate::billing::Tariff;
use crate::dealing::Crews;

/// Whether there is a planner, and a probe, to call.
pub const PLANNER: bool = cfg!(planner);
pub const PROBE: bool = cfg!(probe);

#[cfg(planner)]
#[link(name = "planner", kind = "static")]
extern "C" {
    fn check_sheet(sheet: *const u8, sheet_len: usize, plan_len: usize) -> u32;
    fn plan_rounds(sheet: *const u8, sheet_len: usize, plan: *mut u8, plan_len: usize) -> u32;
    fn limit_rounds(
        sheet: *const u8,
        sheet_len: usize,
        plan_in: *const u8,
        plan_in_len: usize,
        greatest: u32,
        plan_out: *mut u8,
        plan_out_len: usize,
    ) -> u32;
    fn import_solomon(text: *const u8, text_len: usize, sheet: *mut u8, sheet_len: usize) -> i32;
    fn bill_rounds(
        sheet: *const u8,
        sheet_len: usize,
        plan: *const u8,
        plan_len: usize,
        distance_rate: u32,
        duration_rate: u32,
        least: u32,
        bill: *mut u8,
        bill_len: usize,
    ) -> u32;
    fn deal_rounds(
        sheet: *const u8,
        sheet_len: usize,
        plan: *const u8,
        plan_len: usize,
        crews: u32,
        deal: *mut u8,
        deal_len: usize,
    ) -> u32;
}

/// Refusals 1 to 8, 0 for an accepted sheet. The sheet is lent from memory of exactly its size.
#[cfg(planner)]
pub fn check(sheet: &[u8], plan_len: usize) -> u32 {
    let lent: Box<[u8]> = sheet.into();
    // SAFETY: the pointer and the length are those of a slice that outlives the call.
    unsafe { check_sheet(lent.as_ptr(), lent.len(), plan_len) }
}

/// A sheet's plan, written into `plan`, and 0; or a refusal.
#[cfg(planner)]
pub fn plan(sheet: &[u8], plan: &mut [u8]) -> u32 {
    // SAFETY: the pointers and the lengths are those of slices that outlive the call, and no one
    // else has the one that is written.
    unsafe { plan_rounds(sheet.as_ptr(), sheet.len(), plan.as_mut_ptr(), plan.len()) }
}

/// A plan brought within `greatest` rounds, written into `plan_out`, and 0; or a refusal.
#[cfg(planner)]
pub fn limit(sheet: &[u8], plan_in: &[u8], greatest: u32, plan_out: &mut [u8]) -> u32 {
    let (out, out_len) = (plan_out.as_mut_ptr(), plan_out.len());
    // SAFETY: as above.
    unsafe {
        let (plan_in, len) = (plan_in.as_ptr(), plan_in.len());
        limit_rounds(sheet.as_ptr(), sheet.len(), plan_in, len, greatest, out, out_len)
    }
}

/// A text's sheet, written into `sheet`, and its length; or a refusal's number below 0.
#[cfg(planner)]
pub fn import(text: &[u8], sheet: &mut [u8]) -> i32 {
    // SAFETY: as above.
    unsafe { import_solomon(text.as_ptr(), text.len(), sheet.as_mut_ptr(), sheet.len()) }
}

/// A plan's bill by a tariff, written into `bill`, and 0; or a refusal.
#[cfg(planner)]
pub fn bill(sheet: &[u8], plan: &[u8], tariff: Tariff, bill: &mut [u8]) -> u32 {
    let Tariff { rates: [distance_rate, duration_rate], least } = tariff;
    let (out, out_len) = (bill.as_mut_ptr(), bill.len());
    // SAFETY: as above.
    unsafe {
        let (sheet, sheet_len) = (sheet.as_ptr(), sheet.len());
        let (plan, len) = (plan.as_ptr(), plan.len());
        bill_rounds(sheet, sheet_len, plan, len, distance_rate, duration_rate, least, out, out_len)
    }
}

/// A plan's rounds dealt to crews, written into `deal`, and 0; or a refusal.
#[cfg(planner)]
pub fn deal(sheet: &[u8], plan: &[u8], crews: Crews, deal: &mut [u8]) -> u32 {
    let (out, out_len) = (deal.as_mut_ptr(), deal.len());
    // SAFETY: as above.
    unsafe {
        let (plan, len) = (plan.as_ptr(), plan.len());
        deal_rounds(sheet.as_ptr(), sheet.len(), plan, len, crews.0, out, out_len)
    }
}

#[cfg(not(planner))]
pub fn check(_sheet: &[u8], _plan_len: usize) -> u32 {
    no_planner()
}

#[cfg(not(planner))]
pub fn plan(_sheet: &[u8], _plan: &mut [u8]) -> u32 {
    no_planner()
}

#[cfg(not(planner))]
pub fn limit(_sheet: &[u8], _plan_in: &[u8], _greatest: u32, _plan_out: &mut [u8]) -> u32 {
    no_planner()
}

#[cfg(not(planner))]
pub fn import(_text: &[u8], _sheet: &mut [u8]) -> i32 {
    no_planner()
}

#[cfg(not(planner))]
pub fn bill(_sheet: &[u8], _plan: &[u8], _tariff: Tariff, _bill: &mut [u8]) -> u32 {
    no_planner()
}

#[cfg(not(planner))]
pub fn deal(_sheet: &[u8], _plan: &[u8], _crews: Crews, _deal: &mut [u8]) -> u32 {
    no_planner()
}

#[cfg(not(planner))]
fn no_planner() -> ! {
    eprintln!("compare: built without a planner; build with PLANNER_LIB set to its folder");
    std::process::exit(2)
}

#[cfg(probe)]
mod probe {
    #[link(name = "probe", kind = "static")]
    extern "C" {
        pub fn probe_rounds(
            sheet: *const u8,
            sheet_len: usize,
            stops: *const u16,
            stops_len: usize,
            len: u32,
            vehicle: u32,
        ) -> u32;
        pub fn probe_figure(
            sheet: *const u8,
            sheet_len: usize,
            route: *const u16,
            route_len: usize,
            vehicle: u32,
            which: u32,
        ) -> f64;
        pub fn probe_root(n: u64) -> f64;
    }
}

/// How many of the rounds of `len` rows in `stops` are feasible for a vehicle; `None` where the
/// question is turned back.
#[cfg(probe)]
pub fn probe_rounds(sheet: &[u8], stops: &[u16], len: usize, vehicle: usize) -> Option<usize> {
    let (len, vehicle) = (len as u32, vehicle as u32);
    // SAFETY: the pointers and the lengths are those of slices that outlive the call.
    let passed = unsafe {
        probe::probe_rounds(sheet.as_ptr(), sheet.len(), stops.as_ptr(), stops.len(), len, vehicle)
    };
    (passed != u32::MAX).then_some(passed as usize)
}

/// A figure of a round by its number (crates/probe/specs/Figures.antt).
#[cfg(probe)]
pub fn probe_figure(sheet: &[u8], route: &[u16], vehicle: usize, which: usize) -> f64 {
    let (vehicle, which) = (vehicle as u32, which as u32);
    // SAFETY: as above.
    unsafe {
        let (route, route_len) = (route.as_ptr(), route.len());
        probe::probe_figure(sheet.as_ptr(), sheet.len(), route, route_len, vehicle, which)
    }
}

/// The square root that distances are made of.
#[cfg(probe)]
pub fn probe_root(n: u64) -> f64 {
    // SAFETY: it is handed a number.
    unsafe { probe::probe_root(n) }
}

#[cfg(not(probe))]
pub fn probe_rounds(_sheet: &[u8], _stops: &[u16], _len: usize, _vehicle: usize) -> Option<usize> {
    no_probe()
}

#[cfg(not(probe))]
pub fn probe_figure(_sheet: &[u8], _route: &[u16], _vehicle: usize, _which: usize) -> f64 {
    no_probe()
}

#[cfg(not(probe))]
pub fn probe_root(_n: u64) -> f64 {
    no_probe()
}

#[cfg(not(probe))]
fn no_probe() -> ! {
    eprintln!("compare: built without the probe; build with PROBE_LIB set to its folder");
    std::process::exit(2)
}
