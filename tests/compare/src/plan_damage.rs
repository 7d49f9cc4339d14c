//! Damage to a plan that is read, and noise where it is not.

use crate::plan::{put_reason, reason_at, round_at, stop_at, Chains, MOST_REASON};
use crate::random::Random;
use crate::sheet::{field, Sheet};

pub const DAMAGES: [&str; 10] = [
    "damaged: over `rows` rounds",
    "damaged: an unknown id",
    "damaged: a link to no row",
    "damaged: a chain into itself",
    "damaged: a chain into another",
    "damaged: a chain cut short",
    "damaged: another number of rounds",
    "damaged: any link",
    "damaged: any byte",
    "damaged: a reason above 8",
];
/// The last of them.
pub const OVER_REASON: usize = 9;

/// Puts noise where no one reads, and any reasons where they are.
pub fn fill_unread(bytes: &mut [u8], plan: &Chains, rows: usize, random: &mut Random) {
    let count = plan.rounds.len();
    let id_and_first = |k| [round_at(k)..round_at(k) + 4, round_at(k) + 8..round_at(k) + 10];
    let next = |stop| stop_at(rows, stop)..stop_at(rows, stop) + 2;
    let links = (0..count).flat_map(id_and_first).chain((1..rows).map(next));
    let read: Vec<_> = links.chain(std::iter::once(0..4)).collect();
    let kept = bytes.to_vec();
    bytes.iter_mut().for_each(|byte| *byte = random.bits() as u8);
    read.into_iter().for_each(|range| bytes[range.clone()].copy_from_slice(&kept[range]));
    for &stop in &plan.aside {
        put_reason(bytes, rows, stop, random.below(usize::from(MOST_REASON) + 1) as u16);
    }
}

/// One of the damages, by its number, where the plan has what it is done to.
pub fn damage_plan(
    bytes: &mut [u8],
    sheet: &Sheet,
    plan: &Chains,
    damage: usize,
    random: &mut Random,
) {
    let (rows, count) = (sheet.rows.len(), plan.rounds.len());
    let links = links(plan, rows);
    let chain = random.below(links.len());
    let (ats, stops) = &links[chain];
    let mut put = |at: usize, value: usize| {
        bytes[at..at + 2].copy_from_slice(&(value as u16).to_le_bytes());
    };
    match DAMAGES[damage] {
        "damaged: over `rows` rounds" => over_rows(bytes, sheet, count, random),
        "damaged: an unknown id" if count > 0 => {
            let at = round_at(random.below(count));
            let id = u32::from_le_bytes(field(bytes, at));
            let wrong = id ^ random.pick(&[1, 64, 1 << 8, 1 << 16, 1 << 31, u32::MAX]);
            bytes[at..at + 4].copy_from_slice(&wrong.to_le_bytes());
        }
        "damaged: a link to no row" => {
            let at = random.below(ats.len());
            let low = stops.get(at).copied().unwrap_or(0);
            let far = [rows, rows + 1, 256 + low, (1 << 15) + low, usize::from(u16::MAX)];
            put(ats[at], random.pick(&far));
        }
        "damaged: a chain into itself" if !stops.is_empty() => {
            put(ats[stops.len()], random.pick(stops))
        }
        "damaged: a chain into another" => {
            let others = links.iter().enumerate().filter(|(k, _)| *k != chain);
            let others: Vec<usize> = others.flat_map(|(_, (_, stops))| stops.clone()).collect();
            if !others.is_empty() {
                put(ats[random.pick(&[0, stops.len()])], random.pick(&others));
            }
        }
        "damaged: a chain cut short" if !stops.is_empty() => {
            let at = random.below(stops.len());
            put(ats[at], random.pick(&[0, stops.get(at + 1).copied().unwrap_or(0)]));
        }
        "damaged: another number of rounds" => put(0, random.below(rows + 1)),
        "damaged: any link" if rows > 0 => {
            let any = random.below(rows);
            put(random.pick(&[2, stop_at(rows, any), round_at(any) + 8]), random.below(rows + 2));
        }
        "damaged: any byte" => {
            let at = random.below(bytes.len());
            bytes[at] = random.bits() as u8;
        }
        "damaged: a reason above 8" if !plan.aside.is_empty() => {
            let low = 256 + random.below(9);
            let at = reason_at(rows, random.pick(&plan.aside));
            put(at, random.pick(&[9, 9, 10, 255, low, low, 1 << 15, usize::from(u16::MAX)]));
        }
        _ => (),
    }
}

/// A link to a row that is a depot, often one that ended a chain; where there is one depot, no damage.
pub fn link_depot(bytes: &mut [u8], sheet: &Sheet, plan: &Chains, random: &mut Random) {
    let links = links(plan, sheet.rows.len());
    let (ats, _) = &links[random.below(links.len())];
    let any = random.below(ats.len());
    let at = ats[random.pick(&[any, ats.len() - 1])];
    let depot = random.below(sheet.depots()) as u16;
    if depot > 0 {
        bytes[at..at + 2].copy_from_slice(&depot.to_le_bytes());
    }
}

/// Where the links of each chain stand, the last of them 0, and its stops.
fn links(plan: &Chains, rows: usize) -> Vec<(Vec<usize>, Vec<usize>)> {
    let rounds = plan.rounds.iter().enumerate();
    let rounds = rounds.map(|(k, (_, stops))| (round_at(k) + 8, stops));
    let chains = rounds.chain([(2, &plan.aside)]);
    let of = |(first, stops): (usize, &Vec<usize>)| {
        let next = stops.iter().map(|&stop| stop_at(rows, stop));
        ([first].into_iter().chain(next).collect(), stops.clone())
    };
    chains.map(of).collect()
}

/// More rounds than there are records. At times those after the plan's are empty rounds, and so is
/// what stands where the next record would.
fn over_rows(bytes: &mut [u8], sheet: &Sheet, count: usize, random: &mut Random) {
    let rows = sheet.rows.len();
    let over = random.pick(&[rows + 1, rows + 1, rows + 2, rows | 256, 1 << 15, 65535]) as u16;
    bytes[..2].copy_from_slice(&over.to_le_bytes());
    let Some(vehicle) = sheet.vehicles.first() else { return };
    if rows > 0 && random.one_in(2) {
        for at in (count..=rows).map(round_at) {
            bytes[at..at + 4].copy_from_slice(&vehicle.id.to_le_bytes());
            bytes[at + 8..at + 10].fill(0);
        }
    }
}
