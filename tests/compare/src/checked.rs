//! `compare checked`: the checkers of demand 3 and of reasons on the Rust's own plans, which keep them,
//! and the first on plans that are damaged, some of which must not.

use std::process::ExitCode;

use crate::flavours::{drawn, whole_sheet};
use crate::lawful::{judge, Claims};
use crate::lawful_reasons::judge_plan;
use crate::plan::{chains, encode_chains, Chains};
use crate::random::Random;
use crate::reference::plan;
use crate::refusal::METHODS;
use crate::sheet::Sheet;

/// Plans shown that the checker and the Rust do not agree on.
const SHOWN: usize = 3;

/// What is done to a plan: the first two to any plan, and they always break demand 3; the next
/// three to plans whose rounds have to be lawful, the last three to those of insertion alone.
const DAMAGES: [&str; 8] = [
    "a pond left out",
    "a pond twice",
    "two stops swapped",
    "two rounds joined",
    "a set-aside pond put into a round",
    "a stop set aside",
    "each pond a lone round",
    "all ponds set aside",
];
const ALWAYS: usize = 2;
const INSERTION: usize = 5;

#[derive(Default)]
struct Tally {
    plans: [usize; 5],
    broken: usize,
    claims: Claims,
    tried: [usize; DAMAGES.len()],
    caught: [usize; DAMAGES.len()],
}

pub fn run(count: usize, seed: u64) -> ExitCode {
    println!("checked: seed {seed}");
    let mut tally = Tally::default();
    let mut random = Random::new(seed);
    for number in 0.. {
        if tally.plans.iter().sum::<usize>() >= count {
            break;
        }
        tally.try_sheet(seed, number, &mut random);
    }
    println!("  the Rust's plans of methods 0 to 4: {:?}", tally.plans);
    tally.claims.print();
    for ((name, tried), caught) in DAMAGES.iter().zip(tally.tried).zip(tally.caught) {
        println!("  {name:36} {caught:>9} caught of {tried:>9}");
    }
    let blind = tally.caught.contains(&0)
        || tally.caught[..ALWAYS] != tally.tried[..ALWAYS]
        || tally.claims.missing(METHODS);
    if blind {
        println!("  a claim was not checked, or a damage not caught");
    }
    println!("checked: {count} plans, {} broken", tally.broken);
    ExitCode::from(u8::from(blind || tally.broken > 0))
}

impl Tally {
    fn try_sheet(&mut self, seed: u64, number: usize, random: &mut Random) {
        let bytes = match number % 2 {
            0 => drawn(METHODS, seed, number).sheet,
            _ => whole_sheet(METHODS, random),
        };
        let Ok(plan) = plan(METHODS, &bytes) else { return };
        let sheet = Sheet::decode(&bytes);
        self.plans[usize::from(sheet.method)] += 1;
        let mut claims = Claims::default();
        if let Err(what) = judge_plan(&bytes, &plan, &mut claims) {
            self.broken += 1;
            if self.broken <= SHOWN {
                let hex: String = bytes.iter().map(|byte| format!("{byte:02x}")).collect();
                println!("broken: {what}; sheet {number}, method {}, {hex}", sheet.method);
            }
        }
        let chains = chains(&plan, &sheet).expect("the Rust's plan has each pond once");
        let damage = random.below(match (claims.lawful(), claims.insertion()) {
            (false, _) => ALWAYS,
            (true, false) => INSERTION,
            (true, true) => DAMAGES.len(),
        });
        self.claims.add(claims);
        if let Some(damaged) = damaged(damage, &chains, &sheet, random) {
            let plan = encode_chains(sheet.rows.len(), &damaged);
            self.tried[damage] += 1;
            let caught = judge(&bytes, &plan, &mut Claims::default()).is_err();
            self.caught[damage] += usize::from(caught);
        }
    }
}

/// `None` where a plan cannot be damaged so.
fn damaged(damage: usize, plan: &Chains, sheet: &Sheet, random: &mut Random) -> Option<Chains> {
    let mut plan = plan.clone();
    let count = plan.rounds.len();
    let id = sheet.vehicles.first().map(|vehicle| vehicle.id);
    if (count == 0 && damage <= INSERTION) || sheet.depots() >= sheet.rows.len() {
        return None;
    }
    let at = random.below(count.max(1));
    match DAMAGES[damage] {
        "a pond left out" => _ = plan.rounds[at].1.pop(),
        "a pond twice" => plan.aside.push(plan.rounds[at].1[0]),
        "two stops swapped" => {
            let len = plan.rounds[at].1.len();
            let step = (len > 1).then(|| 1 + random.below(len - 1))?;
            let one = random.below(len);
            plan.rounds[at].1.swap(one, (one + step) % len);
        }
        "a stop set aside" => {
            let len = plan.rounds[at].1.len();
            let stop = plan.rounds[at].1.remove(random.below(len));
            plan.aside.push(stop);
        }
        "a set-aside pond put into a round" => {
            let pond = plan.aside.pop()?;
            let len = plan.rounds[at].1.len();
            plan.rounds[at].1.insert(random.below(len + 1), pond);
        }
        "two rounds joined" => {
            let (_, stops) = (count > 1).then(|| plan.rounds.pop())??;
            plan.rounds[random.below(count - 1)].1.extend(stops);
        }
        "each pond a lone round" => {
            let ponds = sheet.depots()..sheet.rows.len();
            plan.rounds = ponds.map(|pond| Some((id?, vec![pond]))).collect::<Option<_>>()?;
            plan.aside = vec![];
        }
        _ => {
            plan.rounds = vec![];
            plan.aside = (sheet.depots()..sheet.rows.len()).collect();
        }
    }
    plan.rounds.retain(|(_, stops)| !stops.is_empty());
    Some(plan)
}
