//! Wrong readings of whose rounds are walked, and how (document 02, requests One and Four too).

use crate::cross::unmarked;
use crate::sheet::{Sheet, HOME, REST, WINDOW};
use crate::walked::Walked;

#[derive(Clone, Copy, PartialEq)]
pub enum WrongWalk {
    FirstVehicle,
    FirstDepot,
    NoRest,
    NoRestAtHome,
    NoDue,
}

/// The rounds walked so; `None` where that makes no difference.
pub fn walked_otherwise(right: &Walked, wrong: WrongWalk) -> Option<Walked> {
    let (mut sheet, mut chains) = (right.sheet.clone(), right.chains.clone());
    let (depots, has_home) = (sheet.depots(), has_mark(&sheet, HOME));
    match wrong {
        WrongWalk::FirstVehicle if sheet.vehicles.len() > 1 => {
            chains.rounds.iter_mut().for_each(|(id, _)| *id = sheet.vehicles[0].id);
        }
        WrongWalk::FirstDepot if depots > 1 => {
            sheet.vehicles.iter_mut().for_each(|vehicle| vehicle.depot = 0);
        }
        WrongWalk::NoRest if has_mark(&sheet, REST) => {
            sheet.vehicles.iter_mut().for_each(|vehicle| vehicle.marks &= !(REST | HOME));
        }
        WrongWalk::NoRestAtHome if has_home => sheet = unmarked(&sheet),
        WrongWalk::NoDue if has_home => {
            sheet.rows.iter_mut().take(depots).for_each(|row| row.marks &= !WINDOW);
        }
        _ => return None,
    }
    Some(Walked::new(sheet, chains))
}

fn has_mark(sheet: &Sheet, mark: u32) -> bool {
    sheet.vehicles.iter().any(|vehicle| vehicle.marks & mark != 0)
}
