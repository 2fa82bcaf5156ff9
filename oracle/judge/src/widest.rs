//! The widest segment, of 32,527 pages, and one page more, which is refused by 1.

use crate::cases::id;
use crate::poke::entry;
use crate::trial::{Counts, Trial};
use model::inventory::nibble;
use store::{digest, perform, Answer, Call, Store, PAGE_SIZE};

const WIDEST: usize = 32527;

/// Insert and erase on the last page, whose nibble is the last but one of the inventory.
fn last_page() -> Result<(), String> {
    let mut trial = Trial::new(WIDEST);
    trial.poke(&(0..15).map(|number| entry(number, WIDEST as u64 - 1)).collect::<Vec<_>>());
    let mut counts = Counts::default();
    let reply = trial.call(Call::Insert { length: 3, seed: 1 }, &mut counts)?;
    if reply.first != id(WIDEST as u64 - 1, 0) || nibble(trial.corrected.inventory(), WIDEST - 1) != 2 {
        return Err("the last page was not used".to_string());
    }
    trial.call(Call::Read { id: reply.first }, &mut counts)?;
    trial.call(Call::Erase { id: reply.first }, &mut counts)?;
    Ok(())
}

/// Every call on one page more.
fn too_wide() -> Result<(), String> {
    let segment = vec![0; (WIDEST + 1) * PAGE_SIZE];
    let inventory = vec![0; PAGE_SIZE];
    let mut corrected = corrected::LentStore::new(&segment, &inventory);
    for call in crate::cases::wrong_sizes().1 {
        let reply = perform(&mut corrected, call);
        if reply.answer != Answer::Number(1) || digest(corrected.inventory()) != digest(&inventory) {
            return Err(format!("{call} on {} pages answers {}", WIDEST + 1, reply.answer));
        }
    }
    if corrected.segment() == segment { Ok(()) } else { Err("a refused call changed the segment".to_string()) }
}

pub fn check() -> Result<(), String> {
    last_page()?;
    too_wide()?;
    println!("segments of {WIDEST} pages compared, of {} pages refused by 1", WIDEST + 1);
    Ok(())
}
