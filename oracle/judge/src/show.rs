//! Shows a case run on the published and on the corrected Rust side by side.

use crate::cases::Case;
use crate::sequence::Event;
use crate::trial::{faults_of, Counts, Trial};
use model::inventory::{entry, nibble};
use model::page::{self, slot, Kind};
use store::{perform, Call, Reply, Store, DONE, PAGE_SIZE};

fn place(id: u64) -> String {
    format!("({},{})", id / 65536, id % 65536)
}

fn describe_call(call: Call) -> String {
    match call {
        Call::Insert { length, .. } => format!("insert {length}"),
        Call::Allocate { size } => format!("allocate {size}"),
        Call::Read { id } => format!("read {}", place(id)),
        Call::Write { id, length, .. } => format!("write {length} to {}", place(id)),
        Call::Resize { id, size } => format!("resize {} to {size}", place(id)),
        Call::Erase { id } => format!("erase {}", place(id)),
        Call::Scan => "scan".to_string(),
    }
}

fn describe_reply(call: Call, reply: Reply) -> String {
    let Reply { answer, first, second } = reply;
    let more = match call {
        _ if answer != DONE => String::new(),
        Call::Insert { .. } | Call::Allocate { .. } => format!(" {}", place(first)),
        Call::Read { .. } => format!(" page {} offset {} length {second}", first / PAGE_SIZE as u64, first % PAGE_SIZE as u64),
        Call::Scan => format!(" {first} records"),
        _ => String::new(),
    };
    format!("{answer}{more}")
}

fn describe_slot(bytes: &[u8], k: usize) -> String {
    let slot = slot(bytes, k);
    match slot.kind {
        Kind::Plain => format!("ordinary {}+{}", slot.offset, slot.length),
        Kind::Target => format!("target {}+{}", slot.offset, slot.length),
        Kind::Redirect => format!("redirect {}", place(slot.id)),
        Kind::Free => "free".to_string(),
    }
}

fn describe_page(bytes: &[u8]) -> String {
    let count = page::count(bytes);
    let slots: Vec<String> = (0..count.min(6)).map(|k| describe_slot(bytes, k)).collect();
    format!(
        "count {count}, first free {}, data start {}, free {}; {}",
        page::first_free(bytes),
        page::data_start(bytes),
        page::free_space(bytes),
        slots.join(", ")
    )
}

fn describe_inventory(inventory: &[u8], n: usize) -> String {
    let nibbles: Vec<String> = (0..n).map(|page| nibble(inventory, page).to_string()).collect();
    let entries: Vec<String> = (0..15).map(|number| entry(inventory, number).to_string()).collect();
    format!("nibbles {}; entries {}", nibbles.join(" "), entries.join(" "))
}

/// The first bytes that differ past both directories, up to six of them.
fn describe_bytes(one: &[u8], other: &[u8]) -> Option<[String; 2]> {
    let directories = 12 + 8 * page::count(one).max(page::count(other)).min(2046);
    let from = (directories..PAGE_SIZE).find(|&place| one[place] != other[place])?;
    let show = |bytes: &[u8]| {
        let shown: Vec<String> = bytes[from..(from + 6).min(PAGE_SIZE)].iter().map(|byte| format!("{byte:02x}")).collect();
        format!("bytes from {from}: {}", shown.join(" "))
    };
    Some([show(one), show(other)])
}

fn print_pair(what: &str, pair: [String; 2]) {
    println!("  {what}, published: {}", pair[0]);
    println!("  {what}, corrected: {}", pair[1]);
}

fn print_states(one: &dyn Store, other: &dyn Store) {
    let pages = one.segment().chunks(PAGE_SIZE).zip(other.segment().chunks(PAGE_SIZE));
    for (number, (left, right)) in pages.enumerate().filter(|(_, (left, right))| left != right) {
        let pair = [describe_page(left), describe_page(right)];
        let bytes = describe_bytes(left, right);
        let header = (pair[0] != pair[1]).then_some(pair);
        header.into_iter().chain(bytes).for_each(|pair| print_pair(&format!("page {number}"), pair));
    }
    if one.inventory() != other.inventory() {
        let n = one.segment().len() / PAGE_SIZE;
        print_pair("inventory", [describe_inventory(one.inventory(), n), describe_inventory(other.inventory(), n)]);
    }
}

/// Runs a case and prints it; an error if it does not show its fault.
pub fn show(case: &Case) -> Result<(), String> {
    println!("fault {}: {} (n = {})", case.fault, case.title, case.n);
    let mut judged = Trial::new(case.n);
    let mut shown = Trial::new(case.n);
    let mut counts = Counts::default();
    let mut met = Vec::new();
    for event in &case.events {
        match event {
            Event::Pokes(pokes) => {
                pokes.iter().for_each(|poke| println!("  {poke}"));
                judged.poke(pokes);
                shown.poke(pokes);
            }
            Event::Call(call) => {
                if !met.is_empty() {
                    return Err(format!("fault {}: met before the last call", case.fault));
                }
                judged.call(*call, &mut counts)?;
                met = faults_of(&judged);
                let published = describe_reply(*call, perform(&mut shown.original, *call));
                let corrected = describe_reply(*call, perform(&mut shown.corrected, *call));
                println!("  {}: published {published}, corrected {corrected}", describe_call(*call));
            }
        }
    }
    print_states(&shown.original, &shown.corrected);
    let numbers: Vec<String> = met.iter().map(usize::to_string).collect();
    println!("  faults met in the last call: {}", numbers.join(", "));
    if met.contains(&case.fault) && counts.differed[case.fault] > 0 {
        return Ok(());
    }
    Err(format!("fault {}: the case does not show it", case.fault))
}
