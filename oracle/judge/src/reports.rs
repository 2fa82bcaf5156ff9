//! The model's fill report: the worked examples of document 02's Ask 1, and over generated segments and tallies what the request asks of
//! every report.

use crate::fills::{run, unseen, Lent, Run};
use crate::random::Random;
use crate::report_examples::{Call, Example, EXAMPLES};
use crate::soundness::{has_sound_forwarding, has_true_inventory};
use model::inventory::nibble;
use model::page::{self, slot, Kind};
use model::report::{
    fill_report, Tally, CLASSES, FIGURES, FORWARDED, FREE_BYTES, FRESH_PAGES, PAGES, RECORDS, RECORD_BYTES, SLOTS,
};
use model::Model;
use store::{record, Answer, Found, Store, DONE, PAGE_SIZE};

/// A report by the model, or by another store.
pub type Report = fn(&[u8], &mut Tally) -> u64;

/// What a report answered, and the tally before and after.
#[derive(Clone, Copy)]
pub struct Reported {
    pub answer: u64,
    pub before: Tally,
    pub after: Tally,
}

impl Reported {
    /// What was added.
    fn added(&self) -> Tally {
        std::array::from_fn(|figure| self.after[figure] - self.before[figure])
    }
}

fn reported(report: Report, segment: &[u8], before: Tally) -> Reported {
    let mut after = before;
    let answer = report(segment, &mut after);
    Reported { answer, before, after }
}

const NOTHING: Tally = [0; FIGURES];

/// What a figure is called.
fn name(figure: usize) -> String {
    let seven = ["pages", "fresh pages", "slots", "records", "record bytes", "forwarded records", "free bytes"];
    seven.get(figure).map_or_else(|| format!("pages of class {}", figure - CLASSES), |name| name.to_string())
}

store::meetings! {
    /// What a report can meet.
    Met MEETINGS:
    Size "1: not whole pages"
    SizeTally "1: before 9, which the whole pages would answer"
    DamagedFirst "4: on the first page"
    DamagedLater "4: behind sound pages"
    DamagedWiped "4: by a count of 0 alone"
    DamagedTally "4: before 9, which the pages before the damaged one would answer"
    DamagedAhead "4: on the first page, before 9 by the pages behind it"
    TallySeveral "9: by more than one figure"
    TallyLaterPage "9: the first page alone would fit"
    NoPages "0: no pages"
    NoPagesMost "0: no pages, and a tally of 2^64 - 1 throughout"
    FreshZero "0: a fresh page with a header of zeros"
    FreshInitialised "0: a fresh page with the initialised header"
    FreshAlone "0: fresh pages alone"
    InUseAlone "0: pages in use alone"
    EmptyRecord "0: a record of no bytes"
    EmptyTarget "0: a target of 8 bytes"
    FreeSlot "0: a free slot"
    NoRecord "0: a page in use without a record"
    Most "0: a page of 2,046 slots"
    Full "0: a page without a free byte"
    Unsound "0: sound pages, of a segment whose redirects and targets are not"
    Sound "0: forwarded records, each with its redirect"
    Untrue "0: beside an inventory that is not true"
    AnyTally "0: a tally without the law of sums"
    Earlier "0: a tally of earlier segments"
    Between "a refused segment between two that are added"
    AfterTally "a segment that is added after one that was refused by 9"
    Orders "segments added in two orders"
}

/// What was reported and met.
#[derive(Default)]
pub struct ReportCounts {
    pub runs: u64,
    pub reports: u64,
    /// Of the pages that were added.
    pub added: Tally,
    pub answers: [u64; 10],
    /// By figure: how often it alone made the answer 9, became 2^64 - 1, and stayed 2^64 - 1 since nothing was added to it.
    passed: Tally,
    reached: Tally,
    kept: Tally,
    pub met: Vec<u64>,
}

/// No sound page is of class 1, to which only a page without a slot could belong: nothing is ever added to its figure.
fn can_rise(figure: usize) -> bool {
    figure != CLASSES + 1
}

fn pages(segment: &[u8]) -> impl Iterator<Item = &[u8]> {
    segment.chunks_exact(PAGE_SIZE)
}

fn passes(before: &Tally, more: &Tally) -> Vec<usize> {
    (0..FIGURES).filter(|&figure| before[figure].checked_add(more[figure]).is_none()).collect()
}

impl ReportCounts {
    fn meet(&mut self, met: Met) {
        self.meet_if(true, met);
    }

    fn meet_if(&mut self, is: bool, met: Met) {
        self.met.resize(MEETINGS.len(), 0);
        self.met[met as usize] += is as u64;
    }

    /// A run, and what was told of each of its segments.
    pub fn count(&mut self, run: &Run, told: &[Reported]) {
        self.runs += 1;
        for (lent, told) in run.segments.iter().zip(told) {
            self.reports += 1;
            self.answers[told.answer as usize] += 1;
            match told.answer {
                1 => self.count_size(lent, told),
                4 => self.count_damaged(lent, told),
                9 => self.count_passed(lent, told),
                _ => self.count_added(lent, told),
            }
        }
        let adds = |told: &Reported| told.after != told.before;
        let between = told.len() == 3 && adds(&told[0]) && told[1].answer != 0 && adds(&told[2]);
        self.meet_if(between, Met::Between);
        self.meet_if(told.windows(2).any(|two| two[0].answer == 9 && adds(&two[1])), Met::AfterTally);
        self.meet_if(told.iter().filter(|told| adds(told)).count() > 1, Met::Orders);
    }

    fn count_size(&mut self, lent: &Lent, told: &Reported) {
        let whole = lent.segment.len() / PAGE_SIZE * PAGE_SIZE;
        self.meet(Met::Size);
        self.meet_if(reported(fill_report, &lent.segment[..whole], told.before).answer == 9, Met::SizeTally);
    }

    fn count_damaged(&mut self, lent: &Lent, told: &Reported) {
        let first = pages(&lent.segment).position(|page| !page::sound(page)).expect("a page is not sound");
        let damaged: Vec<&[u8]> = pages(&lent.segment).filter(|page| !page::sound(page)).collect();
        let (before, behind) = (&lent.segment[..first * PAGE_SIZE], &lent.segment[(first + 1) * PAGE_SIZE..]);
        let by_pages = |pages: &[u8]| reported(fill_report, pages, told.before).answer;
        self.meet(if first == 0 { Met::DamagedFirst } else { Met::DamagedLater });
        self.meet_if(damaged.iter().all(|page| page::count(page) == 0), Met::DamagedWiped);
        self.meet_if(by_pages(before) == 9, Met::DamagedTally);
        self.meet_if(first == 0 && by_pages(behind) == 9, Met::DamagedAhead);
    }

    fn count_passed(&mut self, lent: &Lent, told: &Reported) {
        let figures = reported(fill_report, &lent.segment, NOTHING).after;
        match passes(&told.before, &figures)[..] {
            [figure] => self.passed[figure] += 1,
            _ => self.meet(Met::TallySeveral),
        }
        self.meet_if(reported(fill_report, &lent.segment[..PAGE_SIZE], told.before).answer == 0, Met::TallyLaterPage);
    }

    fn count_added(&mut self, lent: &Lent, told: &Reported) {
        let figures = told.added();
        for figure in 0..FIGURES {
            self.added[figure] += figures[figure];
            if told.after[figure] == u64::MAX {
                *(if figures[figure] > 0 { &mut self.reached[figure] } else { &mut self.kept[figure] }) += 1;
            }
        }
        let in_use = figures[PAGES] - figures[FRESH_PAGES];
        self.meet_if(figures[PAGES] == 0, Met::NoPages);
        self.meet_if(figures[PAGES] == 0 && told.before == [u64::MAX; FIGURES], Met::NoPagesMost);
        self.meet_if(figures[FRESH_PAGES] > 0 && in_use == 0, Met::FreshAlone);
        self.meet_if(figures[FRESH_PAGES] == 0 && in_use > 0, Met::InUseAlone);
        self.meet_if(!has_sums(&told.before), Met::AnyTally);
        self.meet_if(has_sums(&told.before) && told.before[PAGES] > 0, Met::Earlier);
        self.meet_if(!has_true_inventory(&lent.segment, &lent.inventory), Met::Untrue);
        pages(&lent.segment).for_each(|page| self.count_page(page));
        let sound = has_sound_forwarding(&lent.segment);
        self.meet_if(!sound, Met::Unsound);
        self.meet_if(sound && figures[FORWARDED] > 0, Met::Sound);
    }

    fn count_page(&mut self, page: &[u8]) {
        if page::fresh(page) {
            self.meet(if page[6] == 0 { Met::FreshZero } else { Met::FreshInitialised });
            return;
        }
        let count = page::count(page);
        let any = |wanted: &dyn Fn(&page::Slot) -> bool| (0..count).any(|k| wanted(&slot(page, k)));
        self.meet_if(any(&|slot| slot.kind == Kind::Plain && slot.length == 0), Met::EmptyRecord);
        self.meet_if(any(&|slot| slot.kind == Kind::Target && slot.length == 8), Met::EmptyTarget);
        self.meet_if(any(&|slot| slot.kind == Kind::Free), Met::FreeSlot);
        self.meet_if(!any(&|slot| slot.is_record()), Met::NoRecord);
        self.meet_if(count == 2046, Met::Most);
        self.meet_if(page::free_space(page) == 0, Met::Full);
    }

    pub fn add(&mut self, other: &ReportCounts) {
        self.runs += other.runs;
        self.reports += other.reports;
        let add = |sums: &mut [u64], more: &[u64]| sums.iter_mut().zip(more).for_each(|(sum, more)| *sum += more);
        add(&mut self.added, &other.added);
        add(&mut self.answers, &other.answers);
        add(&mut self.passed, &other.passed);
        add(&mut self.reached, &other.reached);
        add(&mut self.kept, &other.kept);
        self.met.resize(MEETINGS.len(), 0);
        add(&mut self.met, &other.met);
    }

    /// What can be met, and how often it was.
    fn all_met(&self) -> Vec<(String, u64)> {
        let met = MEETINGS.iter().zip(&self.met).map(|(name, &times)| (name.to_string(), times));
        let of = |times: Tally, what: fn(String) -> String| (0..FIGURES).map(move |figure| (figure, what(name(figure)), times[figure]));
        let rising = of(self.passed, |name| format!("9: by {name} alone"))
            .chain(of(self.reached, |name| format!("0: {name} become 2^64 - 1")))
            .chain(of(self.added, |name| format!("0: {name} added")))
            .filter(|&(figure, _, _)| can_rise(figure));
        let kept = of(self.kept, |name| format!("0: {name} stay 2^64 - 1, as nothing is added"));
        met.chain(rising.chain(kept).map(|(_, name, times)| (name, times))).collect()
    }

    /// What no report met.
    pub fn holes(&self) -> Vec<String> {
        self.all_met().into_iter().filter(|(_, times)| *times == 0).map(|(name, _)| name).collect()
    }

    /// How many reports there were, and what was added, in a line.
    pub fn told(&self) -> String {
        let times: Vec<String> = [0, 1, 4, 9].iter().map(|&answer| format!("{answer}: {}", self.answers[answer])).collect();
        let added = &self.added;
        format!(
            "{} reports with {} tallies; answers {}; {} pages added, {} of them fresh, with {} records, {} forwarded; 9 by each of {} figures alone",
            self.reports,
            self.runs,
            times.join(", "),
            added[PAGES],
            added[FRESH_PAGES],
            added[RECORDS],
            added[FORWARDED],
            self.passed.iter().filter(|&&times| times > 0).count()
        )
    }

    fn print(&self) {
        println!("{}", self.told());
        println!("met:");
        for (name, times) in self.all_met() {
            println!("{times:9}  {name}");
        }
        let holes = self.holes();
        println!("never met: {}", if holes.is_empty() { "none".to_string() } else { holes.join("; ") });
    }
}

/// What an example begins with: its calls are made by the model.
fn begin(example: &Example) -> Result<Vec<u8>, String> {
    let mut model = Model::new(&example.segment(), &[0; PAGE_SIZE]);
    for call in example.calls {
        let id = |page: u64, slot: u16| page * 65536 + u64::from(slot);
        let answer = match *call {
            Call::Insert(length) => model.insert_record(&record(length as u64, 1)).0,
            Call::Write(page, slot, length) => model.write_record(id(page, slot), &record(length as u64, 2)),
            Call::Erase(page, slot) => model.erase_record(id(page, slot)),
        };
        if answer != DONE {
            return Err(format!("{}: a call before the report answers {answer}", example.title));
        }
    }
    let mut segment = model.segment().to_vec();
    example.set(&mut segment);
    Ok(segment)
}

fn check_example(example: &Example) -> Result<(), String> {
    let told = reported(fill_report, &begin(example)?, example.before);
    if (told.answer, told.after) != (example.answer, example.after) {
        return Err(format!("{}: answers {} and leaves {:?}", example.title, told.answer, told.after));
    }
    Ok(())
}

/// Lengths that are refused by 1, and those of no pages and of the most.
fn check_sizes() -> Result<(), String> {
    for (length, answer) in [(1, 1), (16383, 1), (16385, 1), (32527 * PAGE_SIZE + 1, 1), (32528 * PAGE_SIZE, 1), (0, 0), (32527 * PAGE_SIZE, 0)] {
        let told = reported(fill_report, &vec![0; length], NOTHING);
        let pages = if answer == 0 { (length / PAGE_SIZE) as u64 } else { 0 };
        let mut wanted = NOTHING;
        (wanted[PAGES], wanted[FRESH_PAGES], wanted[CLASSES]) = (pages, pages, pages);
        if (told.answer, told.after) != (answer, wanted) {
            return Err(format!("{length} bytes: answers {} and leaves {:?}", told.answer, told.after));
        }
    }
    Ok(())
}

/// The examples, each with every number; how many there are.
pub fn check_examples() -> Result<usize, String> {
    check_sizes()?;
    EXAMPLES.iter().try_for_each(check_example)?;
    Ok(EXAMPLES.len())
}

/// "For pages in use, 12 each, 8 per slot, record bytes, 8 per forwarded record and free bytes must sum to 16,384 per page."
fn has_sums(tally: &Tally) -> bool {
    let of = |figure: usize| u128::from(tally[figure]);
    let Some(used) = of(PAGES).checked_sub(of(FRESH_PAGES)) else { return false };
    12 * used + 8 * of(SLOTS) + of(RECORD_BYTES) + 8 * of(FORWARDED) + of(FREE_BYTES) == 16384 * used
}

/// "The 16 class figures sum to pages; class 0 is fresh pages."
fn has_classes(tally: &Tally) -> bool {
    let sum: u128 = tally[CLASSES..].iter().map(|&pages| u128::from(pages)).sum();
    sum == u128::from(tally[PAGES]) && tally[CLASSES] == tally[FRESH_PAGES]
}

/// How many redirects there are, each of which has its target on a sound segment.
fn redirects(segment: &[u8]) -> u64 {
    let of_page = |page: &[u8]| (0..page::count(page)).filter(|&k| slot(page, k).kind == Kind::Redirect).count();
    pages(segment).map(of_page).sum::<usize>() as u64
}

/// A whole scan by the corrected Rust: its records, or nothing where it meets a page that is not sound.
fn scanned(lent: &Lent) -> Result<Option<Vec<Found>>, String> {
    match corrected::LentStore::new(&lent.segment, &lent.inventory).scan() {
        (DONE, found) => Ok(Some(found)),
        (Answer::Number(4), _) => Ok(None),
        (ended, _) => Err(format!("the scan ends by {ended}")),
    }
}

/// The figures of a segment whose pages are sound, by its scan, its redirects, its inventory, its parts and its like.
fn check_figures(report: Report, lent: &Lent, figures: &Tally, found: &[Found], random: &mut Random) -> Result<(), String> {
    let fails = |what: &str| Err(format!("{what}: {figures:?}"));
    let n = (lent.segment.len() / PAGE_SIZE) as u64;
    if figures[PAGES] != n || figures[CLASSES + 1] != 0 {
        return fails("pages, or pages of class 1");
    }
    if !has_sums(figures) {
        return fails("the sum for pages in use");
    }
    if !has_classes(figures) {
        return fails("the sum of the classes");
    }
    let bytes: u64 = found.iter().map(|found| found.length).sum();
    if (figures[RECORDS], figures[RECORD_BYTES]) != (found.len() as u64, bytes) {
        return fails("records and their bytes by the scan");
    }
    if has_sound_forwarding(&lent.segment) && figures[FORWARDED] != redirects(&lent.segment) {
        return fails("forwarded records by the redirects");
    }
    if has_true_inventory(&lent.segment, &lent.inventory) {
        let mut nibbles = [0; 16];
        (0..n as usize).for_each(|page| nibbles[nibble(&lent.inventory, page)] += 1);
        if figures[CLASSES..] != nibbles {
            return fails("classes by the nibbles");
        }
    }
    let (first, rest) = lent.segment.split_at(random.below(n + 1) as usize * PAGE_SIZE);
    let parts = reported(report, rest, reported(report, first, NOTHING).after);
    if (parts.answer, parts.after) != (0, *figures) {
        return fails("the segment in two parts");
    }
    let like = reported(report, &unseen(random, &lent.segment), NOTHING);
    if (like.answer, like.after) != (0, *figures) {
        return fails("a segment alike");
    }
    Ok(())
}

/// A report with this tally before, and what the request asks of it.
fn check_report(report: Report, lent: &Lent, before: Tally, random: &mut Random) -> Result<Reported, String> {
    let told = reported(report, &lent.segment, before);
    let from_nothing = reported(report, &lent.segment, NOTHING);
    let found = if lent.has_right_size() { scanned(lent)? } else { None };
    let (first, wanted) = match &found {
        _ if !lent.has_right_size() => (1, 1),
        None => (4, 4),
        Some(found) => {
            check_figures(report, lent, &from_nothing.after, found, random)?;
            (0, if passes(&before, &from_nothing.after).is_empty() { 0 } else { 9 })
        }
    };
    if (from_nothing.answer, told.answer) != (first, wanted) {
        return Err(format!("answers {} and {}, should be {first} and {wanted}", from_nothing.answer, told.answer));
    }
    if told.answer != 0 && told.after != before || first != 0 && from_nothing.after != NOTHING {
        return Err("a refused segment adds something".to_string());
    }
    if told.answer == 0 {
        let sums: Tally = std::array::from_fn(|figure| before[figure] + from_nothing.after[figure]);
        if told.after != sums {
            return Err(format!("{before:?} and {:?} become {:?}", from_nothing.after, told.after));
        }
        if has_sums(&before) != has_sums(&sums) || has_classes(&before) && !has_classes(&sums) {
            return Err("the sums' or the classes' law is not kept".to_string());
        }
    }
    Ok(told)
}

/// The tally after a run from the last segment to the first, if none is refused by 9.
fn backwards(report: Report, run: &Run) -> Option<Tally> {
    let mut tally = run.tally;
    let fits = |lent: &Lent| report(&lent.segment, &mut tally) != 9;
    run.segments.iter().rev().all(fits).then_some(tally)
}

/// A run by such reports, and all that is asked of it; what was told of each segment.
pub fn check_run(report: Report, run: &Run, seed: u64) -> Result<Vec<Reported>, String> {
    let (mut random, mut before, mut told) = (Random::new(seed), run.tally, vec![]);
    for (place, lent) in run.segments.iter().enumerate() {
        let one = check_report(report, lent, before, &mut random).map_err(|what| format!("seed {seed}, segment {place}: {what}"))?;
        before = one.after;
        told.push(one);
    }
    let (there, back) = (told.iter().all(|told| told.answer != 9).then_some(before), backwards(report, run));
    if there != back {
        return Err(format!("seed {seed}: {there:?}, and in the other order {back:?}"));
    }
    Ok(told)
}

/// The examples, and so many runs; an error also where something was never met.
pub fn check(runs: u64) -> Result<(), String> {
    println!("worked examples of Ask 1 met by the model, 12 in both its forms: {}", check_examples()?);
    let mut counts = ReportCounts::default();
    for seed in 1..=runs {
        let run = run(seed);
        let told = check_run(fill_report, &run, seed)?;
        counts.count(&run, &told);
    }
    counts.print();
    if counts.holes().is_empty() { Ok(()) } else { Err("not everything was met".to_string()) }
}
