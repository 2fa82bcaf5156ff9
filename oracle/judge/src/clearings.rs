//! The model's polishing rule: the worked examples of document 02's Ask 9, and over generated segments what the request asks of every
//! answer.

use crate::exchanges::{is_segment, scanned};
use crate::fills::unseen;
use crate::mirrors::{case, packed, shuffle, Asked, Case, Head};
use crate::misjudged::{Broken, SLIPS};
use crate::polishing_examples::{record, Call, Example, EXAMPLES};
use crate::random::Random;
use crate::slips::check_noticed;
use crate::soundness::has_sound_forwarding;
use model::page::{self, slot, Kind};
use model::{exchange, polishing, Model};
use std::ops::RangeInclusive;
use store::{Store, DONE, PAGE_SIZE};

/// The two calls, of the model or of another store, over any bytes.
pub trait Polishing {
    /// The answer, and 1 if the mirror is cleared.
    fn cleared(&self, segment: &[u8], asked: Asked) -> (u64, u64);

    /// The answer; the words have a bit for each reading. No edition is asked for.
    fn whole_readings(&self, segment: &[u8], asked: Asked, words: &mut [u64]) -> u64;
}

/// The model's calls, over the model's scan; what is wanted of them comes from the corrected Rust's.
pub struct PlainRule;

impl Polishing for PlainRule {
    fn cleared(&self, segment: &[u8], asked: Asked) -> (u64, u64) {
        polishing::cleared(&mut Model::new(segment, &[0; PAGE_SIZE]), asked.mirror, asked.rows, asked.edition)
    }

    fn whole_readings(&self, segment: &[u8], asked: Asked, words: &mut [u64]) -> u64 {
        polishing::whole_readings(&mut Model::new(segment, &[0; PAGE_SIZE]), asked.mirror, asked.rows, words)
    }
}

store::meetings! {
    /// What an answer can meet.
    Met MEETINGS:
    Size "1: not whole pages"
    SizeRule "1: before 14"
    Edition "14: another edition"
    WideEdition "14: an edition 2^32 or 2^63 above 1 or 2"
    NoRows "14: no rows"
    ManyRows "14: 2,049 rows"
    WideRows "14: rows 2^32 or 2^63 above some"
    Both "14: edition and rows"
    RuleDamaged "14: before 4"
    DamagedFirst "4: on the first page"
    DamagedLast "4: on the last page alone"
    DamagedYes "4: a page alone, and without it a yes"
    NoPages "0: no pages"
    NoReading "0: records, and no reading of the mirror"
    WideMirror "0: a mirror 2^32 or 2^63 above one that would be cleared"
    AnotherMirror "0: another mirror has whole readings, and this one none"
    No1None "edition 1, no: readings, of which none is whole"
    No1One "edition 1, no: one whole reading"
    Yes1Two "edition 1, yes: two whole readings"
    Yes1More "edition 1, yes: more"
    No2Two "edition 2, no: one of each side"
    No2Mounted "edition 2, no: three or more, all as mounted"
    No2Turned "edition 2, no: three or more, all turned"
    Yes2Three "edition 2, yes: three whole readings"
    Yes2OneMounted "edition 2, yes: one as mounted, and more than one turned"
    Yes2OneTurned "edition 2, yes: more than one as mounted, and one turned"
    Yes2Many "edition 2, yes: more than one of each side"
    OnlyMounted32767 "edition 2, yes: 32,767 alone is as mounted"
    OnlyTurned32768 "edition 2, yes: 32,768 alone is turned"
    Whole0 "whole: reading 0"
    Whole63 "whole: readings 63 and 64"
    WholeHalf "whole: readings 32,767 and 32,768"
    WholeLast "whole: reading 65,535"
    WholeAlone "whole: two in one word"
    Words3 "whole: in three words or more"
    Rows1 "whole: one row"
    RowsMany "whole: more than two hundred rows"
    Rows2047 "whole: 2,047 rows"
    Rows2048 "whole: 2,048 rows"
    Forwarded "whole: with a forwarded row"
    TargetAlone "whole: with a row in a target that no redirect names"
    Seven "whole: beside a record of 7 bytes that begins as the reading does"
    MissingFirst "not whole: row 0 missing"
    MissingLast "not whole: the last row missing"
    Twice "not whole: a row twice"
    TwiceMissing "not whole: as many records as rows, and one missing"
    OtherNext "not whole: the row `rows` beside all"
    OtherFar "not whole: row 65,535 beside all"
    OtherMissing "not whole: as many records as rows, and one of another row"
    Other2047 "not whole: row 2,047 of 2,047 rows, beside all"
    Other2048 "not whole: row 2,048 of 2,048 rows, beside all"
    MoreStays "one whole reading more: a yes stays"
    MoreTurns "one whole reading more: a no becomes a yes"
    MoreMended "one whole reading more: a reading that was not whole"
    Back "round trip by a file"
    BackYes "round trip by a file: a yes"
    Alike "a segment alike: a yes"
    Redirects "redirects and targets that are not sound: a yes"
}

/// What was asked and answered, and met.
#[derive(Default)]
pub struct ClearingCounts {
    pub cases: u64,
    pub asked: u64,
    pub answers: [u64; 15],
    /// By edition, the mirrors that are cleared and those that are not.
    pub yes: [u64; 2],
    pub no: [u64; 2],
    /// The readings that are whole, and those that are not.
    pub whole: u64,
    pub spoiled: u64,
    pub met: Vec<u64>,
}

/// The readings of the pages, sorted; or the answer for their bytes, 1 or 4.
type Heads = Result<Vec<Head>, u64>;

fn heads_of(segment: &[u8]) -> Result<Heads, String> {
    if !is_segment(segment) {
        return Ok(Err(1));
    }
    let Some(records) = scanned(segment)? else { return Ok(Err(4)) };
    let mut heads: Vec<Head> = records.iter().filter_map(|record| Head::of(record)).collect();
    heads.sort_unstable();
    Ok(Ok(heads))
}

/// The readings of a mirror, each with its rows upward.
fn readings(heads: &[Head], mirror: u64) -> impl Iterator<Item = &[Head]> {
    let of_mirror = move |reading: &&[Head]| u64::from(reading[0].mirror) == mirror;
    heads.chunk_by(|one, next| (one.mirror, one.reading) == (next.mirror, next.reading)).filter(of_mirror)
}

/// "each row below the named number of rows is there exactly once, with no other row": sorted, they are these.
fn is_whole(reading: &[Head], rows: u64) -> bool {
    reading.iter().map(|head| u64::from(head.row)).eq(0..rows)
}

fn whole(heads: &[Head], asked: Asked) -> Vec<u16> {
    readings(heads, asked.mirror).filter(|reading| is_whole(reading, asked.rows)).map(|reading| reading[0].reading).collect()
}

/// An edition is a list of demands: at least so many whole readings with numbers of a range.
fn demands(edition: u64) -> Option<Vec<(usize, RangeInclusive<u16>)>> {
    match edition {
        1 => Some(vec![(2, 0..=65535)]),
        2 => Some(vec![(3, 0..=65535), (1, 0..=32767), (1, 32768..=65535)]),
        _ => None,
    }
}

fn is_cleared(whole: &[u16], edition: u64) -> bool {
    let is_met = |(least, range): (usize, RangeInclusive<u16>)| whole.iter().filter(|number| range.contains(number)).count() >= least;
    demands(edition).is_some_and(|demands| demands.into_iter().all(is_met))
}

fn rows_named(rows: u64) -> bool {
    rows > 0 && rows < 2049
}

/// What was told of one question.
#[derive(Clone, PartialEq, Eq, Debug)]
pub struct Told {
    pub asked: Asked,
    pub answer: u64,
    pub cleared: bool,
    pub whole: Vec<u16>,
}

/// What the request wants to be told, of readings that are sorted, or where the bytes are refused.
fn wanted(heads: &Heads, asked: Asked) -> Told {
    let refused = |answer| Told { asked, answer, cleared: false, whole: vec![] };
    match heads {
        Err(1) => refused(1),
        _ if demands(asked.edition).is_none() || !rows_named(asked.rows) => refused(14),
        Err(number) => refused(*number),
        Ok(heads) => {
            let whole = whole(heads, asked);
            Told { asked, answer: 0, cleared: is_cleared(&whole, asked.edition), whole }
        }
    }
}

/// Words that no list has written.
fn untouched(length: usize) -> Vec<u64> {
    (0..length as u64).map(|k| k.wrapping_mul(0x9E37_79B9_7F4A_7C15) | 1).collect()
}

/// The words after a list of these readings.
fn listed(mut words: Vec<u64>, whole: &[u16]) -> Vec<u64> {
    words[..1024].fill(0);
    whole.iter().for_each(|reading| words[usize::from(reading / 64)] |= 1 << (reading % 64));
    words
}

/// A list of the whole readings into so many words: what is wanted, and no other word written.
fn check_list(polishing: &dyn Polishing, segment: &[u8], heads: &Heads, asked: Asked, length: usize) -> Result<(), String> {
    let (before, mut words) = (untouched(length), untouched(length));
    let told = polishing.whole_readings(segment, asked, &mut words);
    let of_edition_1 = wanted(heads, Asked { edition: 1, ..asked });
    let answer = if of_edition_1.answer == 0 && length < 1024 { 11 } else { of_edition_1.answer };
    if told != answer {
        return Err(format!("{asked:?}, {length} words: a list answers {told}, should be {answer}"));
    }
    if words != if answer == 0 { listed(before, &of_edition_1.whole) } else { before } {
        return Err(format!("{asked:?}, {length} words: others are left than should be"));
    }
    Ok(())
}

/// What the calls tell is what is wanted of these readings.
fn check_asked(polishing: &dyn Polishing, segment: &[u8], heads: &Heads, asked: Asked, lengths: &[usize]) -> Result<Told, String> {
    let wanted = wanted(heads, asked);
    let told = polishing.cleared(segment, asked);
    if told != (wanted.answer, wanted.cleared as u64) {
        return Err(format!("{asked:?} answers {told:?}, should be {}, {}", wanted.answer, wanted.cleared as u64));
    }
    lengths.iter().try_for_each(|&length| check_list(polishing, segment, heads, asked, length))?;
    Ok(wanted)
}

/// Another segment is answered alike.
fn check_alike(polishing: &dyn Polishing, segment: &[u8], told: &[Told], what: &str) -> Result<(), String> {
    for told in told {
        let (answer, cleared) = polishing.cleared(segment, told.asked);
        if (answer, cleared == 1) != (told.answer, told.cleared) {
            return Err(format!("{what}: {:?} answers {answer}, {cleared}, and {}, {} before", told.asked, told.answer, told.cleared));
        }
    }
    Ok(())
}

/// The readings in any order on other pages, without their data, and records that are none between them.
fn again(random: &mut Random, heads: &[Head]) -> Vec<u8> {
    let mut records: Vec<Vec<u8>> = heads.iter().map(|head| head.bytes()).collect();
    for _ in 0..random.below(4) {
        let begin = heads.first().map_or(vec![0; 8], |head| head.bytes());
        records.push(begin[..random.below(8) as usize].to_vec());
    }
    shuffle(random, &mut records);
    packed(&records)
}

/// The export imported into pages of zeros, both by the model; nothing where there are many readings.
fn round_trip(segment: &[u8]) -> Result<Option<Vec<u8>>, String> {
    let n = segment.len() / PAGE_SIZE;
    let mut file = vec![0; segment.len()];
    let (answer, length, _) = exchange::export(&mut Model::new(segment, &[0; PAGE_SIZE]), &mut file);
    let mut back = Model::new(&vec![0; (2 * n + 1) * PAGE_SIZE], &[0; PAGE_SIZE]);
    if answer != 0 {
        return Err(format!("the export answers {answer}"));
    }
    let readings = exchange::parse(&file[..length as usize]).map_err(|number| format!("the export is no file: {number}"))?;
    if readings.len() > 40 {
        return Ok(None);
    }
    match exchange::import(&mut back, &file[..length as usize]) {
        (0, _) => Ok(Some(back.segment().to_vec())),
        told => Err(format!("the import answers {told:?}")),
    }
}

/// The readings, and one more whole one of the mirror: in the place of one that is not whole, or new.
fn with_one_more(random: &mut Random, heads: &[Head], asked: Asked, whole: &[u16]) -> (u16, Vec<Head>) {
    let mirror = asked.mirror as u32;
    let spoiled: Vec<u16> = readings(heads, asked.mirror).map(|reading| reading[0].reading).filter(|number| !whole.contains(number)).collect();
    let any = random.next() as u16;
    let new = random.pick(&[any, 0, 32767, 32768, 65535]);
    let number = if spoiled.is_empty() || random.one_in(3) { new } else { random.pick(&spoiled) };
    let mut more: Vec<Head> = heads.iter().copied().filter(|head| (head.mirror, head.reading) != (mirror, number)).collect();
    more.extend((0..asked.rows as u16).map(|row| Head { mirror, reading: number, row }));
    shuffle(random, &mut more);
    (number, more)
}

/// What came of the laws: whether one whole reading more was there before, though not whole, and the answers by both editions before and with
/// it; whether there was a round trip.
struct Laws {
    mended: bool,
    more: Vec<(Told, bool)>,
    back: bool,
}

/// "By the readings alone", "Alike", "More" and "Edition 2's yes implies edition 1's", of what was told by both editions.
fn check_laws(polishing: &dyn Polishing, segment: &[u8], heads: &[Head], told: &[Told], random: &mut Random) -> Result<Laws, String> {
    let both = &told[..2];
    if both[1].cleared && !both[0].cleared {
        return Err("edition 2 says yes and edition 1 no".to_string());
    }
    check_alike(polishing, &unseen(random, segment), both, "a segment alike")?;
    check_alike(polishing, &again(random, heads), told, "the readings in another order, without data")?;
    let back = round_trip(segment)?;
    if let Some(back) = &back {
        check_alike(polishing, back, both, "after a round trip")?;
    }
    let (number, more) = with_one_more(random, heads, both[0].asked, &both[0].whole);
    let mended = heads.iter().any(|head| (u64::from(head.mirror), head.reading) == (both[0].asked.mirror, number));
    let segment = packed(&more.iter().map(|head| head.bytes()).collect::<Vec<_>>());
    let mut laws = Laws { mended, more: vec![], back: back.is_some() };
    for before in both {
        let (answer, cleared) = polishing.cleared(&segment, before.asked);
        if answer != 0 || before.cleared && cleared == 0 {
            return Err(format!("{:?} and one whole reading more, {number}: {answer}, {cleared}, and {} before", before.asked, before.cleared));
        }
        laws.more.push((before.clone(), cleared == 1));
    }
    Ok(laws)
}

/// What was told of a case, its readings, and what came of the laws where its pages are sound.
pub struct Checked {
    told: Vec<Told>,
    heads: Heads,
    laws: Option<Laws>,
}

/// All that is asked of a case by these calls.
pub fn check_case(polishing: &dyn Polishing, case: &Case, seed: u64) -> Result<Checked, String> {
    let mut random = Random::new(seed);
    let fails = |what: String| format!("seed {seed}: {what}");
    let heads = heads_of(&case.segment).map_err(fails)?;
    if let (Some(put_in), Ok(heads)) = (&case.heads, &heads) {
        let mut put_in = put_in.clone();
        put_in.sort_unstable();
        if put_in != *heads {
            return Err(fails("other readings than were put in".to_string()));
        }
    }
    let mut told = vec![];
    for &asked in &case.asked {
        let lengths = [1024 + random.pick(&[0, 0, 1, 40]), random.pick(&[0, 1, 1023, 1023])];
        told.push(check_asked(polishing, &case.segment, &heads, asked, &lengths).map_err(fails)?);
    }
    let laws = match &heads {
        Ok(heads) => Some(check_laws(polishing, &case.segment, heads, &told, &mut random).map_err(fails)?),
        Err(_) => None,
    };
    Ok(Checked { told, heads, laws })
}

impl ClearingCounts {
    fn meet(&mut self, met: Met) {
        self.meet_if(true, met);
    }

    fn meet_if(&mut self, is: bool, met: Met) {
        self.met.resize(MEETINGS.len(), 0);
        self.met[met as usize] += is as u64;
    }

    pub fn count(&mut self, case: &Case, checked: &Checked) {
        self.cases += 1;
        for one in &checked.told {
            self.asked += 1;
            self.answers[one.answer as usize] += 1;
            match (one.answer, &checked.heads) {
                (0, Ok(heads)) => self.count_answer(case, heads, one),
                (14, _) => self.count_rule(case, one.asked),
                (4, _) => self.count_damaged(case, one.asked),
                _ => {
                    self.meet(Met::Size);
                    self.meet_if(demands(one.asked.edition).is_none() || !rows_named(one.asked.rows), Met::SizeRule);
                }
            }
        }
        if let Some(laws) = &checked.laws {
            self.count_laws(case, laws);
        }
    }

    fn count_rule(&mut self, case: &Case, asked: Asked) {
        let (edition, rows) = (demands(asked.edition).is_none(), !rows_named(asked.rows));
        let is_wide = |number: u64, low: u64| [1 << 32, 1 << 63].iter().any(|&more| number.wrapping_sub(more) <= low);
        self.meet_if(edition && !rows, Met::Edition);
        self.meet_if(is_wide(asked.edition, 2), Met::WideEdition);
        self.meet_if(!edition && asked.rows == 0, Met::NoRows);
        self.meet_if(!edition && asked.rows == 2049, Met::ManyRows);
        self.meet_if(!edition && is_wide(asked.rows, 2048), Met::WideRows);
        self.meet_if(edition && rows, Met::Both);
        self.meet_if(!case.segment.chunks(PAGE_SIZE).all(page::sound), Met::RuleDamaged);
    }

    fn count_damaged(&mut self, case: &Case, asked: Asked) {
        let damaged: Vec<bool> = case.segment.chunks(PAGE_SIZE).map(|page| !page::sound(page)).collect();
        let alone = damaged.iter().filter(|&&is| is).count() == 1;
        let others: Vec<u8> = case.segment.chunks(PAGE_SIZE).filter(|page| page::sound(page)).flatten().copied().collect();
        self.meet_if(damaged[0], Met::DamagedFirst);
        self.meet_if(alone && damaged[damaged.len() - 1], Met::DamagedLast);
        self.meet_if(alone && PlainRule.cleared(&others, asked) == (0, 1), Met::DamagedYes);
    }

    fn count_answer(&mut self, case: &Case, heads: &[Head], one: &Told) {
        let (asked, number) = (one.asked, one.whole.len());
        let sides = (one.whole.iter().filter(|&&number| number < 32768).count(), one.whole.iter().filter(|&&number| number > 32767).count());
        let of_mirror = readings(heads, asked.mirror).count();
        self.meet_if(case.segment.is_empty(), Met::NoPages);
        self.meet_if(!heads.is_empty() && of_mirror == 0, Met::NoReading);
        let narrow = Asked { mirror: asked.mirror % (1 << 32), ..asked };
        self.meet_if(asked.mirror >= 1 << 32 && is_cleared(&whole(heads, narrow), asked.edition), Met::WideMirror);
        let has_whole = |mirror: u32| !whole(heads, Asked { mirror: mirror.into(), ..asked }).is_empty();
        let others = || heads.chunk_by(|one, next| one.mirror == next.mirror).any(|of_one| has_whole(of_one[0].mirror));
        self.meet_if(number == 0 && others(), Met::AnotherMirror);
        match (asked.edition, one.cleared, number, sides) {
            (1, false, 0, _) => self.meet_if(of_mirror > 0, Met::No1None),
            (1, false, ..) => self.meet(Met::No1One),
            (1, true, 2, _) => self.meet(Met::Yes1Two),
            (1, true, ..) => self.meet(Met::Yes1More),
            (_, false, _, (1, 1)) => self.meet(Met::No2Two),
            (_, false, 3.., (_, 0)) => self.meet(Met::No2Mounted),
            (_, false, 3.., _) => self.meet(Met::No2Turned),
            (_, false, ..) => {}
            (_, true, ..) => {
                self.meet_if(number == 3, Met::Yes2Three);
                self.meet(match sides {
                    (1, _) => Met::Yes2OneMounted,
                    (_, 1) => Met::Yes2OneTurned,
                    _ => Met::Yes2Many,
                });
                self.meet_if(sides.0 == 1 && one.whole[0] == 32767, Met::OnlyMounted32767);
                self.meet_if(sides.1 == 1 && one.whole[number - 1] == 32768, Met::OnlyTurned32768);
            }
        }
        let by_edition = if one.cleared { &mut self.yes } else { &mut self.no };
        by_edition[asked.edition as usize - 1] += 1;
        self.meet_if(one.cleared && !has_sound_forwarding(&case.segment), Met::Redirects);
        self.count_whole(case, one);
        readings(heads, asked.mirror).for_each(|reading| self.count_reading(reading, asked.rows));
    }

    fn count_whole(&mut self, case: &Case, one: &Told) {
        let whole = &one.whole;
        let mut words: Vec<u16> = whole.iter().map(|number| number / 64).collect();
        words.dedup();
        let (rows, some) = (one.asked.rows, !whole.is_empty());
        self.whole += whole.len() as u64;
        self.meet_if(whole.contains(&0), Met::Whole0);
        self.meet_if(whole.contains(&63) && whole.contains(&64), Met::Whole63);
        self.meet_if(whole.contains(&32767) && whole.contains(&32768), Met::WholeHalf);
        self.meet_if(whole.contains(&65535), Met::WholeLast);
        self.meet_if(words.len() < whole.len(), Met::WholeAlone);
        self.meet_if(words.len() >= 3, Met::Words3);
        self.meet_if(some && rows == 1, Met::Rows1);
        self.meet_if(some && rows > 200, Met::RowsMany);
        self.meet_if(some && rows == 2047, Met::Rows2047);
        self.meet_if(some && rows == 2048, Met::Rows2048);
        let redirects = has_sound_forwarding(&case.segment);
        for page in case.segment.chunks(PAGE_SIZE) {
            for record in (0..page::count(page)).map(|k| slot(page, k)).filter(|slot| slot.is_record()) {
                let (offset, length) = record.data();
                let bytes = &page[offset..offset + length];
                let is_of = |head: Head| u64::from(head.mirror) == one.asked.mirror && whole.contains(&head.reading);
                let target = record.kind == Kind::Target && Head::of(bytes).is_some_and(is_of);
                self.meet_if(target && redirects, Met::Forwarded);
                self.meet_if(target && !redirects, Met::TargetAlone);
                self.meet_if(length == 7 && Head::of(&[bytes, &[0]].concat()).is_some_and(is_of), Met::Seven);
            }
        }
    }

    /// How a reading is not whole.
    fn count_reading(&mut self, reading: &[Head], rows: u64) {
        if is_whole(reading, rows) {
            return;
        }
        self.spoiled += 1;
        let there: Vec<u64> = reading.iter().map(|head| u64::from(head.row)).collect();
        let (others, mut below): (Vec<u64>, Vec<u64>) = there.iter().partition(|&&row| row >= rows);
        let inside = below.len() as u64;
        below.dedup();
        let all = below.len() as u64 == rows;
        let once = inside == below.len() as u64;
        self.meet_if(others.is_empty() && once && below.len() as u64 == rows - 1 && below.first() != Some(&0), Met::MissingFirst);
        self.meet_if(others.is_empty() && once && below.iter().copied().eq(0..rows - 1), Met::MissingLast);
        self.meet_if(others.is_empty() && all, Met::Twice);
        self.meet_if(others.is_empty() && !all && there.len() as u64 == rows, Met::TwiceMissing);
        self.meet_if(all && once && others == [rows], Met::OtherNext);
        self.meet_if(all && once && others == [65535], Met::OtherFar);
        self.meet_if(others.len() == 1 && once && there.len() as u64 == rows, Met::OtherMissing);
        self.meet_if(rows == 2047 && all && once && others == [2047], Met::Other2047);
        self.meet_if(rows == 2048 && all && once && others == [2048], Met::Other2048);
    }

    fn count_laws(&mut self, case: &Case, laws: &Laws) {
        for (before, is_cleared) in &laws.more {
            self.meet_if(before.cleared, Met::MoreStays);
            self.meet_if(!before.cleared && *is_cleared, Met::MoreTurns);
        }
        self.meet_if(laws.mended, Met::MoreMended);
        let yes = laws.more[0].0.cleared;
        self.meet_if(laws.back && !case.segment.is_empty(), Met::Back);
        self.meet_if(laws.back && yes, Met::BackYes);
        self.meet_if(yes, Met::Alike);
    }

    pub fn add(&mut self, other: &ClearingCounts) {
        let add = |sums: &mut [u64], more: &[u64]| sums.iter_mut().zip(more).for_each(|(sum, more)| *sum += more);
        self.cases += other.cases;
        self.asked += other.asked;
        add(&mut self.answers, &other.answers);
        add(&mut self.yes, &other.yes);
        add(&mut self.no, &other.no);
        self.whole += other.whole;
        self.spoiled += other.spoiled;
        self.met.resize(MEETINGS.len(), 0);
        add(&mut self.met, &other.met);
    }

    /// What no case met.
    pub fn holes(&self) -> Vec<&str> {
        MEETINGS.iter().zip(&self.met).filter(|(_, &times)| times == 0).map(|(name, _)| *name).collect()
    }

    /// How much there was, in a line.
    pub fn told(&self) -> String {
        let [answered, size, damaged, rule] = [0, 1, 4, 14].map(|answer: usize| self.answers[answer]);
        format!(
            "{} questions of {} segments; answers 0: {answered}, 1: {size}, 14: {rule}, 4: {damaged}; cleared by edition 1 {} and not {}, \
             by edition 2 {} and not {}; {} readings whole and {} not",
            self.asked, self.cases, self.yes[0], self.no[0], self.yes[1], self.no[1], self.whole, self.spoiled
        )
    }

    fn print(&self) {
        println!("met:");
        for (name, times) in MEETINGS.iter().zip(&self.met) {
            println!("{times:9}  {name}");
        }
        let holes = self.holes();
        println!("never met: {}", if holes.is_empty() { "none".to_string() } else { holes.join("; ") });
    }
}

/// What an example asks about: its calls are made by the model.
fn begin(example: &Example) -> Result<Vec<u8>, String> {
    let mut model = Model::new(&vec![0; example.bytes], &[0; PAGE_SIZE]);
    for call in example.calls {
        let answer = match *call {
            Call::Row(reading, row) => model.insert_record(&record(reading, row)).0,
            Call::Insert(bytes) => model.insert_record(bytes).0,
            Call::Erase(page, slot) => model.erase_record(page * 65536 + u64::from(slot)),
        };
        if answer != DONE {
            return Err(format!("{}: a call before the question answers {answer}", example.title));
        }
    }
    let mut segment = model.segment().to_vec();
    example.set.iter().for_each(|&(offset, byte)| segment[offset] = byte);
    Ok(segment)
}

/// The examples, each with its answer and its whole readings; how many there are.
pub fn check_examples(polishing: &dyn Polishing) -> Result<usize, String> {
    for example in &EXAMPLES {
        let segment = begin(example)?;
        let asked = Asked { mirror: example.mirror, rows: example.rows, edition: example.edition };
        let told = polishing.cleared(&segment, asked);
        let (before, mut words) = (untouched(1025), untouched(1025));
        let answer = polishing.whole_readings(&segment, asked, &mut words);
        let wanted = if example.listed == 0 { listed(before, example.whole) } else { before };
        if told != (example.answer, example.cleared) || answer != example.listed || words != wanted {
            return Err(format!("{}: answers {told:?}, a list {answer}, or lists others", example.title));
        }
    }
    Ok(EXAMPLES.len())
}

/// Lengths that are refused by 1, before edition and rows are looked at; and no pages.
pub fn check_sizes(polishing: &dyn Polishing) -> Result<(), String> {
    let rules = [(1, 1), (2048, 2), (0, 1), (2049, 2), (1, 0), (1, 3), (0, 0)];
    let few = [(1, true), (16383, true), (16385, true), (0, false), (PAGE_SIZE, false)];
    let sizes = few.iter().flat_map(|&size| rules.map(|rule| (size, rule))).chain([((32528 * PAGE_SIZE, true), (1, 3))]);
    for ((length, size), (rows, edition)) in sizes {
        let (asked, segment) = (Asked { mirror: 0, rows, edition }, vec![0; length]);
        let rule = |named: bool| if size { 1 } else if named { 0 } else { 14 };
        let told = (polishing.cleared(&segment, asked), polishing.whole_readings(&segment, asked, &mut [0; 1024]));
        let wanted = ((rule(rows_named(rows) && demands(edition).is_some()), 0), rule(rows_named(rows)));
        if told != wanted {
            return Err(format!("{length} bytes, {asked:?}: {told:?}, should be {wanted:?}"));
        }
    }
    Ok(())
}

/// Each broken rule must be noticed by the generated cases alone; how many the worked examples notice.
fn check_slips() -> Result<usize, String> {
    let examples = |slip| check_examples(&Broken(slip)).map(drop);
    let generated = |slip, seed| check_case(&Broken(slip), &case(seed), seed).map(drop);
    check_noticed(SLIPS, 1000, examples, generated)
}

/// The examples, and so many segments; an error also where something was never met, or a broken rule is not noticed.
pub fn check(cases: u64) -> Result<(), String> {
    println!("worked examples of Ask 9 met by the model, 14 in its three forms: {}", check_examples(&PlainRule)?);
    check_sizes(&PlainRule)?;
    let mut counts = ClearingCounts::default();
    for seed in 1..=cases {
        let case = case(seed);
        let checked = check_case(&PlainRule, &case, seed)?;
        counts.count(&case, &checked);
    }
    println!("{}", counts.told());
    println!("broken rules, each noticed by generated cases: {}, of which the examples notice {}", SLIPS.len(), check_slips()?);
    counts.print();
    if counts.holes().is_empty() { Ok(()) } else { Err("not everything was met".to_string()) }
}
