//! The judge's commands; see the README of the oracle.

use judge::sequence::{any_style, few_pages, Sequence, Start, Style};
use judge::soundness::is_sound;
use judge::trial::{Counts, Trial};
use judge::{cases, show, trace, Store};
use std::process::ExitCode;
use std::{env, fs};

const USAGE: &str = "judge classes | numbers | quick | long [SEED SEQUENCES] | faults | traces FILE | trace SEED COUNT [PAGES CALLS] | replay FILE.. | repair COUNT | rows COUNT | report COUNT | exchange COUNT | polishing COUNT";

/// The class table against the published Rust's formula.
fn classes() -> Result<(), String> {
    for used in 0..=16372 {
        let (formula, table) = (original::class(used), model::inventory::class(used));
        if formula != table {
            return Err(format!("class of {used}: formula {formula}, table {table}"));
        }
    }
    println!("classes: all 16373 values equal");
    Ok(())
}

fn run_one(seed: u64, n: usize, calls: u64, counts: &mut Counts) -> Result<(), String> {
    let style = any_style(seed);
    let mut sequence = Sequence::new(seed, style, n, calls);
    let mut next = |segment: &[u8]| sequence.next(segment);
    let mut trial = Trial::new(n);
    let unsound_calls = counts.unsound_calls();
    let told = |what| format!("seed {seed}, n {n}: {what}");
    trial.run(&mut next, counts, &mut |_, _, _| {}).map_err(told)?;
    if style.is_calm() {
        counts.calm += 1;
        let sound = is_sound(trial.corrected.segment(), trial.corrected.inventory());
        if !sound || counts.unsound_calls() != unsound_calls {
            return Err(told("a sound segment was not kept sound".to_string()));
        }
    }
    Ok(())
}

/// Sequences on few pages, and for each five hundred of them one on some hundreds.
fn compare(first_seed: u64, sequences: u64) -> Result<Counts, String> {
    let mut counts = Counts::default();
    for seed in first_seed..first_seed + sequences {
        run_one(seed, few_pages(seed), [40, 100, 250][seed as usize % 3], &mut counts)?;
        if seed % 500 == 0 {
            run_one(seed, 100 + seed as usize / 500 % 7 * 50, 250, &mut counts)?;
        }
    }
    print(&counts);
    Ok(counts)
}

fn print(counts: &Counts) {
    counts.print();
    println!("differences outside the detected faults: 0");
}

/// An error if a step or a fault was never reached, or a fault noted too often though nothing differed.
fn complete(counts: Counts) -> Result<(), String> {
    match counts.overnoted()[..] {
        [] if counts.holes().is_empty() => Ok(()),
        [] => Err("not everything was reached".to_string()),
        ref faults => Err(format!("noted too often though nothing differed: faults {faults:?}")),
    }
}

fn long() -> Result<(), String> {
    judge::widest::check()?;
    complete(compare(1_000_000, 30_000)?)
}

fn check_numbers() -> Result<(), String> {
    println!("numbers of documents 01 and 02 met by the corrected Rust: {}", judge::numbers::check()?);
    Ok(())
}

fn faults() -> Result<(), String> {
    cases::faults().iter().try_for_each(show::show)
}

const CALM: Style = Style { start: Start::Zero, damages: false, untruths: false, most_slots: 12 };

/// The committed sample after its cases: style, pages, first seed, sequences, calls of each.
const SAMPLE: [(Style, &[usize], u64, u64, u64); 6] = [
    (CALM, &[1, 2, 3, 4], 10_000, 12, 50),
    (Style { start: Start::Leftovers, ..CALM }, &[1, 2, 3], 11_000, 9, 50),
    (Style { start: Start::Populated, ..CALM }, &[2, 3, 4], 12_000, 16, 50),
    (Style { start: Start::Populated, damages: true, ..CALM }, &[1, 2, 3], 13_000, 18, 50),
    (Style { start: Start::Populated, untruths: true, ..CALM }, &[2, 3], 14_000, 12, 40),
    (Style { start: Start::Populated, ..CALM }, &[12], 15_000, 2, 60),
];

fn sample_of_cases(counts: &mut Counts) -> Result<String, String> {
    let mut text = String::new();
    for case in cases::faults() {
        text += &trace::of_list(case.n, &case.events, counts)?;
    }
    for (n, events) in cases::numbers().into_iter().chain(cases::refusals()) {
        text += &trace::of_list(n, &events, counts)?;
    }
    let (sizes, calls) = cases::wrong_sizes();
    for (segment, inventory) in sizes {
        text += &trace::of_wrong_size(segment, inventory, &calls);
    }
    Ok(text)
}

fn write_traces(file: &str) -> Result<(), String> {
    let mut counts = Counts::default();
    let mut text = sample_of_cases(&mut counts)?;
    for (style, pages, first_seed, sequences, calls) in SAMPLE {
        for seed in first_seed..first_seed + sequences {
            let n = pages[seed as usize % pages.len()];
            text += &trace::of_sequence(n, &mut Sequence::new(seed, style, n, calls), &mut counts)?;
        }
    }
    fs::write(file, text).map_err(|why| format!("{file}: {why}"))?;
    print(&counts);
    complete(counts)
}

fn print_traces(numbers: &[u64]) -> Result<(), String> {
    let (first_seed, sequences) = (numbers[0], numbers[1]);
    let mut counts = Counts::default();
    for seed in first_seed..first_seed + sequences {
        let n = numbers.get(2).map_or(few_pages(seed), |&n| n as usize);
        let calls = numbers.get(3).copied().unwrap_or(100);
        print!("{}", trace::of_sequence(n, &mut Sequence::new(seed, any_style(seed), n, calls), &mut counts)?);
    }
    Ok(())
}

fn replay(files: &[String]) -> Result<(), String> {
    for file in files {
        let text = fs::read_to_string(file).map_err(|why| format!("{file}: {why}"))?;
        let model = trace::replay(&text, &|segment, inventory| Some(Box::new(model::Model::new(segment, inventory))))?;
        let corrected = trace::replay(&text, &|segment, inventory| lend_corrected(segment, inventory))?;
        println!("{file}: {model} calls replayed on the model, {corrected} on the corrected Rust");
    }
    Ok(())
}

/// The corrected Rust can be lent whole pages only.
fn lend_corrected(segment: &[u8], inventory: &[u8]) -> Option<Box<dyn Store>> {
    let whole = segment.len() % judge::PAGE_SIZE == 0 && inventory.len() == judge::PAGE_SIZE;
    whole.then(|| Box::new(corrected::LentStore::new(segment, inventory)) as Box<dyn Store>)
}

fn numbers(words: &[String]) -> Option<Vec<u64>> {
    words.iter().map(|word| word.parse().ok()).collect()
}

fn run(command: &str, rest: &[String]) -> Result<(), String> {
    match (command, rest, numbers(rest).as_deref()) {
        ("classes", [], _) => classes(),
        ("numbers", [], _) => check_numbers(),
        ("quick", [], _) => complete(compare(1, 2500)?),
        ("long", [], _) => long(),
        ("long", _, Some(&[seed, sequences])) => compare(seed, sequences).map(|_| ()),
        ("faults", [], _) => faults(),
        ("traces", [file], _) => write_traces(file),
        ("trace", _, Some(numbers @ ([_, _] | [_, _, _, _]))) => print_traces(numbers),
        ("replay", files, _) => replay(files),
        ("repair", _, Some(&[repairs])) => judge::repairs::check(repairs),
        ("rows", _, Some(&[lists])) => judge::rows::check(lists),
        ("report", _, Some(&[runs])) => judge::reports::check(runs),
        ("exchange", _, Some(&[cases])) => judge::exchanges::check(cases),
        ("polishing", _, Some(&[cases])) => judge::clearings::check(cases),
        _ => Err(USAGE.to_string()),
    }
}

fn main() -> ExitCode {
    let words: Vec<String> = env::args().skip(1).collect();
    let (command, rest) = words.split_first().map_or(("", &[][..]), |(command, rest)| (command.as_str(), rest));
    match run(command, rest) {
        Ok(()) => ExitCode::SUCCESS,
        Err(what) => {
            eprintln!("{what}");
            ExitCode::FAILURE
        }
    }
}
