//! Times the product against the independent planner on sheet files, in one run: `bench [repeats] [FILE...]`; without files, on the stored hard sheets.
//!
//! Both list the pairs of the same sheet in memory, choose a plan by the last listed arrival and by the first one, check the plan of the last pair, and
//! watch a search, which is made by single round calls, with areas lent once and not cleared between calls. The product's choosing may stop at the first
//! pair that is later than the wish; the independent planner makes every round and, but for watching, keeps the plan of every listed pair. The product
//! takes sheet and state by value and tests them in each round call; the independent planner keeps its search between them. Both are built for release
//! and for the same processors: the product by its toolchain for plain x86-64, this program for Rust's default target, which is the same. Below the
//! table stands what checking takes beyond listing, a round call beyond a round of listing, what listing anew takes on the sheets of the window form,
//! and how many ratios of listing and of watching are at most 0.35. Without files, a second table has the time per round of listing against n and q. The
//! last line says how many ratios are at most 1.5; the exit status is 0 only if all are, and choosing stops early.

mod timing;

use native::ladder::{ladder_windows, Ladder};
use native::reader::read;
use native::rng::Rng;
use native::sheet::{Form, Orders, Sheet};
use native::stored::stored_sheets;
use std::path::Path;
use timing::{Bench, Timed};

/// The stored sheets of this group have many rounds.
const HARD: &str = "5";

const DEFAULT_REPEATS: usize = 21;

/// The independent planner's time is not to be exceeded by more than this.
const MOST_RATIO: f64 = 1.5;

/// Of listing and of watching it is told how many ratios are at most this; it decides nothing.
const LOW_RATIO: f64 = 0.35;

/// Of a list with so many pairs the product chooses by the first arrival in at most half its time for the last one, since it stops early.
const MANY_PAIRS: usize = 20;

/// Numbers of orders and of trains for the growth of the time per round.
const ORDERS: [u32; 3] = [50, 100, 200];
const TRAINS: [usize; 3] = [8, 16, 32];

/// The timed calls, as the table has them.
const CALLS: [&str; 5] = ["listing", "choosing by the last", "choosing by the first", "checking", "watching"];

/// The figures of a sheet, in microseconds a call.
struct Figures {
    rounds: usize,
    calls: [Timed; CALLS.len()],
    /// What the product's checking takes beyond its listing, where few rounds are made.
    checking_beyond: f64,
    /// What the product's search by single round calls takes beyond its listing.
    watching_beyond: f64,
    /// Listing anew in the window form, when the first train has left, and when the first half of the trains have.
    relisting: [Option<Timed>; 2],
}

fn main() {
    let mut args: Vec<String> = std::env::args().skip(1).collect();
    let mut repeats = DEFAULT_REPEATS;
    if let Some(number) = args.first().and_then(|first| first.parse().ok()) {
        repeats = number;
        args.remove(0);
    }
    print_heads();
    let sheets = sheets_to_time(&args);
    let figures: Vec<Figures> =
        sheets.iter().filter_map(|(name, text)| print_comparison(name, text, repeats.max(1))).collect();
    print_checking(&figures);
    print_watching(&figures);
    print_relisting(&figures);
    print_low_ratios(&figures);
    if args.is_empty() {
        print_growth(repeats.max(1));
    }
    let ratios: Vec<f64> = figures.iter().flat_map(|sheet| &sheet.calls).map(Timed::ratio).collect();
    println!("bench: {}", told(&ratios, "ratios", MOST_RATIO));
    if ratios.is_empty() || !ratios.iter().all(|&ratio| ratio <= MOST_RATIO) {
        std::process::exit(1);
    }
}

/// Names and texts of the sheets to time.
fn sheets_to_time(paths: &[String]) -> Vec<(String, Vec<u8>)> {
    if paths.is_empty() {
        let hard = stored_sheets().into_iter().filter(|stored| stored.name.starts_with(HARD));
        return hard.map(|stored| (stored.name, stored.text)).collect();
    }
    let name = |path: &str| Path::new(path).file_stem().unwrap_or_default().to_string_lossy().into_owned();
    let text = |path: &str| std::fs::read(path).unwrap_or_else(|error| panic!("{path}: {error}"));
    paths.iter().map(|path| (name(path), text(path))).collect()
}

fn print_heads() {
    println!("microseconds a call: product, independent planner, and their ratio");
    print!("{:22}", "");
    CALLS.iter().for_each(|call| print!("{call:>23}"));
    print!("\n{:>4} {:>3} {:>6} {:>6}", "n", "q", "pairs", "rounds");
    CALLS.iter().for_each(|_| print!(" {:>7} {:>8} {:>5}", "product", "indep.", "ratio"));
    println!("  sheet");
}

/// Prints one line and gives its figures; none for a sheet without a plan.
fn print_comparison(name: &str, text: &[u8], repeats: usize) -> Option<Figures> {
    let sheet = read(text, Form::of(text)).ok()?.sheet;
    let bench = Bench::new(&sheet, repeats)?;
    let (n, q) = sheet.size();
    let (entries, pairs) = (bench.entries(), bench.entries().len());
    print!("{n:>4} {q:>3} {pairs:>6} {:>6}", bench.rounds());
    let (first, last) = (&entries[0], &entries[pairs - 1]);
    let calls = [
        bench.time_listing(),
        bench.time_choosing(last.pair),
        bench.time_choosing(first.pair),
        bench.time_checking(last),
        bench.time_watching(),
    ];
    for timed in &calls {
        print!(" {:>7.1} {:>8.1} {:>5.3}", timed.product, timed.independent, timed.ratio());
    }
    println!("  {name}");
    let [_, by_last, by_first, ..] = &calls;
    let stops_early = 2.0 * by_first.product <= by_last.product;
    assert!(stops_early || pairs < MANY_PAIRS, "choosing by the first arrival goes on: {name}");
    Some(Figures {
        rounds: bench.rounds(),
        calls,
        checking_beyond: checking_beyond_listing(&sheet),
        watching_beyond: bench.watching_beyond_listing(),
        relisting: [1, q / 2].map(|trains| bench.time_relisting(trains)),
    })
}

/// How much longer the product's checking takes than its listing. Beside some thousand rounds that would be lost in how much they vary, so it is timed
/// on the same sheet with one weight and one due time for all orders: there the last train that carries any decides the lateness, and the next round
/// leaves it empty. So at most q rounds are made, and one on a full sheet.
fn checking_beyond_listing(sheet: &Sheet) -> f64 {
    let (n, q) = sheet.size();
    let orders = Orders { due: vec![0; n], weight: vec![1; n], ..sheet.orders.clone() };
    let sheet = Sheet { orders, ..sheet.clone() };
    let bench = Bench::new(&sheet, DEFAULT_REPEATS).expect("the first round is the same");
    let most = if sheet.spare_places() == Some(0) { 1 } else { q };
    assert!(bench.rounds() <= most, "{} rounds: {sheet:?}", bench.rounds());
    bench.checking_beyond_listing(&bench.entries()[0])
}

/// Milliseconds of one of the product's calls on all sheets.
fn on_all_sheets(figures: &[Figures], call: usize) -> f64 {
    figures.iter().map(|sheet| sheet.calls[call].product).sum::<f64>() / 1e3
}

/// Prints how much longer the product's checking takes than its listing, if any sheet was timed.
fn print_checking(figures: &[Figures]) {
    let mut beyond: Vec<f64> = figures.iter().map(|sheet| sheet.checking_beyond).collect();
    beyond.sort_by(f64::total_cmp);
    let (Some(least), Some(most)) = (beyond.first(), beyond.last()) else { return };
    let middle = beyond[beyond.len() / 2];
    let (listing, checking) = (on_all_sheets(figures, 0), on_all_sheets(figures, 3));
    print!("product, all sheets: listing {listing:.1} ms, checking {checking:.1} ms; ");
    println!(
        "with one weight and due time, in few rounds, checking takes {middle:.1} us more ({least:.1} to {most:.1})"
    );
}

/// Prints how much longer a round call of the product takes than a round of its listing, if any sheet was timed.
fn print_watching(figures: &[Figures]) {
    if figures.is_empty() {
        return;
    }
    let nanos = |sheets: &[Figures]| {
        let rounds: usize = sheets.iter().map(|sheet| sheet.rounds).sum();
        sheets.iter().map(|sheet| sheet.watching_beyond).sum::<f64>() * 1e3 / rounds as f64
    };
    let each = || figures.chunks(1).map(nanos);
    let (least, most) = (each().fold(f64::MAX, f64::min), each().fold(f64::MIN, f64::max));
    print!("product, all sheets: watching {:.1} ms; ", on_all_sheets(figures, 4));
    println!("a round call takes {:.0} ns more than a round of listing ({least:.0} to {most:.0})", nanos(figures));
}

/// Prints what listing anew takes on the sheets of the window form, if any was timed; its ratios decide nothing.
fn print_relisting(figures: &[Figures]) {
    for (turn, behind) in ["the first train", "the first half of the trains"].iter().enumerate() {
        let timed: Vec<&Timed> = figures.iter().filter_map(|sheet| sheet.relisting[turn].as_ref()).collect();
        let millis = |of: fn(&Timed) -> f64| timed.iter().map(|timed| of(timed)).sum::<f64>() / 1e3;
        let (product, independent) = (millis(|timed| timed.product), millis(|timed| timed.independent));
        let greatest = timed.iter().map(|timed| timed.ratio()).fold(0.0, f64::max);
        print!("relisting behind {behind}, {} window sheets: product {product:.1} ms, ", timed.len());
        println!("independent planner {independent:.1} ms, the greatest ratio {greatest:.2}");
    }
}

/// How many ratios are at most so much, and the greatest.
fn told(ratios: &[f64], name: &str, most: f64) -> String {
    let within = ratios.iter().filter(|&&ratio| ratio <= most).count();
    let greatest = ratios.iter().copied().fold(0.0, f64::max);
    format!("{within} of {} {name} at most {most}, the greatest {greatest:.2}", ratios.len())
}

/// Prints how many ratios of listing, and apart of watching, are low, if any sheet was timed.
fn print_low_ratios(figures: &[Figures]) {
    if figures.is_empty() {
        return;
    }
    let of_call = |call: usize| {
        let ratios: Vec<f64> = figures.iter().map(|sheet| sheet.calls[call].ratio()).collect();
        told(&ratios, &format!("ratios of {}", CALLS[call]), LOW_RATIO)
    };
    println!("bench: {}; {}", of_call(0), of_call(4));
}

/// Prints the time per round of both planners' listing against n and q, on ladders.
fn print_growth(repeats: usize) {
    let ladder = Ladder { release: 2_000, stir: 0, shuffled: true };
    println!("time per round in ns, product / independent, on drawn window sheets of n orders and q trains");
    print!("{:>8}", "n");
    TRAINS.iter().for_each(|q| print!("{:>16}", format!("q = {q}")));
    println!();
    for n in ORDERS {
        print!("{n:>8}");
        for q in TRAINS {
            let sheet = ladder_windows(&mut Rng::new(5), n, q, ladder, ladder.release);
            let bench = Bench::new(&sheet, repeats).expect("a ladder has a plan");
            let timed = bench.time_listing();
            let per_round = |micros: f64| micros * 1e3 / bench.rounds() as f64;
            let (product, independent) = (per_round(timed.product), per_round(timed.independent));
            print!("{:>16}", format!("{product:.0} / {independent:.0}"));
        }
        println!();
    }
}
