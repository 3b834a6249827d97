//! Trains that run short: how many places there must be, empty trains, what loading leaves, and sheets that are full.

use native::cases::{with, CASE_A, CASE_H};
use native::checking::{check, ForeignPlan};
use native::draw::{big, drawn_size, small, small_full, small_short};
use native::every_plan::plan_count;
use native::limits::MOST_CAPACITY;
use native::listing::schedules;
use native::plan::{Pair, Plan};
use native::planner::{bound, choose, list};
use native::print::print;
use native::reader::{order_name, read};
use native::refusal::*;
use native::rng::Rng;
use native::search::{search, Search};
use native::sheet::{Paths, Sheet, FORMS};
use native::watching::Watched;
use native::write::{numbered_name, text_of};
use std::collections::BTreeMap;

const TOO_FEW: Refusal = Refusal { number: TOO_FEW_PLACES, returned: 0 };

/// The sheet with one place more or fewer on some train that can have it, if there is one.
fn with_place(sheet: &Sheet, more: bool) -> Option<Sheet> {
    let can = |places: &u32| if more { *places < MOST_CAPACITY } else { *places > 1 };
    let i = sheet.capacity.iter().position(can)?;
    let mut changed = sheet.clone();
    changed.capacity[i] = if more { sheet.capacity[i] + 1 } else { sheet.capacity[i] - 1 };
    Some(changed)
}

/// Every call refuses a sheet with too few places, and so does the reader its text.
fn check_too_few(sheet: &Sheet) {
    assert_eq!(bound(sheet), Err(TOO_FEW), "{sheet:?}");
    assert_eq!(list(sheet), Err(TOO_FEW), "{sheet:?}");
    assert_eq!(choose(sheet, u32::MAX), Err(TOO_FEW), "{sheet:?}");
    assert_eq!(check(sheet, &ForeignPlan::default()), Err(TOO_FEW), "{sheet:?}");
    assert_eq!(Watched::start(sheet, [0; 3]), Err(TOO_FEW), "{sheet:?}");
    let text = text_of(sheet, &mut numbered_name);
    assert_eq!(read(text.as_bytes(), sheet.form()), Err(TOO_FEW), "{text}");
    assert_eq!(order_name(text.as_bytes(), sheet.form(), 1), b"", "{text}");
}

/// A place more takes no schedule away: for each pair listed without it, one is listed with it that is as good on both counts.
fn check_one_more(sheet: &Sheet, more: &Sheet) {
    let text = text_of(more, &mut numbered_name);
    assert_eq!(read(text.as_bytes(), more.form()).map(|reading| reading.sheet).as_ref(), Ok(more));
    let Ok(before) = list(sheet) else { return };
    let listed = list(more).expect("a schedule").pairs;
    let as_good = |pair: &Pair| listed.iter().any(|by| by.arrival <= pair.arrival && by.lateness <= pair.lateness);
    assert!(before.pairs.iter().all(as_good), "{sheet:?}");
}

#[test]
fn a_place_more_or_fewer() {
    let mut rng = Rng::new(16);
    let (mut more_places, mut fewer_places) = (0, 0);
    for turn in 0..2_000 {
        let sheet = small_full(&mut rng, FORMS[turn % 2], 12);
        if let Some(fewer) = with_place(&sheet, false) {
            check_too_few(&fewer);
            fewer_places += 1;
        }
        let more = with_place(&sheet, true).expect("a train of few places");
        check_one_more(&sheet, &more);
        more_places += usize::from(list(&more).is_ok());
    }
    assert!(more_places > 1_000 && fewer_places > 1_000, "{more_places} {fewer_places}");
}

/// Case a with places to spare: on train 2 they change nothing; on train 1 they let A ride with B.
#[test]
fn case_a_with_places_to_spare() {
    let plan = print(CASE_A.as_bytes());
    assert_eq!(print(with(CASE_A, "T,2,20", "T,3,20").as_bytes()), plan);
    assert_eq!(print(with(CASE_A, "T,2,20", "T,64,20").as_bytes()), plan);
    let with_b = "P,110,150\nP,130,30\nD,1,40,70,1\nD,2,100,130,1\nL,A,1\nL,B,1\nL,C,2\nR,3\n";
    assert_eq!(print(with(CASE_A, "T,1,30", "T,2,30").as_bytes()), with_b);
    assert_eq!(print(with(CASE_A, "T,1,30", "T,64,30").as_bytes()), with_b);
}

/// A second place on case h's train 1 changes nothing, since B's lateness there is the worst; a third train runs empty, and is the last to arrive.
#[test]
fn case_h_with_places_to_spare() {
    assert_eq!(print(with(CASE_H, "X,1,50,80", "X,2,50,80").as_bytes()), print(CASE_H.as_bytes()));
    let third = "P,300,60\nD,1,50,80,0\nD,2,95,120,0\nD,3,96,300,0\nL,A,2\nL,B,1\nL,C,2\nR,5\n";
    assert_eq!(print(with(CASE_H, "X,2,95,120\n", "X,2,95,120\nX,3,96,300\n").as_bytes()), third);
}

/// How often an empty train was the first, a middle one and the last.
type Met = [usize; 3];

/// An empty train leaves at the least instant that gap and window allow; the last arrival is the last train's, found by the rule.
fn check_empty_trains(sheet: &Sheet, pair: Pair, plan: &Plan, met: &mut Met) {
    let (times, q) = (&plan.times, plan.times.len());
    for i in plan.empty_trains() {
        met[if i == 1 { 0 } else { 1 + usize::from(i == q) }] += 1;
        let Paths::Windows(windows) = &sheet.paths else { continue };
        let ahead = i.checked_sub(2).map(|ahead| times[ahead]);
        let open =
            |instant: &u32| windows.from.iter().zip(&windows.to).any(|(from, to)| from <= instant && instant <= to);
        let least = (ahead.map_or(0, |ahead| ahead.departure + windows.gap)..).find(open);
        assert_eq!(Some(times[i - 1].departure), least, "train {i} {sheet:?}");
        let alone = times[i - 1].departure + windows.running[i - 1];
        let arrival = ahead.map_or(alone, |ahead| alone.max(ahead.arrival + windows.gap));
        assert_eq!(times[i - 1].arrival, arrival, "train {i} {sheet:?}");
    }
    assert_eq!(pair.arrival, times[q - 1].arrival, "{sheet:?}");
}

#[test]
fn empty_trains_of_drawn_sheets() {
    let mut rng = Rng::new(17);
    for form in FORMS {
        let mut met = Met::default();
        for _ in 0..5_000 {
            let sheet = small_short(&mut rng, form, 9);
            for entry in search(&sheet).iter().flat_map(|recorded| &recorded.entries) {
                check_empty_trains(&sheet, entry.pair, &entry.plan, &mut met);
            }
        }
        assert!(met.iter().all(|&count| count > 300), "{met:?}");
    }
}

/// In each round every order is loaded, on no train behind its latest one; a train that has a place left took every order that it may carry and that
/// no train behind it carries. Gives in how many rounds such a train had permitted orders and yet none of them.
fn check_loading(sheet: &Sheet) -> usize {
    let mut search = Search::start(sheet);
    let mut left_empty = 0;
    while search.goes_on() {
        let latest = search.latest.clone();
        search.round(sheet);
        let train = &search.train;
        assert!(train.iter().zip(&latest).all(|(train, latest)| (1..=*latest).contains(train)), "{sheet:?}");
        for (i, &places) in (1..).zip(&sheet.capacity) {
            let load = train.iter().filter(|&&train| train == i).count();
            let ahead = train.iter().zip(&latest).filter(|(&train, &latest)| train < i && latest >= i).count();
            assert!(load == places as usize || load < places as usize && ahead == 0, "train {i} {sheet:?}");
            left_empty += usize::from(load == 0 && latest.iter().any(|&latest| latest >= i));
        }
    }
    left_empty
}

#[test]
fn loading_takes_every_permitted_order() {
    let mut rng = Rng::new(18);
    let mut left_empty = 0;
    for turn in 0..4_000 {
        left_empty += check_loading(&small(&mut rng, FORMS[turn % 2], 20));
    }
    for turn in 0..60 {
        let (n, q) = drawn_size(&mut rng);
        left_empty += check_loading(&big(&mut rng, FORMS[turn % 2], n, q));
    }
    assert!(left_empty > 1_000, "{left_empty}");
}

/// Every schedule of a sheet, with its departures and the train (from 0) of each order.
type Schedules = BTreeMap<(Vec<u32>, Vec<usize>), Pair>;

/// Those of them in which train i carries exactly k_i orders.
fn exactly(capacity: &[u32], mut schedules: Schedules) -> Schedules {
    let load = |train: &[usize], i: usize| train.iter().filter(|&&at| at == i).count() as u32;
    schedules.retain(|(_, train), _| (0..capacity.len()).all(|i| load(train, i) == capacity[i]));
    schedules
}

/// Every way in which `orders` fill places of these trains: how many ride each.
fn loads_within(capacity: &[u32], orders: u32) -> Vec<Vec<u32>> {
    let Some((&places, behind)) = capacity.split_first() else {
        return if orders == 0 { vec![Vec::new()] } else { Vec::new() };
    };
    let beginning =
        |load: u32| loads_within(behind, orders - load).into_iter().map(move |rest| [vec![load], rest].concat());
    (0..=places.min(orders)).flat_map(beginning).collect()
}

/// Where the sums are equal, the schedules are those in which every train is full; where places are left, there is none of these, and the schedules are
/// those that fill each way of leaving them.
#[test]
fn full_sheets_have_the_schedules_with_full_trains() {
    const MOST_PLANS: usize = 50_000;
    let mut rng = Rng::new(19);
    let mut met = [0, 0];
    while met[0] + met[1] < 1_000 {
        let sheet = small(&mut rng, FORMS[(met[0] + met[1]) % 2], 5);
        if plan_count(&sheet) > MOST_PLANS {
            continue;
        }
        let (all, spare) = (schedules(&sheet), sheet.spare_places() > Some(0));
        assert_eq!(exactly(&sheet.capacity, all.clone()), if spare { Schedules::new() } else { all.clone() });
        let filled = |load: &Vec<u32>| exactly(load, schedules(&Sheet { capacity: load.clone(), ..sheet.clone() }));
        let together: Vec<Schedules> =
            loads_within(&sheet.capacity, sheet.orders.len() as u32).iter().map(filled).collect();
        assert_eq!(together.iter().map(BTreeMap::len).sum::<usize>(), all.len(), "{sheet:?}");
        assert_eq!(together.into_iter().flatten().collect::<Schedules>(), all, "{sheet:?}");
        met[usize::from(spare)] += usize::from(!all.is_empty());
    }
    assert!(met.iter().all(|&count| count > 200), "{met:?}");
}
