use native::cases::{sheet_of, CASE_A, CASE_H};
use native::plan::{Pair, Plan};
use native::planner::choose;
use native::schedule::pair_of;

/// The pair that the plan of the last listed pair has after a change, if it is a schedule.
fn changed(text: &str, change: impl Fn(&mut Plan)) -> Option<Pair> {
    let sheet = sheet_of(text);
    let mut plan = choose(&sheet, u32::MAX).unwrap().plan;
    change(&mut plan);
    pair_of(&sheet, &plan)
}

/// Case a's plan: trains 2, 1, 2; train 1 from 40 to 70, train 2 from 100 to 130.
#[test]
fn of_case_a() {
    assert_eq!(changed(CASE_A, |_| ()), Some(Pair { arrival: 130, lateness: 70 }));
    // B, released at 40, on train 2, and A on train 1.
    assert_eq!(changed(CASE_A, |plan| plan.train_of_order = vec![1, 2, 2]), Some(Pair { arrival: 130, lateness: 210 }));
    assert_eq!(changed(CASE_A, |plan| plan.train_of_order = vec![2, 1, 1]), None, "train 1 has one place");
    assert_eq!(changed(CASE_A, |plan| plan.train_of_order = vec![2, 2, 1]), None, "C is released after train 1");
    assert_eq!(changed(CASE_A, |plan| plan.train_of_order = vec![2, 0, 2]), None, "B rides no train");
    assert_eq!(changed(CASE_A, |plan| plan.train_of_order = vec![2, 3, 2]), None, "there is no train 3");
    assert_eq!(changed(CASE_A, |plan| plan.train_of_order.truncate(2)), None, "C is left out");
    assert_eq!(changed(CASE_A, |plan| plan.times.truncate(1)), None, "train 2 is left out");
    assert_eq!(changed(CASE_A, |plan| plan.times[0].arrival = 71), None, "30 minutes' running time");
    assert_eq!(changed(CASE_A, |plan| plan.times[1].arrival = 129), None, "60 minutes behind train 1");
    assert_eq!(changed(CASE_A, |plan| plan.times[1].departure = 99), None, "59 minutes behind train 1");
    assert_eq!(changed(CASE_A, |plan| plan.times[1].departure = 101), None, "no window is open");
}

#[test]
fn of_case_h() {
    assert_eq!(changed(CASE_H, |_| ()), Some(Pair { arrival: 120, lateness: 60 }));
    assert_eq!(changed(CASE_H, |plan| plan.times[0].departure = 49), None, "the timetable says 50");
    assert_eq!(changed(CASE_H, |plan| plan.times[1].arrival = 121), None, "the timetable says 120");
    assert_eq!(changed(CASE_H, |plan| plan.train_of_order = vec![2, 2, 1]), None, "C is released after train 1");
}
