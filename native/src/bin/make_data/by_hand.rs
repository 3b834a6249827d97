//! Document 01's cases, and small sheets made by hand.

use crate::parts::{order_lines, train_lines, window_lines};
use crate::store::Store;
use native::cases::cases;

pub fn store_cases(store: &mut Store) {
    store.group(1);
    let [a, b, c, d, e, f, g, h, i] = cases();
    store.planned("case-a", &a);
    store.planned("case-b-gap-10", &b);
    store.planned("case-c-gap-61", &c);
    store.refused("case-d-only-window-0-80", d, "E,8,0");
    store.planned("case-e", &e);
    store.refused("case-f-release-1", f, "E,8,0");
    store.planned("case-g-due-2", &g);
    store.planned("case-h-timetable", &h);
    store.planned("case-i-first-departure-39", &i);
}

pub fn store_all(store: &mut Store) {
    store.group(400);
    departures(store);
    limit_reached_or_not(store);
    ties_and_names(store);
    windows_of_departures(store);
}

fn departures(store: &mut Store) {
    store.planned("departure-at-window-end", "G,10\nW,0,10\nT,1,1\nT,1,1\nO,A,0,0,1\nO,B,0,0,1\n");
    store.planned("departure-one-past-window-end", "G,11\nW,0,10\nW,50,50\nT,1,1\nT,1,1\nO,A,0,0,1\nO,B,0,0,1\n");
    store.planned("release-at-window-end", "G,1\nW,0,10\nW,20,30\nT,1,5\nT,1,5\nO,A,10,0,1\nO,B,30,0,1\n");
    store.planned("release-between-windows", "G,1\nW,0,10\nW,20,30\nT,1,5\nT,1,5\nO,A,0,0,1\nO,B,11,0,1\n");
    store.planned("window-from-equals-to", "G,3\nW,5,5\nW,8,8\nT,1,2\nT,1,2\nO,A,0,9,1\nO,B,6,9,1\n");
    store.planned(
        "windows-that-touch",
        "G,3\nW,0,4\nW,5,9\nW,10,10\nT,1,2\nT,1,2\nT,1,2\nO,A,2,9,1\nO,B,4,9,5\nO,C,4,3,2\n",
    );
    store.planned(
        "many-windows-passed-at-once",
        &format!("G,500\n{}W,700,800\n{}{}", window_lines(60), train_lines(2), order_lines(2)),
    );
    store.planned("fast-behind-slow", "G,5\nW,0,100\nT,1,50\nT,1,3\nT,1,1\nO,A,0,0,1\nO,B,0,60,2\nO,C,10,70,3\n");
    store.planned("slow-behind-fast", "G,5\nW,0,100\nT,1,1\nT,1,3\nT,1,50\nO,A,0,0,1\nO,B,0,60,2\nO,C,10,70,3\n");
    store.planned("all-early", "G,5\nW,0,100\nT,1,10\nT,2,10\nO,A,0,900,1\nO,B,5,800,2\nO,C,9,700,3\n");
    store
        .planned("early-and-late-weights", "X,1,10,20\nX,1,30,40\nX,1,50,60\nO,A,0,100,1000\nO,B,0,41,1\nO,C,0,59,7\n");
}

/// Two fixed trains; B's lateness on train 2 is the limit, and A's due time says if A may take its place.
fn limit_reached_or_not(store: &mut Store) {
    let swap = |a: &str, b: &str| format!("X,1,10,60\nX,1,20,66\nO,A,0,{a}\nO,B,0,{b}\n");
    let swapped = |worst: i64| format!("P,66,{worst}\nD,1,10,60,0\nD,2,20,66,0\nL,A,2\nL,B,1\nR,2\n");
    let kept = |worst: i64| format!("P,66,{worst}\nD,1,10,60,0\nD,2,20,66,0\nL,A,1\nL,B,2\nR,1\n");
    store.printed("limit-50-weight-3-late-16", swap("50,3", "16,1").as_bytes(), &swapped(48));
    store.printed("limit-50-weight-3-late-17", swap("49,3", "16,1").as_bytes(), &kept(50));
    store.printed("limit-minus-50-weight-3-early-17", swap("83,3", "116,1").as_bytes(), &swapped(-51));
    store.printed("limit-minus-50-weight-3-early-16", swap("82,3", "116,1").as_bytes(), &kept(-50));
    store.printed("limit-0-on-time", swap("66,3", "66,1").as_bytes(), &kept(0));
}

fn ties_and_names(store: &mut Store) {
    store.planned(
        "ties-in-release-all",
        "G,2\nW,0,100\nT,2,5\nT,2,5\nT,2,5\nO,A,7,20,1\nO,B,7,18,2\nO,C,7,16,3\nO,D,7,14,4\nO,E,7,12,5\nO,F,7,10,6\n",
    );
    store.planned(
        "ties-in-release-reversed-dues",
        "G,2\nW,0,100\nT,2,5\nT,2,5\nT,2,5\nO,A,7,10,6\nO,B,7,12,5\nO,C,7,14,4\nO,D,7,16,3\nO,E,7,18,2\nO,F,7,20,1\n",
    );
    let orders = "O,-,0,90,1\nO,0,5,1,2\nO,ABCDEFGHIJKL,1,2,3\nO,MNOPQRSTUVWX,4,5,6\nO,YZ0123456789,7,8,9\n";
    store.planned("names-of-all-bytes", &format!("G,5\nW,0,100\nT,2,10\nT,3,10\n{orders}"));
}

/// The orders ride in turn, one a train.
fn windows_of_departures(store: &mut Store) {
    store.printed(
        "first-and-last-minutes-of-later-windows",
        b"G,10\nW,0,20\nW,40,55\nW,90,100\nT,1,9\nT,1,9\nT,1,9\nT,1,9\nT,1,9\n\
          O,A,20,30,1\nO,B,25,50,1\nO,C,55,65,1\nO,D,60,100,1\nO,E,100,110,1\n",
        "P,109,-1\nD,1,20,29,1\nD,2,40,49,2\nD,3,55,64,2\nD,4,90,99,3\nD,5,100,109,3\n\
         L,A,1\nL,B,2\nL,C,3\nL,D,4\nL,E,5\nR,1\n",
    );
    store.printed(
        "windows-of-one-minute-that-touch",
        b"G,1\nW,0,3\nW,4,4\nW,5,5\nW,6,9\nW,10,10\nW,12,12\nT,1,2\nT,1,2\nT,1,2\nT,1,2\nT,1,2\nT,1,2\n\
          O,A,3,0,1\nO,B,3,0,1\nO,C,3,0,1\nO,D,3,0,1\nO,E,10,0,1\nO,F,10,0,1\n",
        "P,14,14\nD,1,3,5,1\nD,2,4,6,2\nD,3,5,7,3\nD,4,6,8,4\nD,5,10,12,5\nD,6,12,14,6\n\
         L,A,1\nL,B,2\nL,C,3\nL,D,4\nL,E,5\nL,F,6\nR,1\n",
    );
    // The last train leaves at the last minute of window 64.
    let orders: String = (1..=32).map(|j| format!("O,N{j},{},{},1\n", 19 * j + 27, 18 * j)).collect();
    store.planned("32-trains-by-64-windows", &format!("G,1\n{}{}{orders}", window_lines(64), train_lines(32)));
}
