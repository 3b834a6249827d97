//! Sheets that are planned anew behind trains that have gone (`native::stored_gone`). Here each has its ordinary plan.

use crate::store::Store;
use native::cases::DAY;

pub fn store_all(store: &mut Store) {
    store.group(790);
    // The sheet of examples/replan_a.c.
    store.printed(
        "gone-train-and-an-order-that-came-in",
        DAY.as_bytes(),
        "P,170,200\nP,175,165\nP,190,70\nD,1,40,70,1\nD,2,100,130,1\nD,3,160,190,2\nL,A,2\nL,B,1\nL,C,3\nL,D,2\nR,3\n",
    );
    gap_and_arrival(store);
    lateness(store);
}

/// Behind train 1 the gap decides when the others are there, or train 1's arrival.
fn gap_and_arrival(store: &mut Store) {
    store.printed(
        "gone-train-with-a-short-run",
        b"G,10\nW,0,100\nT,1,5\nT,1,20\nT,2,5\nO,A,0,40,3\nO,B,0,20,1\nO,C,0,30,2\n",
        "P,40,0\nD,1,0,5,1\nD,2,10,30,1\nD,3,20,40,1\nL,A,3\nL,B,1\nL,C,2\nR,2\n",
    );
    store.printed(
        "gone-train-with-a-long-run",
        b"G,10\nW,0,100\nT,1,50\nT,1,5\nT,2,5\nO,A,0,40,3\nO,B,0,20,1\nO,C,0,30,2\n",
        "P,70,60\nD,1,0,50,1\nD,2,10,60,1\nD,3,20,70,1\nL,A,1\nL,B,3\nL,C,2\nR,2\n",
    );
}

/// With A on it train 1 leaves at 18 at the earliest, and A's lateness is -3 then.
fn lateness(store: &mut Store) {
    store.printed(
        "gone-order-makes-a-round-the-last",
        b"G,4\nW,0,20\nW,25,40\nW,45,60\nT,1,8\nT,1,7\nT,2,4\nO,A,18,29,1\nO,B,19,53,1\nO,C,27,37,2\nO,D,30,58,2\n",
        "P,36,-2\nP,38,-3\nD,1,18,26,1\nD,2,27,34,2\nD,3,31,38,2\nL,A,1\nL,B,3\nL,C,2\nL,D,3\nR,2\n",
    );
    store.printed(
        "gone-train-and-an-empty-one-behind",
        b"G,4\nW,0,20\nW,25,40\nW,45,60\nT,2,8\nT,1,7\nT,2,4\nO,A,18,29,1\nO,C,27,37,2\n",
        "P,31,-4\nD,1,0,8,1\nD,2,18,25,1\nD,3,27,31,2\nL,A,2\nL,C,3\nR,3\n",
    );
    // A weighs most.
    store.printed(
        "gone-order-that-is-latest",
        b"G,1\nW,0,9\nT,1,1\nT,1,1\nT,1,1\nO,A,0,0,5\nO,B,5,0,1\nO,C,0,0,2\n",
        "P,6,6\nD,1,0,1,1\nD,2,1,2,1\nD,3,5,6,1\nL,A,1\nL,B,3\nL,C,2\nR,1\n",
    );
}
