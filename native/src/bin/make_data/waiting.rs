//! Sheets whose last plan has trains that wait, since no plan that is as good has them leave sooner.

use crate::store::Store;

pub fn store_all(store: &mut Store) {
    store.group(780);
    // A is there at 0, in window 1. Train 1 waits for B, which on train 2 would be 9 × (90 − 55) late.
    store.printed(
        "train-waits-past-a-window",
        b"G,10\nW,0,20\nW,50,60\nT,2,5\nT,2,40\nO,A,0,10,1\nO,B,50,55,9\n",
        "P,90,315\nP,100,45\nD,1,50,55,2\nD,2,60,100,2\nL,A,1\nL,B,1\nR,3\n",
    );
    // A and C are there at 0, and wait for the gap behind train 1, which waits for B.
    store.printed(
        "trains-wait-behind-one-that-waits",
        b"G,20\nW,0,200\nT,1,10\nT,1,40\nT,1,40\nO,A,0,60,1\nO,B,30,40,9\nO,C,0,60,1\n",
        "P,80,360\nP,90,270\nP,110,50\nD,1,30,40,1\nD,2,50,90,1\nD,3,70,110,1\nL,A,2\nL,B,1\nL,C,3\nR,3\n",
    );
    // Train 2 is empty.
    store.printed(
        "empty-train-waits-behind-one-that-waits",
        b"G,20\nW,0,200\nT,2,10\nT,2,40\nT,2,40\nO,A,0,45,9\nO,B,30,40,9\nO,C,60,200,1\n",
        "P,100,270\nP,110,0\nD,1,30,40,1\nD,2,50,90,1\nD,3,70,110,1\nL,A,1\nL,B,1\nL,C,3\nR,5\n",
    );
}
