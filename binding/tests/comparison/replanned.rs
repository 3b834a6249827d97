//! The product's planning anew of one sheet, behind one gone part.

use crate::chosen::Chooses;
use crate::listed::Lists;
use binding::areas::ReadAreas;
use binding::exported::ExportedSheet;
use native::admission::admit;
use native::gone::Gone;
use native::plan::Listing;
use native::refusal::{Refusal, NUMBER_COUNT};
use native::replan::search_anew;
use native::rng::Rng;
use native::search::Recorded;
use native::sheet::Sheet;
use native::wishes::wishes;

/// Of a sheet's list anew at most about so many wishes are compared.
const MOST_WISHES: usize = 40;

/// How often each refusal was met, or none under 0, in listing and in choosing by each wish; and of the gone parts with a list, how many have several pairs,
/// and how many orders aboard.
#[derive(Debug, Default)]
pub struct Met {
    pub numbers: [usize; NUMBER_COUNT],
    pub several: usize,
    pub with_orders: usize,
}

impl Met {
    /// The product lists and chooses anew as the independent replanner does, whose rounds are made once for all wishes; what it was lent to read is as lent.
    /// Gives the refusal of listing, 0 for none.
    pub fn check(&mut self, sheet: &Sheet, gone: &Gone, rng: &mut Rng) -> usize {
        let recorded = admit(sheet).and_then(|()| search_anew(sheet, gone));
        self.check_answer(sheet, gone, &recorded, rng)
    }

    /// The same where the answer is known: the listed pairs with their plans and the count of rounds, or the refusal.
    pub fn check_answer(
        &mut self,
        sheet: &Sheet,
        gone: &Gone,
        answer: &Result<Recorded, Refusal>,
        rng: &mut Rng,
    ) -> usize {
        let recorded = answer.as_ref().map_err(|&refusal| refusal);
        let listed = recorded.map(Recorded::listing);
        let number = self.check_listing(sheet, gone, &listed, rng);
        let pairs = listed.map_or(Vec::new(), |listing| listing.pairs);
        self.several += usize::from(pairs.len() > 1);
        self.with_orders += usize::from(number == 0 && !gone.trains.rows.is_empty());
        let wishes = wishes(&pairs);
        let steps = if wishes.len() > MOST_WISHES { 1 + rng.index(2 * wishes.len() / MOST_WISHES) } else { 1 };
        for &wish in wishes.iter().step_by(steps) {
            self.check_choosing(sheet, gone, wish, recorded, rng);
        }
        number
    }

    fn check_listing(
        &mut self,
        sheet: &Sheet,
        gone: &Gone,
        expected: &Result<Listing, Refusal>,
        rng: &mut Rng,
    ) -> usize {
        let exported = ExportedSheet::from(sheet);
        let told = (gone, sheet);
        let call = |pairs: &mut _| {
            let mut lent = ReadAreas::holding(&gone.trains);
            let reply = exported.relist_in(gone.minute, &mut lent, pairs);
            assert!(lent.hold(&gone.trains), "{told:?}");
            reply
        };
        Lists { sheet, call: &call, told: &told }.check(expected, rng);
        self.meet(expected)
    }

    fn check_choosing(
        &mut self,
        sheet: &Sheet,
        gone: &Gone,
        wish: u32,
        recorded: Result<&Recorded, Refusal>,
        rng: &mut Rng,
    ) {
        let expected = recorded.and_then(|recorded| recorded.chosen(wish));
        let exported = ExportedSheet::from(sheet);
        let told = (gone, sheet);
        let call = |areas: &mut _| {
            let mut lent = ReadAreas::holding(&gone.trains);
            let reply = exported.rechoose_in(gone.minute, wish, &mut lent, areas);
            assert!(lent.hold(&gone.trains), "{told:?}");
            reply
        };
        Chooses { sheet, wish, call: &call, told: &told }.check(&expected, rng);
        self.meet(&expected);
    }

    fn meet<T>(&mut self, answer: &Result<T, Refusal>) -> usize {
        let number = answer.as_ref().err().map_or(0, |refusal| refusal.number);
        self.numbers[number] += 1;
        number
    }

    pub fn print(&self, what: &str) {
        let Met { numbers, several, with_orders } = self;
        let refused = numbers[1..].iter().sum::<usize>();
        print!("replanning, {what}: {} answers compared, {refused} refused; ", refused + numbers[0]);
        println!("{with_orders} lists behind trains with orders, {several} lists of several pairs");
    }

    /// More than so many have orders gone, several pairs, and each of these numbers.
    pub fn each_above(&self, least: usize, numbers: &[usize]) -> bool {
        let others = [self.several, self.with_orders];
        numbers.iter().map(|&number| self.numbers[number]).chain(others).all(|count| count > least)
    }
}
