//! Committees.

use crate::list::List;
use crate::model::committee::{COURSE, MOST_STAKE};
use crate::rng::Rng;

/// Stakes of up to `most` members: equal, unequal, very unequal, and near the limit of the total.
pub fn stakes(rng: &mut Rng, most: u64) -> Vec<u64> {
    if most == 7 && rng.once_in(10) {
        return COURSE.to_vec();
    }
    let members = if rng.once_in(8) { most } else { rng.within(1, most) };
    let each = |rng: &mut Rng, f: &mut dyn FnMut(&mut Rng) -> u64| (0..members).map(|_| f(rng)).collect::<Vec<u64>>();
    match rng.below(7) {
        0..=2 => vec![1; members as usize],
        3 => each(rng, &mut |rng| rng.within(1, 5)),
        4 => each(rng, &mut |rng| 1 << rng.below(55)),
        5 => {
            let mut stakes = each(rng, &mut |rng| rng.within(1, 3));
            let rest: u64 = stakes.iter().sum();
            // One member near a third, two thirds or all of the stake.
            let one = rng.below(members) as usize;
            stakes[one] = match rng.below(3) {
                0 => rest / 2 + rng.below(2),
                1 => 2 * rest + rng.below(3),
                _ => MOST_STAKE - rest,
            };
            stakes.iter().map(|stake| (*stake).max(1)).collect()
        }
        _ => {
            let share = MOST_STAKE / members;
            let mut stakes = vec![share; members as usize];
            stakes[0] += MOST_STAKE - share * members;
            stakes
        }
    }
}

/// A committee alone, many of them refused: 1 to 4.
pub fn committee_only(rng: &mut Rng) -> List {
    let most = *rng.pick(&[0, 1, 2, 127, 128, 129, 130, 200]);
    let style = rng.below(5);
    let mut stakes: Vec<u64> = (0..most).map(|_| if style == 0 { rng.below(4) } else { rng.within(1, 9) }).collect();
    if style == 1 && most > 0 {
        let sum: u64 = stakes.iter().sum();
        let total = *rng.pick(&[MOST_STAKE - 1, MOST_STAKE, MOST_STAKE + 1, u64::MAX - 300]);
        stakes[0] += total - sum;
    }
    if style == 2 {
        stakes = stakes.iter().map(|_| rng.word() >> rng.below(64)).collect();
    }
    if style == 3 && most > 1 {
        stakes[most as usize - 1] = 0;
    }
    List::roomy(stakes, vec![])
}
