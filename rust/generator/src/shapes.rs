//! Predecessor lists of every shape that the predecessor rules allow.

use crate::rng::Rng;

/// The lists of a graph of `count` nodes, in a shape drawn at random.
pub fn lists(rng: &mut Rng, count: u32) -> Vec<Vec<u32>> {
    let mut lists = match rng.below(6) {
        0 => chain(count),
        1 => fork(count),
        2 => all_earlier(count),
        3 => layers(rng, count),
        4 => ladder(count),
        _ => scattered(rng, count),
    };
    mend(rng, &mut lists);
    lists
}

/// Each node after the one before it.
pub fn chain(count: u32) -> Vec<Vec<u32>> {
    (1..=count).map(|own| if own == 1 { vec![] } else { vec![own - 1] }).collect()
}

/// Node 1, then all others but the last beside each other, then the last.
fn fork(count: u32) -> Vec<Vec<u32>> {
    let list = |own: u32| match own {
        1 => vec![],
        _ if own == count && count > 2 => (2..count).collect(),
        _ => vec![1],
    };
    (1..=count).map(list).collect()
}

/// Each node after every earlier one.
fn all_earlier(count: u32) -> Vec<Vec<u32>> {
    (1..=count).map(|own| (1..own).collect()).collect()
}

/// Layers of a few nodes, each node after the whole layer before.
fn layers(rng: &mut Rng, count: u32) -> Vec<Vec<u32>> {
    let mut lists = vec![vec![]];
    let mut before = vec![1];
    while lists.len() < count as usize {
        let first = lists.len() as u32 + 1;
        let last = rng.between(first, (first + 3).min(count));
        (first..=last).for_each(|_| lists.push(before.clone()));
        before = (first..=last).collect();
    }
    lists
}

/// Each node after the one or two before it.
fn ladder(count: u32) -> Vec<Vec<u32>> {
    (1..=count).map(|own| (own.saturating_sub(2).max(1)..own).collect()).collect()
}

/// Each node after some earlier ones.
fn scattered(rng: &mut Rng, count: u32) -> Vec<Vec<u32>> {
    let list = |own: u32| -> Vec<u32> {
        let mut list: Vec<u32> = (1..own).filter(|_| rng.once_in(3)).collect();
        if own > 1 && list.is_empty() {
            list.push(rng.between(1, own - 1));
        }
        list
    };
    (1..=count).map(list).collect()
}

/// Gives each node but the last a successor where it has none.
pub fn mend(rng: &mut Rng, lists: &mut [Vec<u32>]) {
    let count = lists.len() as u32;
    for own in 1..count {
        if lists.iter().all(|list| !list.contains(&own)) {
            let later = &mut lists[rng.between(own + 1, count) as usize - 1];
            later.push(own);
            later.sort_unstable();
        }
    }
}

#[cfg(test)]
mod tests {
    use super::*;

    #[test]
    fn every_shape_keeps_the_predecessor_rules() {
        let mut rng = Rng::new(5);
        for turn in 0..3000 {
            let count = 1 + turn % 16;
            let lists = lists(&mut rng, count);
            assert_eq!(lists.len(), count as usize);
            for (own, list) in (1..).zip(&lists) {
                assert_eq!(list.is_empty(), own == 1, "{lists:?}");
                assert!(list.windows(2).all(|pair| pair[0] < pair[1]), "{lists:?}");
                assert!(list.iter().all(|&number| 1 <= number && number < own), "{lists:?}");
            }
            assert!((1..count).all(|own| lists.iter().any(|list| list.contains(&own))), "{lists:?}");
        }
    }
}
