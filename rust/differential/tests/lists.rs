//! Whole lists on both implementations: no difference, and demand 3's conclusions and the ceiling on extras hold of what
//! both answered.

use differential::caps::Caps;
use differential::ceilings::Ceilings;
use differential::hostile::hostile;
use differential::lists::{Reached, Totals};
use reference::ceiling::large_cap;
use reference::random::Random;
use std::cmp::Ordering;

/// Steps of a list before every frame is let through.
const STEPS: usize = 300;

#[test]
fn hostile_lists() {
    let mut totals = Totals::default();
    for seed in 1000..2500 {
        totals = hostile(&mut Random::new(seed), STEPS, totals)
            .unwrap_or_else(|failure| panic!("{failure}\nlist of seed {seed}"));
    }
    println!("seeds 1000 to 2499:\n{totals}");
    for (call, number) in
        [("send", 6), ("send", 21), ("offer", 8), ("offer", 12), ("offer", 14), ("offer", 15), ("offer", 16)]
    {
        assert!(totals.counts.of(call, number) > 0, "{call} never gave {number}");
    }
    check_reached(totals.reached);
    check_caps(totals.caps);
    check_ceilings(&totals.ceilings);
}

/// There were lists with one cap for all and with the least beside the largest; frames of both kinds came from nodes with
/// a smaller and with a larger cap; and frames that carry more entries than the receiver's cap were taken and delivered,
/// and trimmed for.
fn check_caps(caps: Caps) {
    assert!(caps.alike > 300 && caps.apart > 300, "{caps:?}");
    assert!(caps.from_smaller.iter().chain(&caps.from_larger).all(|count| *count > 500), "{caps:?}");
    // In the end every frame is let through.
    assert!(caps.beyond == caps.beyond_delivered && caps.beyond > 1_000, "{caps:?}");
    assert!(caps.beyond_trimmed > 1_000 && caps.beyond_trimmed < caps.beyond, "{caps:?}");
}

/// For each number of nodes there were nodes with the least and the largest cap and with caps on both sides of the least
/// one under which no extra is issued; and one below that, extras were issued. A send issued its one extra, and deliveries
/// several.
fn check_ceilings(ceilings: &Ceilings) {
    for n in 2..=12 {
        let (caps, large) = (n..=n * n, large_cap(n));
        let of = |cap| ceilings.of(|nodes, given| (nodes, given) == (n, cap));
        for cap in [n, large - 1, large, large + 1, n * n].into_iter().filter(|cap| caps.contains(cap)) {
            let (nodes, counts) = of(cap);
            assert!(nodes > 0 && counts.sent > 0 && counts.delivered > 0, "no node of {n} with cap {cap}");
            assert_eq!(counts.extras() > 0, cap < large, "{counts:?} among {n} with cap {cap}");
        }
    }
    let [(below, counts), (at, none), (above, no_more)] =
        [Ordering::Less, Ordering::Equal, Ordering::Greater].map(|side| ceilings.on(side));
    assert!(below > 2_000 && at > 500 && above > 2_000, "{below} {at} {above}");
    assert!(counts.extras_of_sends > 20 && counts.extras_of_deliveries > 5_000, "{counts:?}");
    assert!(counts.several > 1_000 && counts.most > 5, "{counts:?}");
    assert_eq!((none.extras(), no_more.extras()), (0, 0));
}

/// Shelves starved until 15 and 16 are held, offers at wrong nodes and of frames with neighbours exchanged, refused calls
/// beside the list's own, full matrices, sends of each group by each class that may and by no other, and each way to go on
/// were met.
fn check_reached(reached: Reached) {
    assert!(reached.fifteen_held > 0 && reached.sixteen_held > 0, "{reached:?}");
    assert!(reached.refused_at_fifteen > 0 && reached.refused_at_sixteen > 0, "{reached:?}");
    assert!(reached.exchanged > 5_000, "{reached:?}");
    assert!(reached.astray > 0 && reached.strays > 10_000 && reached.full > 100, "{reached:?}");
    for (class, rights) in [[1, 0, 0, 1], [0, 1, 0, 1], [0, 0, 1, 1], [0, 0, 0, 1]].into_iter().enumerate() {
        assert_eq!(rights.map(|right| right == 1), reached.sent[class].map(|sent| sent > 100), "{reached:?}");
        assert_eq!(rights.map(|right| right == 0), reached.sent[class].map(|sent| sent == 0), "{reached:?}");
    }
    assert!(reached.earliest_taken > 0 && reached.earliest_held > 0 && reached.earliest_shut_out > 0, "{reached:?}");
}
