//! The largest frame, send and delivery, a full matrix, an extra of a send, and sends on both sides of 21, each reached by
//! a list on both implementations.

use differential::lists::{Pairs, Step};
use reference::boundary::{self, Steps, CAPS_OF_846};
use reference::ceiling::{large_cap, Counts};
use reference::*;

/// A list on both sides, whose steps must not differ.
struct Same(Pairs);

/// A step that must not differ.
fn same<T>(step: Step<T>) -> T {
    step.unwrap_or_else(|difference| panic!("{difference}"))
}

impl Steps for Same {
    fn send(&mut self, i: usize, j: usize, class: usize, body: &[u8]) -> SendAnswer {
        same(self.0.send(i, j, class, body))
    }

    fn offer(&mut self, node: usize, issue: usize) -> OfferAnswer {
        same(self.0.offer_issue(node, issue))
    }

    fn deliver(&mut self, node: usize) -> DeliverAnswer {
        same(self.0.deliver(node))
    }

    fn issued(&self) -> &[Vec<u8>] {
        &self.0.issued
    }
}

/// Runs a list of n nodes with this cap, whose conclusions must hold; gives what its answers came to.
fn run<T>(n: usize, cap: usize, steps: impl FnOnce(&mut Same) -> T) -> Counts {
    run_with(&vec![cap; n], steps)
}

/// The same with a cap for each node.
fn run_with<T>(caps: &[usize], steps: impl FnOnce(&mut Same) -> T) -> Counts {
    let mut list = Same(same(Pairs::start(caps)));
    steps(&mut list);
    same(list.0.check_conclusions());
    let (nodes, counts) = same(list.0.end()).ceilings.of(|_, _| true);
    assert_eq!(nodes, caps.len());
    counts
}

#[test]
fn a_frame_of_802_bytes() {
    for cap in [121, 144] {
        assert_eq!(run(12, cap, boundary::frame_of_802).extras(), 0);
    }
}

#[test]
fn a_send_of_814_bytes() {
    assert_eq!(run(12, 110, boundary::send_of_814).extras_of_sends, 1);
}

#[test]
fn a_delivery_of_504_bytes() {
    let counts = run(12, 55, boundary::delivery_of_504);
    assert_eq!((counts.several, counts.most), (1, 7));
}

#[test]
fn a_delivery_of_846_bytes() {
    let counts = run_with(&CAPS_OF_846, boundary::delivery_of_846);
    assert_eq!((counts.several, counts.most), (1, 11));
}

#[test]
fn frames_of_more_entries_than_the_receivers_cap() {
    for n in 3..=12 {
        for large in [large_cap(n), n * n] {
            let caps = [vec![large], vec![n; n - 1]].concat();
            let extras = if n == 3 { 0 } else { n - 2 };
            let counts = run_with(&caps, |list| boundary::more_than_the_cap(list, n));
            assert_eq!((counts.extras_of_sends, counts.extras_of_deliveries), (0, extras), "{n} nodes");
        }
    }
}

#[test]
fn sixteen_frames_of_802_bytes() {
    assert_eq!(run(12, 144, boundary::sixteen_of_802).extras(), 0);
}

#[test]
fn sends_on_both_sides_of_21() {
    run(2, 4, boundary::who_may_say_what);
}

#[test]
fn a_send_that_issues_its_one_extra() {
    let counts = run(4, 4, boundary::send_with_an_extra);
    assert_eq!((counts.extras_of_sends, counts.extras_of_deliveries), (1, 0));
}

#[test]
fn both_sides_of_a_large_cap() {
    for n in 3..=12 {
        let large = large_cap(n);
        let caps = [large - 1, large, large + 1, n * n];
        // It is the node's own cap that counts, whatever the others' are.
        for others in [n, large, n * n] {
            let with = |cap: usize| [vec![cap], vec![others; n - 1]].concat();
            let extras = |cap| run_with(&with(cap), |list| boundary::full_matrix(list, n)).extras();
            assert_eq!(caps.map(extras), [1, 0, 0, 0], "{n} nodes");
        }
    }
}
