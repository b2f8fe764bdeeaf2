//! The extras' share: halves, their two sides, and every small number of frames.

mod common;

use common::is_share;
use reference::plant::share;

/// Holds shares against hand-made ones, each extras, user frames and share.
fn check(shares: &[(usize, usize, usize)]) {
    for (extras, users, expected) in shares.iter().copied() {
        assert_eq!(share(extras, users), expected, "{extras} in {users}");
    }
}

#[test]
fn the_examples() {
    check(&[(1, 8, 12), (3, 8, 38)]);
}

#[test]
fn halves_go_to_the_even_neighbour() {
    // 0.5, 1.5, 2.5, 3.5, 4.5
    check(&[(1, 200, 0), (3, 200, 2), (5, 200, 2), (7, 200, 4), (9, 200, 4)]);
    // 62.5, 87.5, 112.5, 137.5
    check(&[(5, 8, 62), (7, 8, 88), (9, 8, 112), (11, 8, 138)]);
    // 12.5, 37.5, 2.5, 7.5, 99.5, 100.5
    check(&[(2, 16, 12), (9, 24, 38), (1, 40, 2), (3, 40, 8), (199, 200, 100), (201, 200, 100)]);
}

#[test]
fn beside_a_half_the_nearest_is_given() {
    // Just below and just above 0.5, 1.5, 2.5, 12.5 and 37.5.
    check(&[(1, 201, 0), (1, 199, 1)]);
    check(&[(2, 134, 1), (2, 133, 2)]);
    check(&[(10, 401, 2), (10, 399, 3)]);
    check(&[(50, 401, 12), (50, 399, 13)]);
    check(&[(150, 401, 37), (150, 399, 38)]);
    // 33.3, 66.7, 16.7, 83.3
    check(&[(1, 3, 33), (2, 3, 67), (1, 6, 17), (5, 6, 83)]);
}

#[test]
fn without_user_frames_or_without_extras() {
    check(&[(0, 0, 0), (1, 0, 0), (7, 0, 0), (0, 1, 0), (0, 8, 0), (0, 180, 0)]);
}

#[test]
fn whole_shares_and_more_extras_than_user_frames() {
    check(&[(1, 1, 100), (1, 2, 50), (12, 100, 12), (13, 100, 13), (3, 2, 150), (180, 1, 18_000)]);
    // 133.3, 166.7
    check(&[(4, 3, 133), (5, 3, 167)]);
}

#[test]
fn every_small_share_is_the_one_number_that_the_rule_gives() {
    for (extras, users) in (0..=400).flat_map(|extras| (1..=400).map(move |users| (extras, users))) {
        let r = share(extras, users);
        let near: Vec<usize> = (r.saturating_sub(2)..=r + 2).filter(|near| is_share(extras, users, *near)).collect();
        assert_eq!(near, [r], "{extras} in {users}");
    }
}
