//! The largest frame, send and delivery, each reached by a list, and what stands there.

use reference::boundary::{self, bring, CAPS_OF_846};
use reference::frame::{EXTRA, USER};
use reference::list::List;
use reference::*;

/// A list of n nodes with one cap before its first step.
fn start(n: usize, cap: usize) -> List {
    List::alike(n, cap).unwrap()
}

#[test]
fn a_frame_of_802_bytes() {
    for cap in [121, 144] {
        let mut list = start(12, cap);
        let issue = boundary::frame_of_802(&mut list);
        assert_eq!((list.frame(issue).entry_count(), list.frame(issue).number()), (121, 2));
        assert_eq!(&list.seats[5].shelf[..802], &list.issued[issue][..]);
    }
}

#[test]
fn a_frame_of_12_bytes() {
    let mut list = start(2, 2);
    assert_eq!(list.send(0, 1, 0, &[]), SendAnswer::Sent { bytes: 12, extras: 0 });
    let delivery = bring(&mut list, 0);
    assert_eq!((delivery.kind, delivery.number, delivery.body), (USER, 1, 0));
}

#[test]
fn a_send_of_814_bytes() {
    let mut list = start(12, 110);
    let issue = boundary::send_of_814(&mut list);
    let extra = list.frame(issue);
    assert_eq!((extra.kind(), extra.to(), extra.entry_count(), extra.number()), (EXTRA, 1, 11, 2));
    assert_eq!(list.seats[0].record.standing(), 101);
}

#[test]
fn a_delivery_of_504_bytes() {
    let mut list = start(12, 55);
    boundary::delivery_of_504(&mut list);
    let last = list.issued.len() - 1;
    assert_eq!([last - 6, last].map(|extra| list.frame(extra).to()), [1, 7]);
    assert_eq!(list.seats[0].record.standing(), 47);
}

#[test]
fn a_delivery_of_846_bytes() {
    let mut list = List::start(&CAPS_OF_846).unwrap();
    boundary::delivery_of_846(&mut list);
    let last = list.issued.len() - 1;
    let extras: Vec<usize> = (last - 10..=last).map(|extra| list.frame(extra).to()).collect();
    assert_eq!(extras, [1, 2, 3, 4, 5, 6, 7, 8, 11, 9, 10]);
    assert_eq!((list.frame(last - 11).cap(), list.frame(last - 11).entry_count()), (144, 110));
    assert_eq!((list.frame(last).cap(), list.seats[0].record.standing()), (19, 11));
}

/// The bytes of the extra frames that trim issues: how many entries the columns have, the fullest first, and the cap.
fn trimmed(columns: &[usize], cap: usize) -> usize {
    let (mut standing, mut bytes) = (columns.iter().sum::<usize>(), 0);
    for entries in columns {
        if standing <= cap {
            break;
        }
        bytes += 12 + 6 * entries;
        standing = standing + 1 - entries;
    }
    bytes
}

/// The least cap of the receiver among n nodes under which the columns can stand so after a merge, first with the largest
/// cap at the sender, then with the same: of the sender's column all entries were kept, of another one that is full one was.
fn least_caps(n: usize, senders: usize, others: &[usize]) -> [usize; 2] {
    let kept = senders + others.iter().filter(|entries| **entries == n - 1).count();
    let standing = senders + others.iter().sum::<usize>();
    [kept.max(n), kept.max(n).max(standing.div_ceil(2))]
}

/// Goes through the columns of all but the sender and the receiver, so many more of them, none fuller than the last, and
/// through the sender's, and raises the most bytes that a delivery issues.
fn raise_most(n: usize, others: &mut Vec<usize>, most: &mut [usize; 2]) {
    if others.len() == n - 2 {
        for senders in 0..n {
            let place = others.iter().filter(|entries| **entries > senders).count();
            let columns = [&others[..place], &[senders], &others[place..]].concat();
            let bytes = least_caps(n, senders, others).map(|cap| trimmed(&columns, cap));
            *most = [0, 1].map(|alike| most[alike].max(bytes[alike]));
        }
        return;
    }
    for entries in 0..=others.last().copied().unwrap_or(n - 1) {
        others.push(entries);
        raise_most(n, others, most);
        others.pop();
    }
}

#[test]
fn no_delivery_issues_more() {
    let most = |n| {
        let mut most = [0; 2];
        raise_most(n, &mut Vec::new(), &mut most);
        most
    };
    assert_eq!(most(12), [846, 504]);
    for n in 3..12 {
        assert!(most(n)[0] < 846 && most(n)[1] < 504, "{n} nodes");
    }
}

#[test]
fn a_frame_of_more_entries_than_the_receivers_cap() {
    for n in 3..=12 {
        for large in [(n - 1) * (n - 1), n * n] {
            let mut caps = vec![n; n];
            caps[0] = large;
            let mut list = List::start(&caps).unwrap();
            let extras = if n == 3 { 0 } else { n - 2 };
            let delivery = boundary::more_than_the_cap(&mut list, n);
            assert_eq!((delivery.extras, delivery.bytes), (extras, extras * (12 + 6 * (n - 1))), "{n} nodes");
            assert!(list.seats[1].record.standing() <= n, "{n} nodes");
        }
    }
}

#[test]
fn fifteen_frames_of_802_bytes_are_held() {
    let mut list = start(12, 144);
    boundary::sixteen_of_802(&mut list);
    assert_eq!(list.seats[5].record.held, 15);
}
