//! The larger of two counts: every pair of counts at the powers of two and at the limit, kept and carried, on both
//! implementations, in a column that is merged and in the node's own; and one more than the limit, which is refused.

use differential::compare;
use generate::{Answer, Buffers, Call, Case, Outcome};
use reference::draft::Draft;
use reference::frame::USER;
use reference::node::OUTPUT;
use reference::{shelf, DeliverAnswer, Record};

/// Zero, each power of two up to the limit with its neighbours, and the limit with the count before it.
fn counts() -> Vec<u32> {
    let near = |power: u32| [(1 << power) - 1, 1 << power, (1 << power) + 1];
    let mut counts: Vec<u32> = (0..30).flat_map(near).filter(|count| *count <= Record::COUNT).collect();
    counts.extend([Record::COUNT - 1, Record::COUNT]);
    counts.sort_unstable();
    counts.dedup();
    counts
}

/// Node 0 of 3 keeps a count in row 1 and column 2, and holds a frame of node 1 that carries others: one there, and one
/// of row 2 in column 0, so many of which are delivered.
fn deliver(kept: u32, carried: u32, own: u32) -> Outcome {
    let mut record = Record::fresh(0, 3, 9).expect("n and cap are in range");
    *record.entry_mut(1, 2) = kept;
    record.deliv[2] = own;
    record.held = 1;
    let mut draft = Draft { kind: USER, from: 1, to: 0, n: 3, cap: 9, zero: 0, entries: vec![], body: vec![] };
    draft.set(1, 2, carried);
    draft.set(2, 0, own);
    let (mut shelf, out, body_out) = (vec![0; shelf::LENGTH], vec![0; OUTPUT], vec![0; Record::BODY]);
    shelf::hold(&mut shelf, 0, &draft.bytes());
    let case = Case::written(&record, Call::Deliver, Buffers { shelf, out, body_out, ..Buffers::default() });
    compare(&case).unwrap_or_else(|difference| panic!("{difference}"))
}

#[test]
fn the_larger_count_stays_and_the_own_column_is_zero() {
    let counts = counts();
    assert!(counts.contains(&0) && counts.contains(&Record::COUNT));
    for kept in &counts {
        for carried in counts.iter().filter(|carried| **carried > 0) {
            let own = (*carried).min(Record::COUNT - 1);
            let outcome = deliver(*kept, *carried, own);
            assert!(matches!(outcome.answer, Answer::Deliver(DeliverAnswer::Delivered(_))), "{:?}", outcome.answer);
            let record = outcome.record().expect("a sound image");
            assert_eq!(record.entry(1, 2), *kept.max(carried), "{kept} and {carried}");
            assert_eq!(record.entry(2, 0), 0, "{own} in the own column");
        }
    }
}

#[test]
fn a_count_above_the_limit_is_refused() {
    for (kept, carried, number) in [(Record::COUNT + 1, 1, 20), (1, Record::COUNT + 1, 4), (1 << 31, 1 << 31, 20)] {
        let answer = deliver(kept, carried, 1).answer;
        assert_eq!(answer, Answer::Deliver(DeliverAnswer::Refused(number)), "{kept} and {carried}");
    }
}
