//! Lists over links that lose, repeat, delay, reorder and damage frames, exchange neighbouring bytes, bring frames to wrong
//! nodes, starve a node and fill a matrix, with refused calls beside the list's own.

use crate::lists::{Pairs, Step, Stray, Totals};
use generate::neighbours::exchange;
use generate::records::caps_by;
use generate::{frames, records, topics, Call};
use reference::ceiling::large_cap;
use reference::draft::has_right_sum;
use reference::history::ensure;
use reference::host::ANSWER;
use reference::image::IMAGE;
use reference::random::Random;
use reference::rights::CLASSES;
use reference::{DeliverAnswer, OfferAnswer, Record, SendAnswer};

/// Steps between two checks of what can go on.
const BETWEEN: usize = 50;

/// Runs a list of so many steps with hostile links, then lets every frame through; demand 3's conclusions are checked
/// on the way, before and after that, and the ceiling on extras in the end. Gives what it came to beside what earlier
/// lists did.
pub fn hostile(random: &mut Random, steps: usize, totals: Totals) -> Step<Totals> {
    let n = records::any_n(random);
    let caps = any_caps(random, n);
    let mut pairs = Pairs::start_with(&caps, totals)?;
    let (sends, delivers) = (random.within(1, 4), random.within(1, 4));
    let starved = if random.once_in(2) { random.below(steps) } else { steps };
    let at_bound = caps.iter().position(|cap| [large_cap(n) - 1, large_cap(n)].contains(cap));
    let filled = if at_bound.is_some() || random.once_in(4) { random.below(steps) } else { steps };
    for index in 0..steps {
        if index == starved {
            starve(random, &mut pairs)?;
        }
        if index == filled {
            let node = at_bound.unwrap_or_else(|| random.below(n));
            fill(random, &mut pairs, node)?;
        }
        let node = random.below(n);
        match random.below(sends + delivers + 4) {
            choice if choice < sends => {
                let to = random.below(n + 1);
                send(random, &mut pairs, node, to)?;
            }
            choice if choice < sends + delivers => {
                pairs.deliver(node)?;
            }
            _ => link(random, &mut pairs)?,
        }
        if random.once_in(10) {
            stray(random, &mut pairs)?;
        }
        if index % BETWEEN == BETWEEN - 1 {
            pairs.check_progress()?;
        }
    }
    pairs.check_conclusions()?;
    let_through(&mut pairs)?;
    pairs.check_conclusions()?;
    pairs.end()
}

/// A cap for each of n nodes, in every second list one for all.
fn any_caps(random: &mut Random, n: usize) -> Vec<usize> {
    if random.once_in(3) {
        vec![any_cap(random, n); n]
    } else {
        caps_by(random, n, any_cap)
    }
}

/// A cap among n nodes, in every second case at or beside the least one under which no extra frame is issued.
fn any_cap(random: &mut Random, n: usize) -> usize {
    let large = large_cap(n);
    if random.once_in(2) {
        records::any_cap(random, n)
    } else {
        random.pick(&[large - 1, large, large + 1]).clamp(n, n * n)
    }
}

/// A node other than this one.
fn other(random: &mut Random, node: usize, n: usize) -> usize {
    (node + 1 + random.below(n - 1)) % n
}

/// Keeps a frame back from a node while later ones reach it and nothing is delivered there, until its shelf takes no
/// more that wait; then brings the earliest undelivered frame, and one more.
fn starve(random: &mut Random, pairs: &mut Pairs) -> Step<()> {
    let n = pairs.n();
    let node = random.below(n);
    let from = other(random, node, n);
    send(random, pairs, from, node)?;
    for _ in 0..Record::HELD + 2 {
        let sender = if random.once_in(6) { other(random, node, n) } else { from };
        send_and_bring(random, pairs, sender, node)?;
    }
    pairs.check_progress()?;
    if let Some(issue) = pairs.history.earliest_to(node) {
        pairs.offer_issue(node, issue)?;
    }
    send_and_bring(random, pairs, from, node)?;
    pairs.check_progress()
}

/// Lets a node know of a frame from every node to every other, so that its matrix becomes full, or is trimmed on the way.
fn fill(random: &mut Random, pairs: &mut Pairs, node: usize) -> Step<()> {
    let n = pairs.n();
    for from in (node..n).chain(0..node) {
        for to in (0..n).filter(|to| *to != from && *to != node) {
            pairs.send(from, to, random.below(CLASSES), &[])?;
        }
        if from != node {
            pairs.send(from, node, random.below(CLASSES), &[])?;
            deliver_all(pairs, node)?;
        }
    }
    pairs.check_full(node)
}

/// Brings every undelivered frame to a node, the earliest first, and delivers it.
fn deliver_all(pairs: &mut Pairs, node: usize) -> Step<()> {
    while let Some(issue) = pairs.history.earliest_to(node) {
        pairs.offer_issue(node, issue)?;
        let answer = pairs.deliver(node)?;
        let delivered = matches!(answer, DeliverAnswer::Delivered(_));
        ensure(delivered, || format!("issue {issue} to {node} is not delivered: {answer:?}"))?;
    }
    Ok(())
}

/// Sends any body, by any class.
fn send(random: &mut Random, pairs: &mut Pairs, from: usize, to: usize) -> Step<SendAnswer> {
    let body = frames::any_body(random);
    let class = topics::any_class(random, &body);
    pairs.send(from, to, class, &body)
}

/// Sends to a node and offers the message there at once.
fn send_and_bring(random: &mut Random, pairs: &mut Pairs, from: usize, to: usize) -> Step<()> {
    let issue = pairs.issued.len();
    if let SendAnswer::Sent { .. } = send(random, pairs, from, to)? {
        pairs.offer_issue(to, issue)?;
    }
    Ok(())
}

/// A link brings a frame, old or new, at times to a wrong node, with a changed byte or with neighbours exchanged.
fn link(random: &mut Random, pairs: &mut Pairs) -> Step<()> {
    let count = pairs.issued.len();
    let reach = if random.once_in(3) { count } else { count.min(3 * pairs.n()) };
    let Some(issue) = count.checked_sub(1 + random.below(reach)) else {
        return Ok(());
    };
    let to = pairs.issued[issue][2] as usize;
    match random.below(12) {
        0 => {
            let wrong = other(random, to, pairs.n());
            pairs.offer_issue(wrong, issue)?;
        }
        1 => bring_damaged(random, pairs, issue)?,
        2 => bring_exchanged(random, pairs, issue)?,
        _ => {
            pairs.offer_issue(to, issue)?;
        }
    }
    Ok(())
}

/// Brings a frame with a changed byte. With a right sum it might be held, so that the node then goes back.
fn bring_damaged(random: &mut Random, pairs: &mut Pairs, issue: usize) -> Step<()> {
    let mut frame = pairs.issued[issue].clone();
    let to = frame[2] as usize;
    let repaired = random.once_in(2);
    frames::damage_byte(random, &mut frame, repaired);
    if has_right_sum(&frame) {
        return pairs.try_frame(to, &frame);
    }
    pairs.offer(to, &frame)?;
    Ok(())
}

/// A repeater brings a frame with unequal neighbours in front of its sum exchanged, which its node refuses by 8.
fn bring_exchanged(random: &mut Random, pairs: &mut Pairs, issue: usize) -> Step<()> {
    let mut frame = pairs.issued[issue].clone();
    let to = frame[2] as usize;
    exchange(random, &mut frame);
    let answer = pairs.offer(to, &frame)?;
    pairs.totals.reached.exchanged += 1;
    ensure(answer == OfferAnswer::Refused(8), || format!("issue {issue} with neighbours exchanged: {answer:?}"))?;
    Ok(())
}

/// A call that is refused whatever else it is lent: a set-up of a node in use with numbers out of range or on a part of
/// its image, any other call on a part of an image or with a short answer.
fn stray(random: &mut Random, pairs: &mut Pairs) -> Step<()> {
    let n = pairs.n();
    let (image, shelf, cut) = (random.below(n), random.below(n), random.once_in(2));
    let image_length = if cut { random.pick(&[0, 628, IMAGE - 1]) } else { IMAGE };
    let call = match random.below(4) {
        0 => Call::SetUp { me: if cut { image } else { n }, n, cap: n },
        1 => Call::Send { to: random.below(n + 1), class: random.below(5), body: frames::any_body(random) },
        2 => Call::Offer { frame: pairs.issued.last().cloned().unwrap_or_default() },
        _ => Call::Deliver,
    };
    let answer_length = if cut { ANSWER } else { random.below(ANSWER) };
    pairs.stray(call, Stray { image, image_length, shelf, answer_length })
}

/// Offers all frames again and delivers until nothing moves; then every issued frame is delivered.
fn let_through(pairs: &mut Pairs) -> Step<()> {
    let mut moved = true;
    let mut first = 0;
    while moved {
        moved = false;
        let mut issue = first;
        while issue < pairs.issued.len() {
            let node = pairs.issued[issue][2] as usize;
            let answer = pairs.offer_issue(node, issue)?;
            moved |= matches!(answer, OfferAnswer::Held { .. });
            while let DeliverAnswer::Delivered(_) = pairs.deliver(node)? {
                moved = true;
            }
            if issue == first && answer == OfferAnswer::Refused(14) {
                first += 1;
            }
            issue += 1;
        }
    }
    for issue in 0..pairs.issued.len() {
        let answer = pairs.offer_issue(pairs.issued[issue][2] as usize, issue)?;
        let delivered = pairs.history.is_delivered(issue) && answer == OfferAnswer::Refused(14);
        ensure(delivered, || format!("issue {issue} is not delivered in the end: {answer:?}"))?;
    }
    Ok(())
}
