//! A case: an image, a call and the buffers lent to it, and what comes of it.

use crate::images::Made;
use reference::cursor::Cursor;
use reference::frame::Frame;
use reference::host::{self, read_answer, ANSWER};
use reference::image::HELD;
use reference::node::Delivery;
use reference::recount::{self, Fates};
use reference::trail::{back, walk, write, WINDOWS};
use reference::{load, yard, DeliverAnswer, OfferAnswer, Record, Refusal, SendAnswer};

/// What stands in an answer before a call.
pub const MARK: u8 = 0xA5;

/// A call with its numbers and the bytes that it only reads.
#[derive(Clone, Debug, PartialEq, Eq)]
pub enum Call {
    SetUp { me: usize, n: usize, cap: usize },
    Send { to: usize, class: usize, body: Vec<u8> },
    Offer { frame: Vec<u8> },
    Deliver,
    Yard { input: Vec<u8> },
    Load { input: Vec<u8> },
    Write { used: usize, frame: Vec<u8> },
    Walk { file: Vec<u8>, w: usize },
    Step { file: Vec<u8>, cursor: Cursor },
}

/// The buffers that a call may write, each empty where the call is not lent it.
#[derive(Clone, Debug, Default, PartialEq, Eq)]
pub struct Buffers {
    /// The shelf (offer, deliver).
    pub shelf: Vec<u8>,
    /// Frame output (send, deliver).
    pub out: Vec<u8>,
    /// Body output (deliver).
    pub body_out: Vec<u8>,
    /// The answer (send, offer, deliver).
    pub answer: Vec<u8>,
    /// The trail's file (write).
    pub file: Vec<u8>,
}

/// One call with all that goes into it; the yard, the load and the trail's calls are lent no image.
#[derive(Clone, Debug, PartialEq, Eq)]
pub struct Case {
    pub image: Vec<u8>,
    /// How the image was made.
    pub made: Made,
    pub call: Call,
    pub buffers: Buffers,
}

/// What a call answers; that of a yard or a load is what it prints.
#[derive(Clone, Debug, PartialEq, Eq)]
pub enum Answer {
    SetUp(Result<(), Refusal>),
    Send(SendAnswer),
    Offer(OfferAnswer),
    Deliver(DeliverAnswer),
    Yard(Vec<u8>),
    Load(Vec<u8>),
    /// The number in use after it.
    Write(Result<usize, Refusal>),
    Walk(Walked),
    /// The frame that is shown, or nothing at the start.
    Step(Result<Option<Stepped>, Refusal>),
}

/// What a walk comes to.
#[derive(Clone, Debug, PartialEq, Eq)]
pub struct Walked {
    /// Start and length of each frame shown, the last first.
    pub shown: Vec<(usize, usize)>,
    /// The largest count.
    pub most: Result<usize, Refusal>,
}

/// A frame that a step shows, and the cursor after it.
#[derive(Clone, Copy, Debug, PartialEq, Eq)]
pub struct Stepped {
    pub start: usize,
    pub length: usize,
    pub is_extra: bool,
    pub cursor: Cursor,
}

/// The answer, and the image and every lent buffer afterwards.
#[derive(Clone, Debug, PartialEq, Eq)]
pub struct Outcome {
    pub answer: Answer,
    pub image: Vec<u8>,
    pub buffers: Buffers,
}

impl Outcome {
    /// The record of the image, where that is sound.
    pub fn record(&self) -> Option<Record> {
        Record::of_sound_image(&self.image)
    }
}

impl Call {
    /// The call's name.
    pub fn name(&self) -> &'static str {
        match self {
            Call::SetUp { .. } => "set-up",
            Call::Send { .. } => "send",
            Call::Offer { .. } => "offer",
            Call::Deliver => "deliver",
            Call::Yard { .. } => "yard",
            Call::Load { .. } => "load",
            Call::Write { .. } => "write",
            Call::Walk { .. } => "walk",
            Call::Step { .. } => "step",
        }
    }

    /// What becomes of the offers and the delivers of a yard, or of a load under every cap; nothing of another call or
    /// of an input that is refused whole.
    pub fn fates(&self) -> Fates {
        let fates = match self {
            Call::Yard { input } => yard::run(input).map(|run| recount::yard(&run)),
            Call::Load { input } => {
                load::read(input).map(|load| load.caps().map(|cap| recount::load(&load, cap)).sum())
            }
            _ => None,
        };
        fates.unwrap_or_default()
    }
}

impl Answer {
    /// The refusal's number, or 0 for another answer.
    pub fn number(&self) -> Refusal {
        match self {
            Answer::SetUp(Err(number))
            | Answer::Send(SendAnswer::Refused(number))
            | Answer::Offer(OfferAnswer::Refused(number))
            | Answer::Deliver(DeliverAnswer::Refused(number))
            | Answer::Write(Err(number))
            | Answer::Walk(Walked { most: Err(number), .. })
            | Answer::Step(Err(number)) => *number,
            _ => 0,
        }
    }

    /// What a yard or a load printed; nothing of another call.
    pub fn printed(&self) -> Option<&[u8]> {
        match self {
            Answer::Yard(printed) | Answer::Load(printed) => Some(printed),
            _ => None,
        }
    }
}

impl Case {
    /// The case of a call that is lent neither image nor buffers.
    pub fn alone(call: Call) -> Case {
        Case { image: Vec::new(), made: Made::Found, call, buffers: Buffers::default() }
    }

    /// The case of a call on a record's image, with an answer of eleven bytes.
    pub fn written(record: &Record, call: Call, buffers: Buffers) -> Case {
        let buffers = Buffers { answer: vec![MARK; ANSWER], ..buffers };
        Case { image: record.to_image().to_vec(), made: Made::Written, call, buffers }
    }

    /// Runs the case on the reference.
    pub fn run(&self) -> Outcome {
        let (mut image, mut buffers) = (self.image.clone(), self.buffers.clone());
        let answer = self.run_with(&mut image, &mut buffers);
        Outcome { answer, image, buffers }
    }

    /// Runs the case on the reference with this image and these buffers, which have to be its own.
    fn run_with(&self, image: &mut [u8], buffers: &mut Buffers) -> Answer {
        let Buffers { shelf, out, body_out, answer, file } = buffers;
        match &self.call {
            Call::SetUp { me, n, cap } => Answer::SetUp(taken(host::set_up(image, *me, *n, *cap))),
            Call::Send { to, class, body } => send_answer(host::send(image, *to, *class, body, out, answer), answer),
            Call::Offer { frame } => self.offer_answer(host::offer(image, frame, shelf, answer), frame),
            Call::Deliver => deliver_answer(host::deliver(image, shelf, out, body_out, answer), answer),
            Call::Yard { input } => Answer::Yard(yard(input)),
            Call::Load { input } => Answer::Load(load(input)),
            Call::Write { used, frame } => Answer::Write(write(file, *used, frame)),
            Call::Walk { file, w } => Answer::Walk(walked(file, *w)),
            Call::Step { file, cursor } => Answer::Step(stepped(file, cursor)),
        }
    }

    /// What an offer came to: of a frame that was taken also how many are held then and whether it was deliverable,
    /// which the host is not told.
    fn offer_answer(&self, number: u8, frame: &[u8]) -> Answer {
        if number > 0 {
            return Answer::Offer(OfferAnswer::Refused(number));
        }
        let record = Record::of_sound_image(&self.image).expect("the image of an offer that was taken is sound");
        let deliverable = Frame::first_of(frame).is_some_and(|frame| frame.is_deliverable(&record.deliv));
        Answer::Offer(OfferAnswer::Held { held: self.image[HELD] as usize + 1, deliverable })
    }
}

/// The result of a call without an answer.
fn taken(number: u8) -> Result<(), Refusal> {
    match number {
        0 => Ok(()),
        number => Err(number),
    }
}

/// What the bytes of an answer say, where the call was taken.
fn said(number: u8, answer: &[u8]) -> Result<Delivery, Refusal> {
    taken(number)
        .map(|()| read_answer(answer.first_chunk().expect("the answer of a call that was taken has its bytes")))
}

/// What a send came to.
fn send_answer(number: u8, answer: &[u8]) -> Answer {
    let sent = said(number, answer).map(|said| SendAnswer::Sent { bytes: said.bytes, extras: said.extras });
    Answer::Send(sent.unwrap_or_else(SendAnswer::Refused))
}

/// What a deliver came to.
fn deliver_answer(number: u8, answer: &[u8]) -> Answer {
    Answer::Deliver(match said(number, answer) {
        Err(number) => DeliverAnswer::Refused(number),
        Ok(said) if said.kind == 0 => DeliverAnswer::None { looked: said.looked },
        Ok(said) => DeliverAnswer::Delivered(said),
    })
}

/// What the reference's walk comes to; w is looked at before the first frame.
fn walked(file: &[u8], w: usize) -> Walked {
    let frames = back(file).map_while(Result::ok).take_while(|_| WINDOWS.contains(&w));
    Walked { shown: frames.map(|shown| (shown.start, shown.length())).collect(), most: walk(file, w) }
}

/// What the reference's step comes to.
pub fn stepped(file: &[u8], cursor: &Cursor) -> Result<Option<Stepped>, Refusal> {
    let frame = cursor.step(file)?;
    Ok(frame.map(|(shown, cursor)| Stepped {
        start: shown.start,
        length: shown.length(),
        is_extra: shown.is_extra(),
        cursor,
    }))
}
