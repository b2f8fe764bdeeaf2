//! A difference, printed so that the case can be repeated.

use generate::{Buffers, Call, Case, Outcome};
use reference::Record;
use std::fmt::{self, Display, Formatter};

/// A case on which the two implementations differ, and in what.
#[derive(Clone, Debug)]
pub struct Difference {
    pub case: Case,
    /// What differs, with both values.
    pub parts: Vec<String>,
}

impl Difference {
    /// The outcome of the case where nothing differs.
    pub fn unless_none(case: &Case, outcome: Outcome, parts: Vec<String>) -> Result<Outcome, Box<Difference>> {
        if parts.is_empty() {
            return Ok(outcome);
        }
        Err(Box::new(Difference { case: case.clone(), parts }))
    }
}

impl Display for Difference {
    fn fmt(&self, f: &mut Formatter<'_>) -> fmt::Result {
        writeln!(f, "DIFFERENCE in {}", self.case.call.name())?;
        self.parts.iter().try_for_each(|part| writeln!(f, "  {part}"))?;
        writeln!(f, "the case:")?;
        write_image(f, &self.case)?;
        write_call(f, &self.case.call)?;
        write_buffers(f, &self.case.buffers)
    }
}

/// How the image was made, and its bytes; of one of 632 bytes also its record, the non-zero counts alone.
fn write_image(f: &mut Formatter<'_>, case: &Case) -> fmt::Result {
    let Case { image, made, .. } = case;
    writeln!(f, "  image of {}, {made:?}: {}", image.len(), hex(image))?;
    let Ok(image) = image[..].try_into() else {
        return Ok(());
    };
    let record = Record::from_fields(image);
    let counts = |counts: &[u32]| -> Vec<(usize, u32)> {
        counts.iter().copied().enumerate().filter(|(_, count)| *count != 0).collect()
    };
    writeln!(f, "  me {} n {} cap {} held {}", record.me, record.n, record.cap, record.held)?;
    writeln!(f, "  M as (12 x row + column, count): {:?}", counts(&record.m))?;
    writeln!(f, "  DELIV as (node, count): {:?}", counts(&record.deliv))
}

/// The call with its numbers and the bytes that it reads.
fn write_call(f: &mut Formatter<'_>, call: &Call) -> fmt::Result {
    match call {
        Call::SetUp { me, n, cap } => writeln!(f, "  set-up: me {me} n {n} cap {cap}"),
        Call::Send { to, class, body } => {
            writeln!(f, "  send: to {to}, class {class}, body of {}: {}", body.len(), hex(body))
        }
        Call::Offer { frame } => writeln!(f, "  offer: frame of {}: {}", frame.len(), hex(frame)),
        Call::Deliver => writeln!(f, "  deliver"),
        Call::Yard { input } | Call::Load { input } => {
            writeln!(f, "  {}: {:?}", call.name(), String::from_utf8_lossy(input))
        }
        Call::Write { used, frame } => {
            writeln!(f, "  write: {used} in use, frame of {}: {}", frame.len(), hex(frame))
        }
        Call::Walk { file, w } => writeln!(f, "  walk: w {w}, file of {}: {}", file.len(), hex(file)),
        Call::Step { file, cursor } => writeln!(f, "  step: {cursor:?}, file of {}: {}", file.len(), hex(file)),
    }
}

/// The lent buffers as they were before the call.
fn write_buffers(f: &mut Formatter<'_>, buffers: &Buffers) -> fmt::Result {
    let Buffers { shelf, out, body_out, answer, file } = buffers;
    let named =
        [("shelf", shelf), ("frame output", out), ("body output", body_out), ("answer", answer), ("file", file)];
    for (name, bytes) in named {
        writeln!(f, "  {name} of {}: {}", bytes.len(), hex(bytes))?;
    }
    Ok(())
}

/// Bytes in hex, runs of zeros counted.
pub fn hex(bytes: &[u8]) -> String {
    let mut text = String::new();
    let mut rest = bytes;
    while let Some(first) = rest.first() {
        let zeros = rest.iter().take_while(|byte| **byte == 0).count();
        if zeros > 8 {
            text.push_str(&format!("<{zeros} zeros>"));
            rest = &rest[zeros..];
        } else {
            text.push_str(&format!("{first:02X}"));
            rest = &rest[1..];
        }
    }
    text
}
