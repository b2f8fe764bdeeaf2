//! A picture of a run: the space-time diagram of a yard input, as SVG.
#![forbid(unsafe_code)]

mod draw;
mod layout;
mod legend;
mod story;
mod svg;
mod symbols;
mod texts;
mod words;

use layout::Layout;
use reference::yard;
use std::fmt::{self, Display, Formatter};
use story::Story;

/// Why there is no picture.
#[derive(Clone, Copy, Debug, PartialEq, Eq)]
pub enum Fault {
    /// The yard prints `R 17` alone for the input.
    Input,
    /// Names are given, but not one for each node.
    Names { given: usize, nodes: usize },
}

impl Display for Fault {
    fn fmt(&self, f: &mut Formatter<'_>) -> fmt::Result {
        match self {
            Fault::Input => {
                let (first, most) = ("its first line is n (2 to 4) and a cap for each node (n to n × n)", yard::INPUT);
                write!(f, "this is no yard input: {first}, and it has at most {most} bytes")
            }
            Fault::Names { given, nodes } => write!(f, "{given} names are given for {nodes} nodes"),
        }
    }
}

/// Draws the run of a yard input; names are none, or one for each node.
pub fn picture(input: &[u8], names: &[String]) -> Result<String, Fault> {
    let run = yard::run(input).ok_or(Fault::Input)?;
    if !names.is_empty() && names.len() != run.n() {
        return Err(Fault::Names { given: names.len(), nodes: run.n() });
    }
    let story = Story::of(&run);
    let layout = Layout::of(&run, &story, names);
    Ok(draw::draw(&run, &story, &layout, names))
}
