//! A function's instructions as objdump lists them (AT&T's order, the destination last), and the loops among them.

use std::path::Path;
use std::process::Command;

/// One instruction.
#[derive(Clone, Debug, PartialEq)]
pub struct Instruction {
    pub address: u64,
    pub name: String,
    pub operands: String,
}

impl Instruction {
    /// Reads a line of an address, a colon and a tab, and the instruction; any other line is none.
    fn parse(line: &str) -> Option<Instruction> {
        let (address, text) = line.trim_start().split_once(":\t")?;
        let address = u64::from_str_radix(address, 16).ok()?;
        let (name, operands) = text.split_once(char::is_whitespace).unwrap_or((text, ""));
        Some(Instruction { address, name: name.to_string(), operands: operands.trim().to_string() })
    }

    /// Whether more than one instruction may follow it: it may or may not jump, or jumps where a register or a table says.
    pub fn is_conditional(&self) -> bool {
        let jumps = self.name.starts_with('j') || self.name.starts_with("loop");
        jumps && (!self.name.starts_with("jmp") || self.operands.starts_with('*'))
    }

    /// Whether it calls a function, whose jumps would not be seen.
    pub fn is_call(&self) -> bool {
        self.name.starts_with("call")
    }

    /// Where it jumps to.
    pub fn target(&self) -> Option<u64> {
        let jumps = self.is_conditional() || self.name.starts_with("jmp");
        let word = self.operands.split_whitespace().next().filter(|_| jumps)?;
        u64::from_str_radix(word, 16).ok()
    }

    /// The element of an array that it loads into a register.
    pub fn loaded(&self) -> Option<&str> {
        let (from, _) = self.operands.rsplit_once(",%").filter(|_| self.name.starts_with("mov"))?;
        Some(from).filter(|from| is_element(from))
    }

    /// The element of an array that it stores a register to.
    pub fn stored(&self) -> Option<&str> {
        let (from, to) = self.operands.split_once(',').filter(|_| self.name.starts_with("mov"))?;
        Some(to).filter(|to| from.starts_with('%') && is_element(to))
    }
}

/// Whether an operand is memory at an index, as `0xac(%rsp,%rdx,4)` is and a variable on the stack is not.
fn is_element(operand: &str) -> bool {
    operand.ends_with(')') && operand.contains(",%")
}

/// The instructions of a listing.
pub fn parse(listing: &str) -> Vec<Instruction> {
    listing.lines().filter_map(Instruction::parse).collect()
}

/// What objdump lists of a function in an archive.
pub fn disassemble(archive: &Path, function: &str) -> Vec<Instruction> {
    let output = Command::new("objdump")
        .args(["--no-show-raw-insn", "--wide", &format!("--disassemble={function}")])
        .arg(archive)
        .output()
        .expect("objdump runs (it comes with the linker, in binutils)");
    assert!(output.status.success(), "objdump: {}", String::from_utf8_lossy(&output.stderr));
    parse(&String::from_utf8_lossy(&output.stdout))
}

/// The loops: for each place that a jump leads back to, the instructions on the ways from there to such a jump, in the
/// order of their addresses. A jump back that cannot be reached from where it leads makes no loop: code that is seldom
/// run is laid behind the rest, and jumps back to it.
pub fn loops(code: &[Instruction]) -> Vec<Vec<Instruction>> {
    let next: Vec<Vec<usize>> = (0..code.len()).map(|place| next_of(code, place)).collect();
    let mut before = vec![Vec::new(); code.len()];
    for (place, places) in next.iter().enumerate() {
        places.iter().for_each(|after| before[*after].push(place));
    }
    let bodies = (0..code.len()).map(|start| {
        let within = reached(&next, &[start], None);
        let back = |place: &usize| *place >= start && code[*place].target() == Some(code[start].address);
        let jumps: Vec<usize> = (0..code.len()).filter(back).filter(|place| within[*place]).collect();
        let leading = reached(&before, &jumps, Some(start));
        (0..code.len()).filter(|place| within[*place] && leading[*place]).map(|place| code[place].clone()).collect()
    });
    bodies.filter(|body: &Vec<Instruction>| !body.is_empty()).collect()
}

/// The places of the instructions that may follow one; of a jump by a register or a table, any.
fn next_of(code: &[Instruction], place: usize) -> Vec<usize> {
    let one = &code[place];
    if one.operands.starts_with('*') && one.name.starts_with("jmp") {
        return (0..code.len()).collect();
    }
    let ends = ["ret", "ud2", "hlt"].iter().any(|name| one.name.starts_with(name));
    let falls = !ends && !one.name.starts_with("jmp") && place + 1 < code.len();
    let target = one.target().and_then(|target| code.iter().position(|other| other.address == target));
    target.into_iter().chain(falls.then_some(place + 1)).collect()
}

/// The places that are reached from these, these among them, and none over the one at which the way ends.
fn reached(next: &[Vec<usize>], from: &[usize], end: Option<usize>) -> Vec<bool> {
    let mut seen = vec![false; next.len()];
    let mut left = from.to_vec();
    while let Some(place) = left.pop() {
        if !std::mem::replace(&mut seen[place], true) && Some(place) != end {
            left.extend(&next[place]);
        }
    }
    seen
}
