//! Replays a script from standard input, and prints what the machine prints.

use std::io::{Read, Write};

use reference::answers::Reference;
use reference::machine::Machine;

fn main() -> std::io::Result<()> {
    let mut script = Vec::new();
    std::io::stdin().read_to_end(&mut script)?;
    std::io::stdout().write_all(Machine::<Reference>::default().script(&script).as_bytes())
}
