//! Writes made inputs as files, each with what is to be printed for it.

use super::tally::Tally;
use super::{inputs, look};
use crate::drafts::Octets;
use std::fs;
use std::io;
use std::path::Path;

/// Writes inputs as NAME.in and what they print as NAME.out; a name is `front` and a number from 1.
fn write(dir: &Path, front: &str, inputs: impl Iterator<Item = Octets>, tally: &mut Tally) -> io::Result<()> {
    for (input, number) in inputs.zip(1..) {
        let (name, printed) = (format!("{front}{number:04}"), look(&input));
        tally.note(&printed);
        fs::write(dir.join(name.clone() + ".in"), input)?;
        fs::write(dir.join(name + ".out"), printed)?;
    }
    Ok(())
}

/// Writes so many inputs by chance and all that are cut, and prints the counts; true where they show enough.
pub fn make(seed: u64, count: usize, dir: &Path) -> io::Result<bool> {
    let mut tally = Tally::default();
    fs::create_dir_all(dir)?;
    write(dir, "", inputs::some(seed, count), &mut tally)?;
    write(dir, "cut", inputs::cut().into_iter(), &mut tally)?;
    Ok(tally.print())
}
