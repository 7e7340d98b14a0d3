//! Writes the lister's cases into the folder given: for each name an input,
//! `name.in`, and the output expected for it, `name.out`.

use cases::lister::cases;
use cases::output::Folder;

fn main() -> std::io::Result<()> {
    let folder = Folder::from_argument()?;
    for case in cases() {
        folder.write(&format!("{}.in", case.name), &case.input)?;
        folder.write(&format!("{}.out", case.name), case.expected.as_bytes())?;
    }
    Ok(())
}
