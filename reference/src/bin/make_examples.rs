//! Makes the files of the folder `examples` anew, from the second implementation alone.
//! It says whether the stored files differ from these. With --check nothing is written, and a difference is an error.

use reference::command::{ended, refused, Failure};
use reference::examples::files;
use reference::stored_files::{check_and_folder, others, renew};
use std::process::ExitCode;

const USAGE: &str = "make_examples [--check] FOLDER: the folder of the examples";

fn main() -> ExitCode {
    ended(run())
}

fn run() -> Result<(), Failure> {
    let (check, folder) = check_and_folder(USAGE)?;
    let files = files();
    let different = renew(&folder, &files, check)?;
    let others = others(&folder, &files)?;
    if check && different > 0 || others > 0 {
        let message = format!("{different} files differ, {others} are none of the examples");
        return Err(refused(message));
    }
    Ok(())
}
