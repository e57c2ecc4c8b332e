//! Makes the stored cases of `crates/vectors` and the stored run of `crates/lossmap` anew, from the second implementation alone.
//! It says whether the stored files differ from these. With --check nothing is written, and a difference is an error.

use reference::command::{ended, refused, write, Failure};
use reference::reply::Seen;
use reference::stored::{broken, input_and_output, map_program_run, missing, stored_cases};
use reference::stored_files::{check_and_folder, renew, MadeFile};
use std::process::ExitCode;

const USAGE: &str = "vectors [--check] FOLDER: the folder of the crates `vectors` and `lossmap`";

fn main() -> ExitCode {
    ended(run())
}

fn run() -> Result<(), Failure> {
    let (check, folder) = check_and_folder(USAGE)?;
    let cases = stored_cases();
    let mut seen = Seen::default();
    let (input, output) = input_and_output(&cases, &mut seen);
    write(&format!("{} cases\n{seen}", cases.len()))?;
    let missing = missing(&seen);
    for what in &missing {
        write(&format!("too few: {what}\n"))?;
    }
    let (data, listing) = map_program_run();
    let files = [
        MadeFile::new("vectors/stdin", input),
        MadeFile::new("vectors/stdout", output),
        MadeFile::new("lossmap/stdin", data),
        MadeFile::new("lossmap/stdout", listing),
    ];
    let different = renew(&folder, &files, check)?;
    if !missing.is_empty() || broken(&seen) > 0 {
        return Err(refused("the cases are not as they must be"));
    }
    if check && different > 0 {
        return Err(refused(format!("{different} files differ")));
    }
    Ok(())
}
