//! What a Rust program may expect of the library's types, and that all of them are documented.

mod common;

use common::{Folder, object};
use daphulle::{
    Answer, Asked, Broken, ConvertStatics, Draft, Error, Inputs, JobFile, Merge, Note, NoteKind,
    Number, Object, Refusal,
    call::{MergeBuffers, MergeInputs, Outcome},
    draft,
};
use std::{
    error,
    fmt::{Debug, Display},
    hash::Hash,
    io::{self, Write},
    path::Path,
    process::Command,
};

/// A missing comment, a link that leads nowhere and the like are errors.
#[test]
fn everything_is_documented() {
    let package = Path::new(env!("CARGO_MANIFEST_DIR"));
    let folder = Folder::new();
    // beside cargo, as the compiler of this test
    let rustdoc = Path::new(env!("CARGO")).with_file_name("rustdoc");
    let output = Command::new(rustdoc)
        .args(["--edition", "2024", "--crate-name", "daphulle"])
        .args(["-D", "warnings", "-D", "missing-docs", "-o"])
        .arg(folder.path())
        .arg(package.join("src/lib.rs"))
        .output();
    match output {
        Ok(output) => assert!(output.status.success(), "{output:?}"),
        Err(error) => {
            // Not `eprintln`, which is kept back where a test passes.
            let _ = writeln!(io::stderr(), "skipped: rustdoc is not there: {error}");
        }
    }
}

fn is_value<T: Debug + Clone + PartialEq + Eq + Hash + Send + Sync>() {}

#[test]
fn values_can_be_shown_copied_compared_and_hashed() {
    is_value::<Answer>();
    is_value::<Asked>();
    is_value::<Broken>();
    is_value::<ConvertStatics>();
    is_value::<Draft>();
    is_value::<Error>();
    is_value::<Inputs>();
    is_value::<JobFile>();
    is_value::<Merge>();
    is_value::<MergeInputs>();
    is_value::<Note>();
    is_value::<NoteKind>();
    is_value::<Number>();
    is_value::<Object>();
    is_value::<Outcome>();
    is_value::<Refusal>();
    fn is_shown<T: Debug>() {}
    is_shown::<MergeBuffers>();
}

/// Each error is shown as one line, in a box and without one.
#[test]
fn errors_are_errors() {
    fn is_error<T: error::Error + Display + Send + Sync + 'static>() {}
    is_error::<Error>();
    is_error::<Refusal>();
    is_error::<Broken>();
    fn drafted() -> Result<Vec<u8>, Box<dyn error::Error>> {
        Ok(draft(&object(&[]), b"", b"x")?)
    }
    let line = "refused 7 0 1: line 1 of the block file has no LF at its end: `x`";
    assert_eq!(drafted().unwrap_err().to_string(), line);
    let Err(Error::Refused(refusal)) = draft(&object(&[]), b"", b"x") else {
        panic!("it is refused");
    };
    assert_eq!(refusal.to_string(), line);
    assert_eq!((refusal.file, refusal.line), (JobFile::Blocks, Some(1)));
    assert_eq!(Error::from(refusal).to_string(), line);
}
