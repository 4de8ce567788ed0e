//! The proved program for jobs, which `tools/program job` writes to target/bin.
//! SCOTERLIME_JOB names another.

use std::env;
use std::io::{ErrorKind, Write};
use std::path::{Path, PathBuf};
use std::process::{Command, Stdio};

pub struct Program(PathBuf);

impl Program {
    pub fn job() -> Program {
        let path = match env::var_os("SCOTERLIME_JOB") {
            Some(given) => PathBuf::from(given),
            None => Path::new(env!("CARGO_MANIFEST_DIR")).join("../../target/bin/job"),
        };
        assert!(
            path.is_file(),
            "{} is not there: run `tools/program job` in the repository first",
            path.display()
        );
        Program(path)
    }

    /// What it prints for a text. It succeeds, and complains of nothing.
    pub fn printed(&self, text: &[u8]) -> Vec<u8> {
        let mut child = Command::new(&self.0)
            .stdin(Stdio::piped())
            .stdout(Stdio::piped())
            .stderr(Stdio::piped())
            .spawn()
            .expect("the program starts");
        let mut input = child.stdin.take().expect("its input");
        // It need not read a text to its end.
        match input.write_all(text) {
            Err(error) if error.kind() != ErrorKind::BrokenPipe => panic!("{error}"),
            _ => drop(input),
        }
        let told = child.wait_with_output().expect("it ends");
        assert!(told.status.success(), "{:?}", told.status);
        assert!(told.stderr.is_empty(), "{:?}", told.stderr);
        told.stdout
    }
}
