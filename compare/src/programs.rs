//! The two programs: what they print for what they read.

use crate::library::Independent;
use independent::generate::Input;
use independent::{judging_line, walking_line};
use std::io::{self, ErrorKind, Write};
use std::path::{Path, PathBuf};
use std::process::{ChildStdin, Command, Stdio};
use std::time::Duration;
use std::{env, fs, process, thread};

/// Each gives the bytes on standard output, or why there are none.
pub trait Programs {
    fn judging(&self, input: &Input) -> io::Result<Vec<u8>>;
    /// Without a tape there is no file `solid.tape`.
    fn walking(&self, tape: Option<&[u8]>, input: &Input) -> io::Result<Vec<u8>>;
}

impl Programs for Independent {
    fn judging(&self, input: &Input) -> io::Result<Vec<u8>> {
        Ok(judging_line(&input.bytes).into())
    }

    fn walking(&self, tape: Option<&[u8]>, input: &Input) -> io::Result<Vec<u8>> {
        Ok(walking_line(tape.unwrap_or_default(), &input.bytes).into())
    }
}

/// Long enough for a waiting program to take up what has come so far.
const PAUSE: Duration = Duration::from_millis(3);

/// The programs as they are shipped, each run a process of its own.
pub struct Binaries {
    judging: PathBuf,
    walking: PathBuf,
    folder: Folder,
}

impl Binaries {
    /// The programs `judge_main` and `walk_main` of this folder.
    pub fn of_folder(folder: &Path) -> io::Result<Binaries> {
        // Whole paths: the programs are run in another folder.
        let program = |name| {
            let path = folder.join(name);
            let whole = fs::canonicalize(&path);
            whole.map_err(|error| {
                io::Error::new(error.kind(), format!("{}: {error}", path.display()))
            })
        };
        Ok(Binaries {
            judging: program("judge_main")?,
            walking: program("walk_main")?,
            folder: Folder::new()?,
        })
    }

    fn run(&self, program: &Path, input: &Input) -> io::Result<Vec<u8>> {
        let mut child = Command::new(program)
            .current_dir(&self.folder.path)
            .stdin(Stdio::piped())
            .stdout(Stdio::piped())
            .stderr(Stdio::piped())
            .spawn()?;
        let fed = child.stdin.take().map_or(Ok(()), |pipe| feed(pipe, input));
        let output = child.wait_with_output()?;
        fed?;
        if !output.status.success() || !output.stderr.is_empty() {
            let complaint = String::from_utf8_lossy(&output.stderr);
            return Err(io::Error::other(format!("{} {complaint}", output.status)));
        }
        Ok(output.stdout)
    }
}

impl Programs for Binaries {
    fn judging(&self, input: &Input) -> io::Result<Vec<u8>> {
        self.run(&self.judging, input)
    }

    fn walking(&self, tape: Option<&[u8]>, input: &Input) -> io::Result<Vec<u8>> {
        let file = self.folder.path.join("solid.tape");
        match tape {
            Some(tape) => fs::write(file, tape)?,
            None if file.exists() => fs::remove_file(file)?,
            None => {}
        }
        self.run(&self.walking, input)
    }
}

fn feed(mut pipe: ChildStdin, input: &Input) -> io::Result<()> {
    let (early, late) = input.parts();
    let mut fed = pipe.write_all(early);
    if fed.is_ok() && !late.is_empty() {
        thread::sleep(PAUSE);
        fed = pipe.write_all(late);
    }
    match fed {
        // A program may end before it has read all: it has no use for the rest.
        Err(error) if error.kind() == ErrorKind::BrokenPipe => Ok(()),
        fed => fed,
    }
}

/// A folder of our own, gone again when this is dropped.
struct Folder {
    path: PathBuf,
}

impl Folder {
    fn new() -> io::Result<Folder> {
        let mut number = 0;
        loop {
            let path = env::temp_dir().join(format!("compare-{}-{number}", process::id()));
            match fs::create_dir(&path) {
                Err(error) if error.kind() == ErrorKind::AlreadyExists => number += 1,
                made => return made.map(|()| Folder { path }),
            }
        }
    }
}

impl Drop for Folder {
    fn drop(&mut self) {
        let _ = fs::remove_dir_all(&self.path);
    }
}

#[cfg(test)]
mod tests {
    use super::*;
    use std::os::unix::fs::PermissionsExt;

    /// Shell scripts in place of the two programs, and the folder they lie in.
    fn scripts(judging: &str, walking: &str) -> (Folder, Binaries) {
        let folder = Folder::new().unwrap();
        for (name, script) in [("judge_main", judging), ("walk_main", walking)] {
            let path = folder.path.join(name);
            fs::write(&path, format!("#!/bin/sh\n{script}\n")).unwrap();
            fs::set_permissions(&path, fs::Permissions::from_mode(0o700)).unwrap();
        }
        let binaries = Binaries::of_folder(&folder.path).unwrap();
        (folder, binaries)
    }

    // One test: a process started meanwhile would hold a fresh script open, and keep it from running.
    #[test]
    fn programs_are_run() {
        are_given_file_and_input();
        are_told_when_they_fail();
    }

    fn are_given_file_and_input() {
        let (_folder, binaries) = scripts("head -c 4", "test -f solid.tape && cat solid.tape; cat");
        let late = |bytes: &[u8]| Input {
            bytes: bytes.to_vec(),
            late: 2,
        };
        assert_eq!(binaries.judging(&late(b"abc")).unwrap(), b"abc");
        // More than a pipe holds: the program ends before it is written.
        assert_eq!(binaries.judging(&late(&[7; 1 << 20])).unwrap(), [7; 4]);
        let walking = |tape| binaries.walking(tape, &late(b" 1 2")).unwrap();
        assert_eq!(walking(Some(b"tape")), b"tape 1 2");
        assert_eq!(walking(Some(b"t")), b"t 1 2");
        assert_eq!(walking(None), b" 1 2");
        assert_eq!(walking(None), b" 1 2");
        let own = binaries.folder.path.clone();
        assert!(own.exists());
        drop(binaries);
        assert!(!own.exists());
    }

    fn are_told_when_they_fail() {
        let (folder, binaries) = scripts("cat; exit 3", "cat; echo no >&2");
        let input = Input {
            bytes: b"0 4 6 4".to_vec(),
            late: 0,
        };
        assert!(binaries.judging(&input).is_err());
        assert!(binaries.walking(None, &input).is_err());
        fs::remove_file(folder.path.join("walk_main")).unwrap();
        assert!(Binaries::of_folder(&folder.path).is_err());
    }
}
