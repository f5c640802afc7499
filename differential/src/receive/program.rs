//! The receiving program as a process: what a run writes to its two streams, and what it leaves in its folder.
use std::collections::BTreeMap;
use std::ffi::OsStr;
use std::fmt::Display;
use std::io::Write;
use std::os::unix::ffi::{OsStrExt, OsStringExt};
use std::os::unix::fs::symlink;
use std::path::{Path, PathBuf};
use std::process::{Command, Output, Stdio};
use std::{env, fs, process, thread};

/// The files of a folder and their bytes. A folder has a slash behind its name and no bytes; a link an at sign, and the path that it leads to.
pub type Files = BTreeMap<String, Vec<u8>>;

/// All that can be seen of a run.
#[derive(PartialEq)]
pub struct Seen {
    pub output: Vec<u8>,
    pub words: Vec<u8>,
    pub files: Files,
}

pub struct Program {
    /// The words that start it, as `receive --how` gives them.
    words: Vec<String>,
    /// It runs in this folder, which has nothing but what a run is to find.
    pub folder: PathBuf,
}

impl Program {
    /// That it starts is tried first: nothing could be said of a delivery otherwise.
    pub fn new() -> Program {
        let words: Vec<String> = env::var("SPOONRIPPLE_RECEIVE").unwrap_or_default().lines().map(String::from).collect();
        let folder = Path::new(env!("CARGO_MANIFEST_DIR")).join(format!("target/receive.{}", process::id()));
        let program = Program { words, folder };
        if program.words.is_empty() {
            program.cannot("start this by the script run, which says how the program is started");
        }
        program.lay(&Files::new());
        let ended = program.ended(&[], [Stdio::null(), Stdio::piped()], &[]);
        if !ended.status.success() {
            program.cannot(format!("it does not start: {}; {}", ended.status, String::from_utf8_lossy(&ended.stderr).trim_end()));
        }
        program
    }

    /// Ends the run: the program could not be tried, which is no difference.
    fn cannot(&self, why: impl Display) -> ! {
        eprintln!("receive: {}: {why}", self.words.join(" "));
        let _ = fs::remove_dir_all(&self.folder);
        process::exit(2)
    }

    /// Runs it to its end. Where its input is a pipe it gets the delivery; that it stops reading before that ends is its own affair.
    fn ended(&self, arguments: &[&str], [input, output]: [Stdio; 2], d: &[u8]) -> Output {
        let mut command = Command::new(&self.words[0]);
        command.args(&self.words[1..]).args(arguments).current_dir(&self.folder);
        let started = command.stdin(input).stdout(output).stderr(Stdio::piped()).spawn();
        let mut started = started.unwrap_or_else(|e| self.cannot(format!("it cannot be started: {e}")));
        let input = started.stdin.take();
        let ended = thread::scope(|side| {
            side.spawn(move || input.map(|mut pipe| pipe.write_all(d)));
            started.wait_with_output()
        });
        ended.unwrap_or_else(|e| self.cannot(e))
    }

    /// What is seen of a run with these files in its folder; how it ended is among its words, if not well.
    pub fn run(&self, arguments: &[&str], streams: [Stdio; 2], before: &Files, d: &[u8]) -> Seen {
        self.lay(before);
        let Output { status, stdout: output, stderr: mut words } = self.ended(arguments, streams, d);
        if !status.success() {
            words.extend(format!("{status}\n").bytes());
        }
        Seen { output, words, files: self.left() }
    }

    /// The folder with these files and nothing else.
    fn lay(&self, files: &Files) {
        let _ = fs::remove_dir_all(&self.folder);
        let made = fs::create_dir_all(&self.folder).and_then(|()| {
            files.iter().try_for_each(|(name, bytes)| match (name.strip_suffix('/'), name.strip_suffix('@')) {
                (Some(folder), _) => fs::create_dir(self.folder.join(folder)),
                (_, Some(link)) => symlink(OsStr::from_bytes(bytes), self.folder.join(link)),
                _ => fs::write(self.folder.join(name), bytes),
            })
        });
        made.unwrap_or_else(|e| self.cannot(format!("{}: {e}", self.folder.display())));
    }

    fn left(&self) -> Files {
        let found = fs::read_dir(&self.folder).unwrap_or_else(|e| self.cannot(format!("{}: {e}", self.folder.display())));
        let named = found.flatten().map(|entry| {
            let name = entry.file_name().to_string_lossy().into_owned();
            match entry.file_type() {
                Ok(kind) if kind.is_dir() => (name + "/", vec![]),
                Ok(kind) if kind.is_symlink() => (name + "@", fs::read_link(entry.path()).unwrap_or_default().into_os_string().into_vec()),
                _ => (name, fs::read(entry.path()).unwrap_or_default()),
            }
        });
        named.collect()
    }
}

impl Drop for Program {
    fn drop(&mut self) {
        let _ = fs::remove_dir_all(&self.folder);
    }
}
