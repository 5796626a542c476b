//! A shelf of processes in a folder of its own: boxes and scopes as they are started by hand, on 127.0.0.1.

use crate::keys;
use crate::servers;
use std::fs;
use std::io::{BufRead, BufReader, Read, Write};
use std::net::SocketAddr;
use std::path::{Path, PathBuf};
use std::process::{Child, Command, Stdio};
use std::sync::atomic::{AtomicU32, Ordering};

/// No box of a test outlives this, whatever becomes of the test.
const BOX_SECONDS: &str = "300";

/// A folder that goes away with its owner.
pub struct Folder(pub PathBuf);

impl Folder {
    pub fn new() -> Result<Self, String> {
        static MADE: AtomicU32 = AtomicU32::new(0);
        let name = format!("cendrulas-{}-{}", std::process::id(), MADE.fetch_add(1, Ordering::Relaxed));
        let path = std::env::temp_dir().join(name);
        fs::create_dir(&path).map_err(|e| format!("{}: {e}", path.display()))?;
        Ok(Folder(path))
    }
}

impl Drop for Folder {
    fn drop(&mut self) {
        let _ = fs::remove_dir_all(&self.0);
    }
}

/// A process that is ended with its owner, by SIGKILL.
pub struct Running(Child);

impl Running {
    /// SIGKILL, at once; returns when the process is gone.
    pub fn kill(&mut self) -> Result<(), String> {
        self.0.kill().and_then(|()| self.0.wait()).map(|_| ()).map_err(|e| format!("a process can't be killed: {e}"))
    }

    /// Waits for a program that ends by itself: what it printed on standard output and standard error, and whether with status 0.
    pub fn ended(&mut self) -> Result<(Vec<u8>, String, bool), String> {
        let (mut out, mut said) = (Vec::new(), String::new());
        let status = self.0.wait().map_err(|e| e.to_string())?;
        let read = self.0.stdout.take().map_or(Ok(0), |mut pipe| pipe.read_to_end(&mut out));
        let also = self.0.stderr.take().map_or(Ok(0), |mut pipe| pipe.read_to_string(&mut said));
        read.and(also).map_err(|e| e.to_string())?;
        Ok((out, said, status.success()))
    }
}

impl Drop for Running {
    fn drop(&mut self) {
        let _ = self.kill();
    }
}

/// A program that stands beside this one.
pub fn program(name: &str) -> Result<Command, String> {
    let this = std::env::current_exe().map_err(|e| e.to_string())?;
    Ok(Command::new(this.with_file_name(name)))
}

pub struct Shelf {
    pub t: usize,
    folder: Folder,
}

impl Shelf {
    /// Key files, and a blank card for every box.
    pub fn new(t: usize) -> Result<Self, String> {
        let shelf = Shelf { t, folder: Folder::new()? };
        for (name, text) in keys::new_shelf(t)? {
            fs::write(shelf.path(&name), text).map_err(|e| format!("{name}: {e}"))?;
        }
        (1..=servers(t)).try_for_each(|server| shelf.blank_box(server))?;
        Ok(shelf)
    }

    fn path(&self, name: &str) -> PathBuf {
        self.folder.0.join(name)
    }

    pub fn card(&self, server: usize) -> PathBuf {
        self.path(&format!("box-{server}.card"))
    }

    pub fn box_key(&self, server: usize) -> PathBuf {
        self.path(&format!("box-{server}.key"))
    }

    pub fn scope_key(&self, scope: usize) -> PathBuf {
        self.path(&format!("scope-{scope}.key"))
    }

    pub fn state(&self, scope: usize) -> PathBuf {
        self.path(&format!("scope-{scope}.state"))
    }

    /// A scope that was never used.
    pub fn new_scope(&self, scope: usize) -> Result<(), String> {
        run(program("scope")?.arg("new").arg(self.state(scope)).arg(self.scope_key(scope)))
    }

    /// Makes a box blank, whatever it was.
    pub fn blank_box(&self, server: usize) -> Result<(), String> {
        let _ = fs::remove_file(self.card(server));
        run(program("box")?.arg("new").arg(self.card(server)).arg(self.box_key(server)))
    }

    /// Starts a box from its card; it says where it listens.
    pub fn start_box(&self, server: usize) -> Result<(Running, SocketAddr), String> {
        self.start(program("box")?, "run", server)
    }

    /// Likewise with another program, which takes the same words after its verb.
    pub fn start(&self, mut command: Command, verb: &str, server: usize) -> Result<(Running, SocketAddr), String> {
        command.arg(verb).arg(self.card(server)).arg(self.box_key(server)).args(["127.0.0.1:0", BOX_SECONDS]);
        listening(command)
    }

    /// Gives up the call in hand, if there is one.
    pub fn give_up(&self, scope: usize) -> Result<(), String> {
        let mut command = program("scope")?;
        let done = command.arg("give-up").arg(self.state(scope)).arg(self.scope_key(scope)).output();
        done.map(|_| ()).map_err(|e| e.to_string())
    }

    /// Starts a scope's call: `save` with a record, `load` without.
    pub fn start_call(&self, scope: usize, boxes: &str, seconds: u64, record: Option<&[u8]>) -> Result<Running, String> {
        self.start_call_of(program("scope")?, scope, boxes, seconds, record)
    }

    /// Likewise with another program, which takes the same words.
    pub fn start_call_of(&self, mut command: Command, scope: usize, boxes: &str, seconds: u64, record: Option<&[u8]>) -> Result<Running, String> {
        command.arg(if record.is_some() { "save" } else { "load" }).arg(self.state(scope)).arg(self.scope_key(scope));
        command.arg(boxes).arg(seconds.to_string());
        command.stdin(Stdio::piped()).stdout(Stdio::piped()).stderr(Stdio::piped());
        let mut child = command.spawn().map_err(|e| format!("scope {scope} can't be started: {e}"))?;
        let mut stdin = child.stdin.take().ok_or("a scope has no standard input")?;
        stdin.write_all(record.unwrap_or_default()).map_err(|e| e.to_string())?;
        Ok(Running(child))
    }
}

/// Runs a program that prints the address where it listens at the end of its first line.
pub fn listening(mut command: Command) -> Result<(Running, SocketAddr), String> {
    let child = command.stdin(Stdio::null()).stdout(Stdio::piped()).spawn();
    let mut child = Running(child.map_err(|e| format!("a box can't be started: {e}"))?);
    let mut line = String::new();
    let out = child.0.stdout.take().ok_or("a box has no standard output")?;
    BufReader::new(out).read_line(&mut line).map_err(|e| e.to_string())?;
    let address = line.split_whitespace().next_back().and_then(|word| word.parse().ok());
    Ok((child, address.ok_or_else(|| format!("a box did not say where it listens: {line:?}"))?))
}

fn run(command: &mut Command) -> Result<(), String> {
    let done = command.stdout(Stdio::null()).status().map_err(|e| format!("{}: {e}", program_name(command)))?;
    if done.success() { Ok(()) } else { Err(format!("{} did not succeed", program_name(command))) }
}

fn program_name(command: &Command) -> String {
    Path::new(command.get_program()).display().to_string()
}
