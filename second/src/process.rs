//! Running a command of the program under test: input given, output and error stream taken.

use std::io::{Read, Write};
use std::path::Path;
use std::process::{Child, Command, Stdio};
use std::sync::mpsc::{channel, Receiver};
use std::thread;
use std::time::Duration;

pub struct Ran {
    pub out: Vec<u8>,
    pub errors: Vec<u8>,
    pub succeeded: bool,
}

/// Runs the command to its end. A command that does not end within the patience is an error: every call ends.
pub fn run(command: &[String], root: &Path, input: Vec<u8>, patience: Duration) -> Result<Ran, String> {
    let mut child = start(command, root)?;
    let mut standard_input = child.stdin.take().expect("a pipe");
    // A program that stops early closes its input; what it wrote until then tells the rest.
    thread::spawn(move || drop(standard_input.write_all(&input)));
    let out = read_all(child.stdout.take().expect("a pipe"));
    let errors = read_all(child.stderr.take().expect("a pipe"));
    let Ok(out) = out.recv_timeout(patience) else {
        drop(child.kill());
        return Err(format!(
            "{} did not end within {} seconds\n",
            command.join(" "),
            patience.as_secs()
        ));
    };
    let errors = errors.recv_timeout(patience).unwrap_or_default();
    let status = child
        .wait()
        .map_err(|error| format!("{}: {error}\n", command.join(" ")))?;
    Ok(Ran {
        out,
        errors,
        succeeded: status.success(),
    })
}

/// A relative command is relative to the repository's root, where it also runs.
fn start(command: &[String], root: &Path) -> Result<Child, String> {
    let (program, arguments) = command.split_first().ok_or("an empty command\n")?;
    let program = if program.contains('/') {
        root.join(program)
    } else {
        program.into()
    };
    Command::new(&program)
        .args(arguments)
        .current_dir(root)
        .stdin(Stdio::piped())
        .stdout(Stdio::piped())
        .stderr(Stdio::piped())
        .spawn()
        .map_err(|error| format!("{} cannot be started: {error}\n", program.display()))
}

/// Reads a pipe to its end beside us, so that neither side waits for the other.
fn read_all(mut pipe: impl Read + Send + 'static) -> Receiver<Vec<u8>> {
    let (sender, receiver) = channel();
    thread::spawn(move || {
        let mut bytes = Vec::new();
        drop(pipe.read_to_end(&mut bytes));
        drop(sender.send(bytes));
    });
    receiver
}
