//! How x86-64 programs are built and run: as they are on such a machine, and by the cross compiler and the emulator that the gate names on
//! another.
#![allow(dead_code)]

use std::env::var;
use std::path::Path;
use std::process::Command;

pub fn c_compiler() -> String {
    var("CASTORPEDAL_CC").unwrap_or("cc".to_string())
}

pub fn program(path: &Path) -> Command {
    let Ok(emulator) = var("CASTORPEDAL_EMULATOR") else {
        return Command::new(path);
    };
    let mut command = Command::new(emulator);
    command.arg(path);
    command
}

/// The program under a limit of its stack, with no environment, which would lie on the stack too.
pub fn program_within(kib: u32, path: &Path) -> Command {
    let Ok(emulator) = var("CASTORPEDAL_EMULATOR") else {
        let mut shell = Command::new("/bin/sh");
        shell.env_clear().args(["-c", "ulimit -s \"$1\" && exec \"$2\"", "sh", &kib.to_string()]).arg(path);
        return shell;
    };
    // The shell's limit would be the emulator's own.
    let mut command = Command::new(emulator);
    command.env_clear().args(["-s", &(kib * 1024).to_string()]).arg(path);
    command
}
