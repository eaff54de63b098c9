//! Proved programs that are not there: 3, and where they were looked for.

mod common;

use std::fs;
use std::process::Command;

use common::stand_in::tool_by;
use common::subcommands::{all_fail, is_told};
use common::{empty_folder, example, held_to, root, run_of};

#[test]
fn programs_that_are_not_there() {
    let missing = empty_folder("programs-missing");
    all_fail(|| tool_by(&missing), "FANCHUKI_PROGRAMS can name its folder");
    all_fail(|| tool_by(&missing.join("no-folder")), "the proved program '");
    let folders = empty_folder("programs-folders");
    fs::create_dir(folders.join("plan")).expect("a folder");
    fs::create_dir(folders.join("calls")).expect("a folder");
    all_fail(|| tool_by(&folders), "is not there");
}

#[test]
fn programs_that_cannot_be_run() {
    let folder = empty_folder("programs-not-run");
    for name in ["plan", "calls"] {
        fs::write(folder.join(name), "#!/bin/sh\n").expect("it is written");
    }
    all_fail(|| tool_by(&folder), "Permission denied");
}

/// Where no folder is named: those of PREFIX/libexec/fanchuki, for a tool in PREFIX/bin.
#[test]
fn the_installed_programs_are_found() {
    let prefix = empty_folder("a prefix");
    let (own, programs) = (prefix.join("bin/fanchuki"), prefix.join("libexec/fanchuki"));
    fs::create_dir(prefix.join("bin")).expect("a folder");
    fs::hard_link(env!("CARGO_BIN_EXE_fanchuki"), &own).expect("the tool is linked");
    let run = |folder: Option<&str>| {
        let mut command = Command::new(&own);
        command.args(["plan", &example("q.txt")]).env_remove("FANCHUKI_PROGRAMS");
        run_of(command.envs(folder.map(|folder| ("FANCHUKI_PROGRAMS", folder))))
    };
    let looked = format!("(looked for {}/plan);", programs.display());
    is_told(&run(None), 3, &looked, "not there");
    fs::create_dir_all(&programs).expect("a folder");
    let (real, put) = (root().join("target/bin/plan"), programs.join("plan"));
    fs::hard_link(&real, &put)
        .or_else(|_| fs::copy(&real, &put).map(drop))
        .expect("it is put there");
    for unnamed in [None, Some("")] {
        held_to("plan-q.txt", &run(unnamed).text());
    }
    is_told(&run(Some("/no/such/folder")), 3, "(looked for /no/such/folder/plan);", "named");
}
