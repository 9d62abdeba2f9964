//! What the headers tell firmware beside what each function promises, tried from C: `firmware.c` has the checks.

use std::path::{Path, PathBuf};
use std::process::{Command, Output};
use std::sync::LazyLock;

const WARNINGS: [&str; 5] = ["-Wall", "-Wextra", "-Wpedantic", "-Wconversion", "-Werror"];

fn path(name: &str) -> PathBuf {
    Path::new(env!("CARGO_MANIFEST_DIR")).join("../..").join(name)
}

/// The program, with its symbols bound before it begins: to bind one at its first call takes stack that is not the library's.
static PROGRAM: LazyLock<PathBuf> = LazyLock::new(|| {
    let program = Path::new(env!("CARGO_TARGET_TMPDIR")).join("firmware");
    let compiled = Command::new("cc")
        .args(["-std=c11", "-O2", "-Wl,-z,now"])
        .args(WARNINGS)
        .arg("-I")
        .arg(path("include"))
        .arg(path("host/compare/tests/firmware.c"))
        .arg(path("target/native/libkritnamon.a"))
        .arg("-o")
        .arg(&program)
        .status()
        .expect("cc, with which cargo links too");
    assert!(compiled.success());
    program
});

fn run(name: &str) -> Output {
    let output = Command::new(&*PROGRAM).arg(name).output().expect("the program runs");
    assert!(output.status.success(), "{}", String::from_utf8_lossy(&output.stderr));
    output
}

#[test]
fn the_version_is_the_headers() {
    run("version");
}

#[test]
fn numbers_and_gains_are_converted() {
    run("numbers");
}

/// The outcomes' names by number, as the header lists them: a line for each, in order.
fn names() -> Vec<String> {
    let text = std::fs::read_to_string(path("include/kritnamon.h")).expect("the header");
    let (_, section) = text.split_once("/* ---- Outcomes").expect("the outcomes");
    let (section, _) = section.split_once("/* ---- ").expect("another section");
    let name = |line: &str| line.strip_prefix("#define KRITNAMON_")?.split(' ').next().map(String::from);
    section.lines().filter_map(name).collect()
}

#[test]
fn outcomes_have_the_headers_names() {
    let output = String::from_utf8(run("outcomes").stdout).expect("a text");
    let mut lines: Vec<&str> = output.lines().collect();
    assert_eq!(lines.pop(), Some("?"));
    assert_eq!(lines, names());
}

#[test]
fn a_proposal_may_be_chosen_after_its_hub_has_dropped_it() {
    run("replaced-proposal");
}

#[test]
fn a_proposal_offered_again_may_be_chosen_twice() {
    run("repeated-proposal");
}

#[test]
fn one_place_may_answer_equal_proposals() {
    run("equal-proposals");
}

#[test]
fn a_restart_looks_at_the_kept_parts_alone() {
    run("kept-parts");
}

#[test]
fn a_short_command_is_held_and_not_proposed() {
    run("short-command");
}

#[test]
fn an_empty_hub_gives_its_vote() {
    run("empty-hub");
}

#[test]
fn a_state_of_version_1_is_carried_over() {
    run("carried-over");
}

#[test]
fn a_damaged_message_is_refused_with_its_place() {
    run("damaged-message");
}

#[test]
fn a_command_is_played_with_floats() {
    run("played-command");
}

#[test]
fn a_call_takes_less_stack_than_the_header_says() {
    run("stack-use");
}

/// Links the whole archive with one function and nothing else.
fn links_with(function: &str) -> bool {
    let folder = Path::new(env!("CARGO_TARGET_TMPDIR"));
    let source = folder.join(function).with_extension("c");
    std::fs::write(&source, format!("int {function}(void) {{ return 0; }}\n")).expect("a file");
    let linked = Command::new("cc")
        .args([
            "-w",
            "-fno-builtin",
            "-fPIC",
            "-shared",
            "-nostdlib",
            "-Wl,--no-undefined",
            "-Wl,--whole-archive",
        ])
        .arg(path("target/native/libkritnamon.a"))
        .arg("-Wl,--no-whole-archive")
        .arg(&source)
        .arg("-o")
        .arg(source.with_extension("so"))
        .output()
        .expect("cc, with which cargo links too");
    linked.status.success()
}

#[test]
fn the_archive_needs_memset_alone() {
    assert!(links_with("memset"));
    assert!(!links_with("memcpy"));
}

#[test]
fn the_inline_header_is_cpp17() {
    let compiled = Command::new("c++")
        .args(["-std=c++17", "-x", "c++", "-fsyntax-only"])
        .args(WARNINGS)
        .arg("-include")
        .arg(path("include/kritnamon_inline.h"))
        .arg("/dev/null")
        .status();
    match compiled {
        Ok(status) => assert!(status.success()),
        Err(_) => println!("no C++ compiler here: not tried"),
    }
}
