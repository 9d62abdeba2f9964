//! The C header says what the library has: its functions are the archive's, and each of its numbers is the one by which the library acts.

mod checks;
mod numbers;

use checks::objection;
use numbers::{Numbers, code, macros};
use std::collections::BTreeSet;
use std::path::{Path, PathBuf};
use std::process::Command;

fn path(name: &str) -> PathBuf {
    Path::new(env!("CARGO_MANIFEST_DIR")).join("../..").join(name)
}

/// The header without its comments.
fn header() -> String {
    code(&std::fs::read_to_string(path("include/kritnamon.h")).expect("the header"))
}

// ---- functions

/// The functions that the header declares: the names before a parenthesis.
fn declared() -> BTreeSet<String> {
    let code = header();
    let before: Vec<&str> = code.split('(').collect();
    let last_word = |part: &&str| {
        part.rsplit(|letter: char| !letter.is_ascii_alphanumeric() && letter != '_').next().map(String::from)
    };
    before.iter().filter_map(last_word).filter(|name| name.starts_with("kritnamon_")).collect()
}

/// The names in an archive's index, its first member: how many they are, as many offsets, then the names, each ended by a zero.
fn exported() -> BTreeSet<String> {
    const INDEX: usize = "!<arch>\n".len();
    const CONTENT: usize = INDEX + 60;
    let archive = std::fs::read(path("target/native/libkritnamon.a")).expect("the archive");
    assert!(archive[INDEX..].starts_with(b"/ "), "the archive begins with its index");
    let size = std::str::from_utf8(&archive[INDEX + 48..INDEX + 58]).expect("a member's size");
    let size: usize = size.trim_end().parse().expect("a number");
    let index = &archive[CONTENT..CONTENT + size];
    let count = u32::from_be_bytes(index[..4].try_into().expect("four bytes")) as usize;
    let names = index[4 + 4 * count..].split(|&byte| byte == 0).take(count);
    names.map(|name| String::from_utf8(name.to_vec()).expect("a name")).collect()
}

#[test]
fn the_functions_are_those_of_the_archive() {
    assert_eq!(declared(), exported());
}

// ---- numbers

#[test]
fn the_numbers_are_those_of_the_library() {
    assert_eq!(objection(&Numbers::of(&header())), None);
}

/// Each number with another one in its place, a neighbour or any that the header has: the checks have to object. So they do cover every
/// number, and one that is added to the header has to be added to them.
#[test]
fn every_wrong_number_is_noticed() {
    let numbers = Numbers::of(&header());
    let mut tried = 0;
    for (name, right) in numbers.all() {
        let near = [right.wrapping_sub(1), right.wrapping_add(1)];
        let others: BTreeSet<u32> = numbers.all().map(|other| other.1).chain(near).collect();
        for wrong in others.into_iter().filter(|&other| other != right) {
            let noticed = objection(&numbers.with(name, wrong)).is_some();
            assert!(noticed, "KRITNAMON_{name} could be {wrong} and not {right}: no check looks at it");
            tried += 1;
        }
    }
    println!("{} numbers, {tried} wrong ones noticed", numbers.all().count());
}

// ---- as C has it

/// A compiler with every warning an error.
fn compiler(name: &str, language: &str, standard: &str) -> Command {
    let mut command = Command::new(name);
    command.args(["-Wall", "-Wextra", "-Wpedantic", "-Werror", standard, "-x", language]);
    command
}

/// Has a compiler look at the header alone.
fn compiles(name: &str, language: &str, standard: &str) -> std::io::Result<bool> {
    let header = path("include/kritnamon.h");
    Ok(compiler(name, language, standard).arg("-fsyntax-only").arg(header).status()?.success())
}

#[test]
fn the_header_is_c11() {
    assert!(compiles("cc", "c", "-std=c11").expect("cc, with which cargo links too"));
}

#[test]
fn the_header_is_cpp17() {
    match compiles("c++", "c++", "-std=c++17") {
        Ok(fine) => assert!(fine),
        Err(_) => println!("no C++ compiler here: not tried"),
    }
}

/// The three parts of an answer: where the entry lines of a text begin, and of a cut text that it is none, and wrong at its end.
const PARTS: &str = r#"
#include "kritnamon.h"
static const char text[] = "type=vote-no\nterm=1\nfrom=1\nto=2\n";
static uint64_t read_first(size_t length)
{
    uint32_t numbers[KRITNAMON_MESSAGE_NUMBERS];
    return kritnamon_read_message((const uint8_t *)text, length, numbers, KRITNAMON_MESSAGE_NUMBERS);
}
int main(void)
{
    uint64_t whole = read_first(sizeof text - 1), cut = read_first(sizeof text - 2);
    return KRITNAMON_OUTCOME(whole) == KRITNAMON_DONE && KRITNAMON_WRONG_AT(whole) == 0
        && KRITNAMON_SECOND(whole) == sizeof text - 1
        && KRITNAMON_OUTCOME(cut) == KRITNAMON_BAD_MESSAGE && KRITNAMON_WRONG_AT(cut) == sizeof text - 2
        && KRITNAMON_SECOND(cut) == 0 ? 0 : 1;
}
"#;

#[test]
fn the_macros_take_an_answer_apart() {
    assert_eq!(macros(&header()), ["OUTCOME", "WRONG_AT", "SECOND"], "the program tries these");
    let folder = Path::new(env!("CARGO_TARGET_TMPDIR"));
    let (source, program) = (folder.join("parts.c"), folder.join("parts"));
    std::fs::write(&source, PARTS).expect("a file of our own");
    let mut compile = compiler("cc", "c", "-std=c11");
    compile.arg("-I").arg(path("include")).arg(source).args(["-x", "none"]);
    compile.arg(path("target/native/libkritnamon.a")).arg("-o").arg(&program);
    assert!(compile.status().expect("cc").success());
    assert!(Command::new(program).status().expect("the program").success());
}
