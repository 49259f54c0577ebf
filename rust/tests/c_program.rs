//! The header and the archive from C and C++: tests/c_example.c compiled without a warning and run, on
//! the library and on wrong libraries, which it must tell.

use std::path::{Path, PathBuf};
use std::process::{Command, Output};

const WARNINGS: [&str; 4] = ["-Wall", "-Wextra", "-Werror", "-pedantic"];

const ARCHIVE: &str = "target/staticlib/libsaddlekerf.a";

const ROWS: &str = "bench/vectors/published-rows.txt";

fn root() -> &'static Path {
    Path::new(env!("CARGO_MANIFEST_DIR")).parent().unwrap()
}

fn in_tmp(name: &str) -> PathBuf {
    PathBuf::from(env!("CARGO_TARGET_TMPDIR")).join(name)
}

fn output(command: &mut Command) -> Output {
    command.current_dir(root()).output().unwrap_or_else(|error| panic!("{command:?}: {error}"))
}

fn run(command: &mut Command) -> String {
    let output = output(command);
    let (out, errors) = (String::from_utf8_lossy(&output.stdout), String::from_utf8_lossy(&output.stderr));
    assert!(output.status.success(), "{command:?}: {}\n{out}{errors}", output.status);
    out.into_owned()
}

fn compile(program: &Path, arguments: &[&str]) -> Command {
    let mut command = Command::new("cc");
    command
        .args(["-std=c99", "-Iinclude"])
        .args(WARNINGS)
        .arg("-o")
        .arg(program)
        .args(arguments)
        .arg(ARCHIVE);
    command
}

#[test]
fn c_example() {
    for optimisation in ["-O0", "-O2"] {
        let program = in_tmp(&format!("c_example{optimisation}"));
        run(&mut compile(&program, &[optimisation, "tests/c_example.c"]));
        let printed = run(Command::new(&program).arg(ROWS));
        assert!(printed.ends_with(" checks, 0 failed\n"), "{printed}");
    }
}

/// The profile from C: compiled without a hosted C library, and with nothing but its own archive.
#[cfg(feature = "profile")]
#[test]
fn profile_example() {
    const PROFILE: &str = "target/staticlib/libsaddlekerf_profile.a";
    for optimisation in ["-O0", "-O2"] {
        let (object, program) =
            (in_tmp(&format!("profile{optimisation}.o")), in_tmp(&format!("profile{optimisation}")));
        let compiler = |standard: &str| {
            let mut command = Command::new("cc");
            command.args([standard, "-Iinclude", optimisation, "-DHOSTED"]).args(WARNINGS);
            command
        };
        run(compiler("-std=c99")
            .args(["-ffreestanding", "-c", "tests/profile_example.c", "-o"])
            .arg(&object));
        run(compiler("-std=c99").arg(&object).arg(PROFILE).arg("-o").arg(&program));
        run(&mut Command::new(&program));
        // Both archives in one program, and the header in C++.
        run(compiler("-std=c99").arg(&object).args([ARCHIVE, PROFILE]).arg("-o").arg(&program));
        run(&mut Command::new(&program));
    }
    let mut cxx = Command::new("c++");
    cxx.args(["-std=c++11", "-fsyntax-only", "-Iinclude", "-include", "saddlekerf_profile.h"]).args(WARNINGS);
    run(cxx.args(["-x", "c++", "/dev/null"]));
}

/// Every wrong library of the profile is told.
#[cfg(feature = "profile")]
#[test]
fn profile_example_sees_wrong_libraries() {
    let (names, functions) = wrong_libraries("tests/wrong_profile.c");
    assert!(names.len() >= 15 && functions.len() == 3, "{names:?} {functions:?}");
    let program = in_tmp("profile_wrong");
    let mut command = Command::new("cc");
    command.args(["-std=c99", "-Iinclude", "-DHOSTED"]).args(WARNINGS).arg("-o").arg(&program);
    command.args(["tests/profile_example.c", "tests/wrong_profile.c"]);
    command.args(functions.iter().map(|name| format!("-Wl,--wrap={name}")));
    run(command.arg("target/staticlib/libsaddlekerf_profile.a"));
    let status =
        |name: &str| output(Command::new(&program).env("WRONG_LIBRARY", name)).status.code().unwrap();
    assert_eq!(status(""), 0);
    for name in &names {
        assert_eq!(status(name), 1, "{name} is not seen");
    }
}

/// A wrong answer is seen: one bit of one published row changed.
#[test]
fn c_example_sees_one_bit() {
    let (program, rows) = (in_tmp("c_example_one_bit"), in_tmp("one-bit-changed.txt"));
    run(&mut compile(&program, &["tests/c_example.c"]));
    let text = std::fs::read_to_string(root().join(ROWS)).unwrap();
    assert_eq!(text.matches("40199fa29d15d3bd").count(), 1);
    std::fs::write(&rows, text.replace("40199fa29d15d3bd", "40199fa29d15d3bc")).unwrap();
    let output = output(Command::new(&program).arg(&rows));
    assert_eq!(output.status.code(), Some(1));
    // Once in the single request and once in the list.
    assert!(String::from_utf8_lossy(&output.stdout).ends_with(" checks, 2 failed\n"));
}

/// The wrong libraries of a file, and the functions that it stands in front of.
fn wrong_libraries(file: &str) -> (Vec<String>, Vec<String>) {
    let source = std::fs::read_to_string(root().join(file)).unwrap();
    let after = |start: &str, end: char| -> Vec<String> {
        let mut found: Vec<String> =
            source.split(start).skip(1).map(|rest| rest.split(end).next().unwrap().to_string()).collect();
        found.sort();
        found.dedup();
        found
    };
    (after("wrong(\"", '"'), after("uint64_t __wrap_", '('))
}

/// Every wrong library is told; the same program without a wrong library chosen finds nothing.
#[test]
fn c_example_sees_wrong_libraries() {
    let (names, functions) = wrong_libraries("tests/wrong_library.c");
    assert!(names.len() >= 20 && functions.len() >= 9, "{names:?} {functions:?}");
    let program = in_tmp("c_example_wrong");
    let wraps: Vec<String> = functions.iter().map(|name| format!("-Wl,--wrap={name}")).collect();
    let mut arguments = vec!["tests/c_example.c", "tests/wrong_library.c"];
    arguments.extend(wraps.iter().map(String::as_str));
    run(&mut compile(&program, &arguments));
    let status = |name: &str| {
        output(Command::new(&program).arg(ROWS).env("WRONG_LIBRARY", name)).status.code().unwrap()
    };
    assert_eq!(status(""), 0);
    for name in &names {
        assert_eq!(status(name), 1, "{name} is not seen");
    }
}

/// A header of another boundary does not link with this archive, and the error names what is missing.
#[test]
fn another_boundary_does_not_link() {
    let program = in_tmp("c_example_other");
    let output =
        output(&mut compile(&program, &["-Dsaddlekerf_abi_3=saddlekerf_abi_2", "tests/c_example.c"]));
    let errors = String::from_utf8_lossy(&output.stderr).into_owned();
    assert!(!output.status.success() && errors.contains("saddlekerf_abi_2"), "{errors}");
}

#[test]
fn header_in_cplusplus() {
    let source = in_tmp("header.cpp");
    std::fs::write(&source, "#include \"saddlekerf.h\"\n").unwrap();
    run(Command::new("c++").args(["-std=c++11", "-fsyntax-only", "-Iinclude"]).args(WARNINGS).arg(&source));
}
