//! Two versions of the crate in one program: each keeps to its own proved code, also where the
//! linker has all code before it at once.
use std::path::Path;
use std::process::Command;
use std::{env, fs, io};

const PARTS: [&str; 8] =
    ["src", "assembly", "tests", "unit_tests", "examples", "benches", "Cargo.toml", "README.md"];

const MAIN: &str = "
fn main() {
    let one = one::Pool::new(2, || 1, |_| ()).expect(\"memory\");
    let other = other::Pool::new(2, || 2, |_| ()).expect(\"memory\");
    let held = (one.pull(), one.pull(), other.pull());
    assert!(held.0.is_some() && held.1.is_some() && one.pull().is_none());
    assert!(*held.2.expect(\"one is free\") == 2 && other.pull().is_some());
}
";

const MANIFEST: &str = "
[package]
name = \"two_versions\"
version = \"0.0.0\"
edition = \"2021\"
[dependencies]
one = { package = \"kundratu-pool\", path = \"one\" }
other = { package = \"kundratu-pool\", path = \"other\" }
[profile.release]
lto = true
[workspace]
exclude = [\"one\", \"other\"]
";

/// Copies a file or a folder, as a later version if it is one.
fn copy(from: &Path, to: &Path, later: bool) -> io::Result<()> {
    if from.is_dir() {
        fs::create_dir_all(to)?;
        for entry in fs::read_dir(from)? {
            let name = entry?.file_name();
            copy(&from.join(&name), &to.join(&name), later)?;
        }
        return Ok(());
    }
    let text = fs::read_to_string(from)?;
    let [major, minor, patch] = ["MAJOR", "MINOR", "PATCH"].map(|part| {
        let part = env::var(format!("CARGO_PKG_VERSION_{part}"));
        part.expect("cargo sets it").parse::<u32>().expect("a number")
    });
    let next = minor + u32::from(later);
    let text = text
        .replace(&format!("kdr_{major}_{minor}_{patch}_"), &format!("kdr_{major}_{next}_{patch}_"))
        .replace(&format!(".L{major}_{minor}_{patch}_"), &format!(".L{major}_{next}_{patch}_"))
        .replace(
            &format!("version = \"{major}.{minor}.{patch}\""),
            &format!("version = \"{major}.{next}.{patch}\""),
        );
    fs::write(to, text)
}

#[test]
fn two_versions_link_and_run() -> io::Result<()> {
    let here = Path::new(env!("CARGO_MANIFEST_DIR"));
    let room = Path::new(env!("CARGO_TARGET_TMPDIR")).join("two_versions");
    if room.exists() {
        fs::remove_dir_all(&room)?;
    }
    fs::create_dir_all(room.join("src"))?;
    fs::write(room.join("src/main.rs"), MAIN)?;
    fs::write(room.join("Cargo.toml"), MANIFEST)?;
    for (name, later) in [("one", false), ("other", true)] {
        fs::create_dir(room.join(name))?;
        for part in PARTS {
            copy(&here.join(part), &room.join(name).join(part), later)?;
        }
    }
    for profile in ["dev", "release"] {
        let mut cargo = Command::new(env!("CARGO"));
        cargo.args(["run", "--quiet", "--offline", "--profile", profile]);
        cargo.env("CARGO_TARGET_DIR", room.join("target"));
        let ran = cargo.current_dir(&room).output()?;
        let said = String::from_utf8_lossy(&ran.stderr);
        assert!(ran.status.success(), "{profile}: {said}");
    }
    Ok(())
}
