//! Links the proved library: assembles the file of dist/ for the target's processor, after `tools/fresh` has said that dist/ is what the crates
//! at hand were compiled to. With UPLINK_FROM_PROOF=1 the library is proved and made by `tools/native_archive` instead. Nothing else is ever
//! linked: where neither can be done, the build stops and says what to do.

use std::{
    env,
    path::{Path, PathBuf},
    process::{self, Command, Output},
};

/// What the library is made of, and by.
const SOURCES: [&str; 7] = [
    "crates.txt",
    "crates",
    "dist",
    "tools/fresh",
    "tools/dist",
    "tools/native_archive",
    "tools/module.py",
];

/// Asks for the library to be proved and made here, where it is 1.
const FROM_PROOF: &str = "UPLINK_FROM_PROOF";

/// So many lines are shown of what a program said that failed.
const LINES_SHOWN: usize = 20;

fn main() {
    if let Err(message) = link() {
        eprintln!("\nuplink: {message}\n");
        process::exit(1);
    }
}

fn link() -> Result<(), String> {
    let root = repository()?;
    println!("cargo:rerun-if-changed=build.rs");
    for source in SOURCES {
        println!("cargo:rerun-if-changed={}", root.join(source).display());
    }
    let target = Target::asked()?;
    let out = PathBuf::from(variable("OUT_DIR")?);
    let archive = out.join("libuplink.a");
    match setting(FROM_PROOF).as_deref() {
        None | Some("" | "0") => assemble(&root, &target, &out, &archive)?,
        Some("1") => prove(&root, &target, &archive)?,
        Some(other) => {
            return Err(format!(
                "{FROM_PROOF} is {other}. Set it to 1 to have the library proved and made here, or leave it out."
            ))
        }
    }
    println!("cargo:rustc-link-search=native={}", out.display());
    println!("cargo:rustc-link-lib=static=uplink");
    Ok(())
}

fn variable(name: &str) -> Result<String, String> {
    env::var(name).map_err(|_| format!("{name} is not set: build this crate with cargo"))
}

/// A variable that the caller may set; cargo builds anew when it changes.
fn setting(name: &str) -> Option<String> {
    println!("cargo:rerun-if-env-changed={name}");
    env::var(name).ok()
}

/// The folder that has the proved crates.
fn repository() -> Result<PathBuf, String> {
    let here = PathBuf::from(variable("CARGO_MANIFEST_DIR")?);
    let root = here.ancestors().nth(2).unwrap_or(&here).to_path_buf();
    for needed in ["crates.txt", "crates/uplink/src/lib.rt", "tools/fresh"] {
        if !root.join(needed).exists() {
            return Err(format!(
                "there is no {needed} in {}.\nThis crate links the proved code of the repository that it stands in: \
                 depend on it by its path, bindings/rust, in a whole copy of that repository.",
                root.display()
            ));
        }
    }
    Ok(root)
}

/// What is built for.
struct Target {
    triple: String,
    processor: String,
    /// Whether it is this computer's own processor.
    here: bool,
}

impl Target {
    fn asked() -> Result<Self, String> {
        let (host, triple) = (variable("HOST")?, variable("TARGET")?);
        let processor = variable("CARGO_CFG_TARGET_ARCH")?;
        let is_usual = variable("CARGO_CFG_TARGET_POINTER_WIDTH")? == "64"
            && variable("CARGO_CFG_TARGET_ENDIAN")? == "little";
        let is_known = ["x86_64", "aarch64"].contains(&processor.as_str());
        if !triple.contains("linux") || !is_known || !is_usual {
            return Err(format!(
                "the proved library is there for Linux on x86-64 and Arm, not for {triple}."
            ));
        }
        let here = host.starts_with(&processor);
        Ok(Target {
            triple,
            processor,
            here,
        })
    }

    /// A tool by the variables that name it, as in CC_aarch64_unknown_linux_gnu, TARGET_CC and, on this computer's processor, CC;
    /// else by its usual name.
    fn tool(&self, variable: &str, own: &str, cross: &str) -> Vec<String> {
        let mut names = vec![
            format!("{variable}_{}", self.triple),
            format!("{variable}_{}", self.triple.replace('-', "_")),
            format!("TARGET_{variable}"),
        ];
        let mut usual = format!("{}-linux-gnu-{cross}", self.processor);
        if self.here {
            names.push(variable.into());
            usual = own.into();
        }
        let mut set = names.iter().filter_map(|name| setting(name));
        let words = set.find(|words| !words.trim().is_empty()).unwrap_or(usual);
        words.split_whitespace().map(String::from).collect()
    }
}

/// From the file in dist/ for the target's processor, with a C compiler and `ar`.
fn assemble(root: &Path, target: &Target, out: &Path, archive: &Path) -> Result<(), String> {
    let fresh = run(Command::new("sh").arg(root.join("tools/fresh")))?;
    if !fresh.status.success() {
        show(&fresh);
        return Err(format!(
            "dist/ is not what the crates at hand were compiled to (what is above says how), so nothing is linked.\nRun tools/dist in {}, \
             then build again.",
            root.display()
        ));
    }
    let source = root.join(format!("dist/uplink-{}.s", target.processor));
    let object = out.join("uplink.o");
    let compiler = target.tool("CC", "cc", "gcc");
    let assembled = start(&compiler)
        .arg("-c")
        .arg(&source)
        .arg("-o")
        .arg(&object)
        .output();
    done(assembled, &compiler, "CC", target)?;
    let archiver = archiver(target);
    let _ = std::fs::remove_file(archive);
    let archived = start(&archiver)
        .arg("rcs")
        .arg(archive)
        .arg(&object)
        .output();
    done(archived, &archiver, "AR", target)
}

/// The `ar` for the target; this computer's own one where there is none for another processor, since it takes any file.
fn archiver(target: &Target) -> Vec<String> {
    let words = target.tool("AR", "ar", "ar");
    match start(&words).arg("--version").output() {
        Err(_) if !target.here => vec!["ar".into()],
        _ => words,
    }
}

fn start(words: &[String]) -> Command {
    let mut command = Command::new(&words[0]);
    command.args(&words[1..]);
    command
}

/// What to do where a tool can't be started or fails.
fn done(
    answer: std::io::Result<Output>,
    words: &[String],
    variable: &str,
    target: &Target,
) -> Result<(), String> {
    let tool = words.join(" ");
    let meant = format!("{variable}_{}", target.triple.replace('-', "_"));
    match answer {
        Ok(answer) if answer.status.success() => Ok(()),
        Ok(answer) => {
            show(&answer);
            Err(format!(
                "`{tool}` failed on dist/uplink-{}.s (what is above says why).\nIt is to be a tool for {}; set {meant} to another one.",
                target.processor, target.triple
            ))
        }
        Err(error) if target.here => Err(format!(
            "`{tool}` can't be started: {error}.\nInstall a C compiler with its assembler and `ar`, or set {variable} to one, then build again."
        )),
        Err(error) => Err(format!(
            "`{tool}` can't be started: {error}.\nTo build for {} on this computer, install a C compiler for that processor \
             (gcc-{}-linux-gnu), or set {meant} to one, then build again.",
            target.triple,
            target.processor.replace('_', "-")
        )),
    }
}

/// From the proof, for this computer alone.
fn prove(root: &Path, target: &Target, archive: &Path) -> Result<(), String> {
    if !target.here {
        return Err(format!(
            "with {FROM_PROOF}=1 the archive is made for this computer alone, not for {}. Leave it out: dist/ has the library for both processors.",
            target.triple
        ));
    }
    if let Err(error) = Command::new("rt").arg("version").output() {
        return Err(format!(
            "{FROM_PROOF} is 1, and the Rattle toolchain's command `rt` can't be started: {error}.\nInstall the toolchain and put `rt` on \
             the PATH, or leave {FROM_PROOF} out to link what is in dist/."
        ));
    }
    let tool = root.join("tools/native_archive");
    let made = run(Command::new("python3")
        .arg(tool)
        .arg("uplink")
        .arg(archive)
        .current_dir(root))?;
    if made.status.success() {
        return Ok(());
    }
    show(&made);
    Err(format!(
        "the proved library wasn't built (what is above says why).\nRun `rt check` in {}/crates/uplink and see that it ends well, then build again.",
        root.display()
    ))
}

fn run(command: &mut Command) -> Result<Output, String> {
    command.output().map_err(|error| {
        let name = command.get_program().to_string_lossy();
        format!("`{name}` can't be started: {error}.\nInstall it and put it on the PATH, then build again.")
    })
}

fn show(answer: &Output) {
    let said = [&answer.stdout[..], &answer.stderr[..]].concat();
    for line in String::from_utf8_lossy(&said).lines().take(LINES_SHOWN) {
        eprintln!("{line}");
    }
}
