//! Links the archive. `CQDB_ARCHIVE` names its folder, from the caller's working folder where it is relative. Without it
//! the archive is the one that `./make-archive` made in the repository of this crate, or else the installed one that
//! pkg-config finds, which must be of this crate's version.
use std::path::{Path, PathBuf};
use std::{env, fs, process};

mod comment;

fn main() {
    let target = ["ARCH", "OS", "POINTER_WIDTH"].map(|part| variable(&format!("CARGO_CFG_TARGET_{part}")));
    if target != ["x86_64", "linux", "64"] {
        let [arch, os, width] = target;
        stop(&format!(
            "the proved archive is for x86-64 Linux alone, and this build is for {arch} {os} with {width}-bit pointers"
        ));
    }
    println!("cargo:rerun-if-env-changed=CQDB_ARCHIVE");
    let folder = match env::var_os("CQDB_ARCHIVE") {
        Some(named) => of_the_caller(Path::new(&named)),
        None => built_or_installed(),
    };
    let archive = folder.join("libcqdb_c.a");
    if !archive.is_file() {
        stop(&format!(
            "{} not found: run ./make-archive in the repository, or name its folder by CQDB_ARCHIVE=DIR",
            archive.display()
        ));
    }
    println!("cargo:rustc-link-search=native={}", folder.display());
    println!("cargo:rustc-link-lib=static=cqdb_c");
    println!("cargo:rerun-if-changed={}", archive.display());

    // What the archive says of the kit with which it was proved, for `cqdb --version`.
    println!("cargo:rerun-if-changed=comment.rs");
    let said = fs::read(&archive).map_err(|error| error.to_string()).and_then(|bytes| comment::of_archive(&bytes));
    match said {
        Ok(kit) => println!("cargo:rustc-env=CQDB_KIT={kit}"),
        Err(why) => stop(&format!("{}: {why}: make or install the library anew", archive.display())),
    }
}

/// The folder of the archive that was made in this repository; where there is none, of the installed one.
fn built_or_installed() -> PathBuf {
    let built = here("../target/staticlib");
    let archive = built.join("libcqdb_c.a");
    if archive.is_file() {
        return built;
    }
    // In the repository one may be made later. Elsewhere the path is not watched: a file that is not there counts as changed.
    if here("../make-archive").is_file() {
        println!("cargo:rerun-if-changed={}", archive.display());
    }
    let why = match installed() {
        Ok(folder) => return folder,
        Err(why) => why,
    };
    stop(&format!(
        "no library: {} not found, which ./make-archive makes in the repository; and {why}. Install the package libcqdb-dev, \
         or a release by ./install PREFIX, with PKG_CONFIG_PATH=PREFIX/lib/pkgconfig; or name the archive's folder by \
         CQDB_ARCHIVE=DIR",
        archive.display()
    ))
}

/// The folder of the installed archive, by pkg-config. It has to be of this crate's version up to the patch, since the
/// crate declares its structs and functions.
fn installed() -> Result<PathBuf, String> {
    for name in ["PKG_CONFIG", "PKG_CONFIG_PATH", "PKG_CONFIG_LIBDIR", "PKG_CONFIG_SYSROOT_DIR", "PATH"] {
        println!("cargo:rerun-if-env-changed={name}");
    }
    let version = pkg_config("--modversion")?;
    let crate_version = variable("CARGO_PKG_VERSION");
    let minor = |text: &str| text.split('.').take(2).map(str::to_string).collect::<Vec<_>>();
    if minor(&version) != minor(&crate_version) {
        return Err(format!("the installed library has version {version}, and this crate has {crate_version}"));
    }
    pkg_config("--variable=libdir").map(PathBuf::from)
}

/// What pkg-config says of the library.
fn pkg_config(question: &str) -> Result<String, String> {
    let program = env::var_os("PKG_CONFIG").unwrap_or_else(|| "pkg-config".into());
    let output = process::Command::new(&program)
        .args([question, "cqdb"])
        .output()
        .map_err(|error| format!("{} does not run ({error})", Path::new(&program).display()))?;
    match output.status.success() {
        true => Ok(String::from_utf8_lossy(&output.stdout).trim().to_string()),
        false => Err("pkg-config finds no cqdb".to_string()),
    }
}

fn variable(name: &str) -> String {
    env::var(name).unwrap_or_default()
}

/// A path from the folder of this crate.
fn here(path: &str) -> PathBuf {
    Path::new(&variable("CARGO_MANIFEST_DIR")).join(path)
}

/// A path from the folder in which the caller started cargo. Cargo starts this program in the crate's own folder, so
/// the working folder is asked of the parent, which is cargo, or else of the shell's variable.
fn of_the_caller(path: &Path) -> PathBuf {
    if path.is_absolute() {
        return path.to_path_buf();
    }
    println!("cargo:rerun-if-env-changed=PWD");
    let parent = format!("/proc/{}/cwd", std::os::unix::process::parent_id());
    let folder = fs::read_link(parent).unwrap_or_else(|_| PathBuf::from(variable("PWD")));
    folder.join(path)
}

fn stop(why: &str) -> ! {
    eprintln!("lithwennog: {why}");
    process::exit(1);
}
