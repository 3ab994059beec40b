//! Links libjalwedd.a of a package made by `package/build FOLDER`: the one in the folder JALWEDD_PREFIX, or
//! otherwise the one that pkg-config finds. It builds no package itself, as that may take a proof of many
//! minutes.

use std::env;
use std::fs;
use std::path::{Path, PathBuf};
use std::process::Command;

/// The crate's version, and that of the package whose header src/sys.rs declares.
const VERSION: &str = env!("CARGO_PKG_VERSION");

const ARCHIVE: &str = "libjalwedd.a";

const ADVICE: &str = "run `package/build FOLDER` at the top of the Jalwedd repository, and set \
                      JALWEDD_PREFIX to the absolute path of FOLDER";

struct Package {
    libraries: PathBuf,
    version: String,
}

fn main() {
    for variable in ["DOCS_RS", "JALWEDD_PREFIX", "PKG_CONFIG", "PKG_CONFIG_PATH", "PKG_CONFIG_LIBDIR"] {
        println!("cargo::rerun-if-env-changed={variable}");
    }
    // Documentation links nothing.
    if env::var_os("DOCS_RS").is_some() {
        return;
    }
    let package = match env::var_os("JALWEDD_PREFIX") {
        Some(prefix) => in_folder(Path::new(&prefix)),
        None => known(),
    };
    match package.and_then(checked) {
        Ok(libraries) => link(&libraries),
        Err(fault) => println!("cargo::error={fault}: {ADVICE}"),
    }
}

fn in_folder(prefix: &Path) -> Result<Package, String> {
    let libraries = prefix.join("lib");
    let told = fs::read_to_string(libraries.join("pkgconfig/jalwedd.pc")).unwrap_or_default();
    match told.lines().find_map(|line| line.strip_prefix("Version: ")) {
        Some(version) => Ok(Package { version: version.to_string(), libraries }),
        None => Err(format!("there is no package in JALWEDD_PREFIX={}", prefix.display())),
    }
}

fn known() -> Result<Package, String> {
    match (ask_pkg_config("--variable=libdir"), ask_pkg_config("--modversion")) {
        (Some(libraries), Some(version)) => Ok(Package { libraries: libraries.into(), version }),
        _ => Err("JALWEDD_PREFIX is not set, and pkg-config knows no package jalwedd".to_string()),
    }
}

fn ask_pkg_config(option: &str) -> Option<String> {
    let program = env::var_os("PKG_CONFIG").unwrap_or_else(|| "pkg-config".into());
    let told = Command::new(program).args([option, "jalwedd"]).output().ok()?;
    let line = String::from_utf8(told.stdout).ok()?;
    told.status.success().then(|| line.trim().to_string())
}

/// The folder of the archive, if that is there, for the target's processor, and has all that is declared.
fn checked(package: Package) -> Result<PathBuf, String> {
    let Package { libraries, version } = package;
    if !serves(&version) {
        return Err(format!(
            "the package in {} has version {version}, and the crate {VERSION}",
            libraries.display()
        ));
    }
    let target = env::var("CARGO_CFG_TARGET_ARCH").unwrap_or_default();
    match machine_of(&libraries.join(ARCHIVE)) {
        None => Err(format!("there is no {ARCHIVE} in {}", libraries.display())),
        Some(machine) if machine_named(&target).is_some_and(|of_target| of_target != machine) => {
            Err(format!("the package in {} is for another processor than {target}", libraries.display()))
        }
        Some(_) => Ok(libraries),
    }
}

/// The processor that an archive's first object is for, by its number in ELF.
fn machine_of(archive: &Path) -> Option<u16> {
    let octets = fs::read(archive).ok()?;
    let object = octets.windows(4).position(|four| four == b"\x7fELF")?;
    Some(u16::from_le_bytes([*octets.get(object + 18)?, *octets.get(object + 19)?]))
}

/// The number in ELF of those that there are packages for.
fn machine_named(target: &str) -> Option<u16> {
    match target {
        "x86_64" => Some(62),
        "aarch64" => Some(183),
        _ => None,
    }
}

/// Of versions with the same first two numbers, the later one has all of the other, with the same layouts.
fn serves(version: &str) -> bool {
    let numbers = |version: &str| version.split('.').map(str::parse).collect::<Result<Vec<u32>, _>>();
    match (numbers(version), numbers(VERSION)) {
        (Ok(there), Ok(here)) => there.starts_with(&here[..2]) && there >= here,
        _ => false,
    }
}

fn link(libraries: &Path) {
    println!("cargo::rerun-if-changed={}", libraries.join(ARCHIVE).display());
    println!("cargo::rustc-link-search=native={}", libraries.display());
    println!("cargo::rustc-link-lib=static=jalwedd");
}
