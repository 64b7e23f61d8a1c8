//! Finds the library for C, and checks its version. It looks in the folder `OSI_SESSION_DIR` (one that
//! `make lib` made, or the `PREFIX` of a `make install`), or else asks `pkg-config`.
//!
//! It links `libosi-session.a` if that is there, unless `OSI_SESSION_SHARED` is set. With the shared library,
//! the programs that `cargo run` and `cargo test` start find it too.

use std::env;
use std::fs;
use std::path::{Path, PathBuf};
use std::process::{exit, Command};

const HELP: &str = "\
osi-session does not find the library for C. Set OSI_SESSION_DIR to the folder that has libosi-session.a (what
`make lib` makes is build/, with all of its path), or to the PREFIX of `make install`; or let pkg-config
find osi-session.pc, by PKG_CONFIG_PATH=PREFIX/lib/pkgconfig.";

const STATIC: &str = "libosi-session.a";
const SHARED: &str = "libosi-session.so";

/// In the file of the library, the version follows these octets, and a zero follows the version (`bindings/c/names.c`).
const MARK: &[u8] = b"libosi-session ";

/// The folder that has the library: this one, or its `lib`.
fn within(folder: &Path) -> Option<PathBuf> {
    let places = [folder.to_path_buf(), folder.join("lib")];
    places.into_iter().find(|place| [STATIC, SHARED].iter().any(|name| place.join(name).is_file()))
}

fn by_pkg_config() -> Option<PathBuf> {
    let program = env::var_os("PKG_CONFIG").unwrap_or_else(|| "pkg-config".into());
    let words = ["--variable=libdir", "osi-session"];
    let output = Command::new(program).args(words).output().ok()?;
    let folder = String::from_utf8(output.stdout).ok()?;
    within(Path::new(folder.trim()))
}

/// A version as its three numbers, without the `-dev` of the time before its release.
fn numbers(text: &str) -> Option<Vec<u32>> {
    let text = text.strip_suffix("-dev").unwrap_or(text);
    let found: Option<Vec<u32>> = text.split('.').map(|part| part.parse().ok()).collect();
    found.filter(|numbers| numbers.len() == 3)
}

/// The version in the file of a library.
fn version_of(library: &Path) -> Option<Vec<u32>> {
    let octets = fs::read(library).ok()?;
    let at = octets.windows(MARK.len()).position(|window| window == MARK)? + MARK.len();
    let length = octets[at..].iter().position(|&octet| octet == 0)?;
    numbers(std::str::from_utf8(&octets[at..at + length]).ok()?)
}

/// Whether a library has all that this crate calls: it has the soname of this version (the first number, and
/// the second too while the first is 0), and it is not older.
fn fits(library: &[u32], own: &[u32]) -> bool {
    let same = if own[0] == 0 { 2 } else { 1 };
    library[..same] == own[..same] && library >= own
}

/// Stops the build if the library doesn't fit this crate.
fn check_version(library: &Path) {
    let own = env::var("CARGO_PKG_VERSION").expect("cargo tells the version");
    let found = version_of(library);
    if found.iter().zip(numbers(&own)).any(|(found, own)| fits(found, &own)) {
        return;
    }
    let said = found.map(|numbers| numbers.iter().map(u32::to_string).collect::<Vec<_>>().join("."));
    let said = said.unwrap_or_else(|| "no version".into());
    eprintln!(
        "osi-session {own} is for a library of this version or a later one of the same soname: {} has {said}",
        library.display()
    );
    exit(1);
}

/// Puts the shared library into `OUT_DIR`, where the programs that cargo starts look for libraries.
fn bring(library: &Path) {
    let own = env::var("CARGO_PKG_VERSION").expect("cargo tells the version");
    let parts: Vec<&str> = own.split('.').collect();
    let abi = parts[..if parts[0] == "0" { 2 } else { 1 }].join(".");
    let folder = PathBuf::from(env::var_os("OUT_DIR").expect("cargo names a folder"));
    for name in [SHARED.to_string(), format!("{SHARED}.{abi}")] {
        if let Err(error) = fs::copy(library, folder.join(&name)) {
            eprintln!("{name} can't be copied: {error}");
            exit(1);
        }
    }
    println!("cargo:rustc-link-search=native={}", folder.display());
    println!("cargo:rustc-link-lib=dylib=osi-session");
}

fn main() {
    for name in ["OSI_SESSION_DIR", "OSI_SESSION_SHARED", "PKG_CONFIG", "PKG_CONFIG_PATH"] {
        println!("cargo:rerun-if-env-changed={name}");
    }
    println!("cargo:rerun-if-changed=build.rs");
    // Building the documentation needs no library.
    if env::var_os("DOCS_RS").is_some() {
        return;
    }
    let found = match env::var_os("OSI_SESSION_DIR") {
        Some(folder) => within(Path::new(&folder)),
        None => by_pkg_config(),
    };
    let place = found.unwrap_or_else(|| {
        eprintln!("{HELP}");
        exit(1)
    });
    let place = place.canonicalize().unwrap_or(place);
    let shared = env::var_os("OSI_SESSION_SHARED").is_some() || !place.join(STATIC).is_file();
    let library = place.join(if shared { SHARED } else { STATIC });
    check_version(&library);
    println!("cargo:rerun-if-changed={}", library.display());
    if shared {
        bring(&library);
    } else {
        println!("cargo:rustc-link-search=native={}", place.display());
        println!("cargo:rustc-link-lib=static=osi-session");
    }
}
