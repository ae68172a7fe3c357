//! Finds the library: the archive that VOKUJIN_LIBRARY names; the one that is installed, by pkg-config; or the one that `make`
//! built in the checkout of the project.

use std::env;
use std::path::{Path, PathBuf};
use std::process::Command;

/// A folder with the library, and whether an archive of it is there.
struct Found {
    folder: PathBuf,
    has_archive: bool,
}

impl Found {
    fn new(folder: PathBuf) -> Found {
        let has_archive = folder.join("libvokujin.a").is_file();
        Found { folder, has_archive }
    }
}

fn named() -> Option<Result<Found, String>> {
    let path = PathBuf::from(env::var_os("VOKUJIN_LIBRARY").filter(|it| !it.is_empty())?);
    let folder = path.parent().filter(|_| path.is_absolute() && path.is_file() && path.ends_with("libvokujin.a"));
    Some(folder.map(|it| Found::new(it.into())).ok_or_else(|| {
        format!("VOKUJIN_LIBRARY is {}, which is not the absolute path of a file libvokujin.a", path.display())
    }))
}

/// The installed library, of a version whose calls are those of this crate.
fn installed() -> Option<Found> {
    if env::var("HOST") != env::var("TARGET") {
        return None;
    }
    let (major, minor) = (env!("CARGO_PKG_VERSION_MAJOR"), env!("CARGO_PKG_VERSION_MINOR"));
    let next = minor.parse::<u32>().unwrap() + 1;
    let (least, end) = (format!("vokujin >= {major}.{minor}.0"), format!("vokujin < {major}.{next}"));
    pkg_config(&["--exists", &least, &end])?;
    let folder = pkg_config(&["--variable=libdir", "vokujin"])?;
    Some(Found::new(folder.trim().into()))
}

/// What pkg-config prints, if it succeeds.
fn pkg_config(words: &[&str]) -> Option<String> {
    let command = env::var("PKG_CONFIG").unwrap_or("pkg-config".into());
    let output = Command::new(command).args(words).output().ok()?;
    String::from_utf8(output.stdout).ok().filter(|_| output.status.success())
}

fn built() -> Option<Found> {
    let folder = Path::new(env!("CARGO_MANIFEST_DIR")).join("../build");
    println!("cargo::rerun-if-changed={}", folder.join("libvokujin.a").display());
    Some(Found::new(folder)).filter(|it| it.has_archive)
}

fn main() {
    for name in ["VOKUJIN_LIBRARY", "PKG_CONFIG", "PKG_CONFIG_PATH", "PKG_CONFIG_LIBDIR"] {
        println!("cargo::rerun-if-env-changed={name}");
    }
    let found = named().unwrap_or_else(|| {
        installed().or_else(built).ok_or(
            "there is no library libvokujin.a: run `make -C bindings install` in the project's checkout, \
             or set VOKUJIN_LIBRARY to the absolute path of one"
                .into(),
        )
    });
    match found {
        Err(what) => println!("cargo::error={what}"),
        Ok(it) => {
            println!("cargo::rustc-link-search=native={}", it.folder.display());
            println!("cargo::rustc-link-lib={}vokujin", if it.has_archive { "static=" } else { "" });
            if it.has_archive {
                println!("cargo::rerun-if-changed={}", it.folder.join("libvokujin.a").display());
            }
        }
    }
}
