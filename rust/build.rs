//! Builds `libww` from the sources in `c`, which lie beside this crate in the repository and in it in a package: the C
//! compiler compiles them, and assembles the proved core. Or, where one
//! asks for it, links an installed one: that in the folder `WW_LIB_DIR`, or with `WW_USE_PKG_CONFIG=1` the one that
//! pkg-config finds. These are archives, or with `WW_STATIC=0` shared libraries.
//!
//! `CC`, `AR` and `CFLAGS` are heeded, in each form that the crate `cc` knows.

use std::path::{Path, PathBuf};
use std::process::Command;
use std::{env, fs};

type Answer<T> = Result<T, String>;

fn main() {
    if let Err(why) = interface().and_then(provide) {
        eprintln!("ww-mutex: {why}");
        std::process::exit(1);
    }
}

/// The first number of the library's version, with which the binary interface changes: that of the headers beside this crate.
fn interface() -> Answer<u32> {
    let header = sources().join("include/ww_steps.h");
    println!("cargo:rerun-if-changed={}", header.display());
    let text = fs::read_to_string(&header).map_err(|why| format!("{}: {why}", header.display()))?;
    let number = text.lines().find_map(|line| line.strip_prefix("#define WW_VERSION_MAJOR ")?.trim().parse().ok());
    number.ok_or(format!("{} has no version", header.display()))
}

fn provide(interface: u32) -> Answer<()> {
    println!("cargo:rerun-if-changed=build.rs");
    println!("cargo:rustc-env=WW_INTERFACE={interface}");
    // Documents need no library.
    if told("DOCS_RS").is_some() {
        return Ok(());
    }
    let is_debug = env::var_os("CARGO_FEATURE_DEBUG_LIBRARY").is_some();
    let name = if is_debug { "ww_debug" } else { "ww" };
    if is_debug || sanitizes_threads() {
        println!("cargo:rustc-cfg=ww_no_inline");
    }
    if let Some(folder) = told("WW_LIB_DIR") {
        link(Path::new(&folder), name).map_err(|why| format!("WW_LIB_DIR: {why}"))
    } else if told("WW_USE_PKG_CONFIG").is_some_and(|word| word != "0") {
        link(&ask_pkg_config(name, interface)?, name)
    } else {
        build(is_debug, name)
    }
}

/// A variable of the environment, if it isn't empty.
fn told(name: &str) -> Option<String> {
    println!("cargo:rerun-if-env-changed={name}");
    env::var(name).ok().filter(|word| !word.is_empty())
}

/// Whether this is built for the thread sanitizer: then the library's C says what orders the accesses under a lock.
fn sanitizes_threads() -> bool {
    env::var("CARGO_CFG_SANITIZE").is_ok_and(|all| all.split(',').any(|it| it == "thread"))
}

/// What cargo tells each build script.
fn cargo(name: &str) -> String {
    env::var(name).unwrap_or_else(|_| panic!("cargo sets {name}"))
}

// ---- an installed library ----

fn link(folder: &Path, name: &str) -> Answer<()> {
    let is_static = told("WW_STATIC").is_none_or(|word| word != "0");
    let file = folder.join(format!("lib{name}.{}", if is_static { "a" } else { "so" }));
    if !file.is_file() {
        return Err(format!("there is no {}", file.display()));
    }
    println!("cargo:rerun-if-changed={}", file.display());
    println!("cargo:rustc-link-search=native={}", folder.display());
    println!("cargo:rustc-link-lib={}={name}", if is_static { "static" } else { "dylib" });
    Ok(())
}

fn ask_pkg_config(name: &str, interface: u32) -> Answer<PathBuf> {
    told("PKG_CONFIG_PATH");
    let tool = told("PKG_CONFIG").unwrap_or_else(|| "pkg-config".into());
    let (least, below) = (format!("{name} >= {interface}.0"), format!("{name} < {}", interface + 1));
    run(Command::new(&tool).args(["--print-errors", &least, &below]))?;
    run(Command::new(&tool).args(["--variable=libdir", name])).map(|folder| folder.trim().into())
}

// ---- the sources ----

/// Where the sources lie in c/: of the debug library alone, and of both.
const FOLDERS: [&str; 6] = ["core", "base", "admit", "lock", "doors", "debug"];

fn build(is_debug: bool, name: &str) -> Answer<()> {
    let processor = cargo("CARGO_CFG_TARGET_ARCH");
    check_target(&cargo("CARGO_CFG_TARGET_OS"), &processor, &cargo("CARGO_CFG_TARGET_POINTER_WIDTH"))?;
    let sources = sources();
    let core = sources.join(format!("core/{processor}.s"));
    println!("cargo:rerun-if-changed={}", sources.display());
    let out = PathBuf::from(cargo("OUT_DIR"));
    let compiler = Tools::find();
    let include = sources.join("include").display().to_string();
    let mut words = vec!["-I", &include];
    if is_debug {
        words.extend(["-DWW_DEBUG", "-g"]);
    }
    if sanitizes_threads() {
        words.extend(["-fsanitize=thread", "-g"]);
    }
    let mut objects = vec![compiler.compile(&core, &out, &[])?];
    for folder in FOLDERS.iter().filter(|it| is_debug || **it != "debug") {
        for source in c_files(&sources.join(folder))? {
            objects.push(compiler.compile(&source, &out, &words)?);
        }
    }
    let archive = out.join(format!("lib{name}.a"));
    // It adds to one that an earlier run left.
    let _ = fs::remove_file(&archive);
    run(Command::new(&compiler.archiver).arg("crs").arg(&archive).args(&objects))?;
    println!("cargo:rustc-link-search=native={}", out.display());
    println!("cargo:rustc-link-lib=static={name}");
    Ok(())
}

/// Whether the library is there for a system.
pub(crate) fn check_target(os: &str, processor: &str, width: &str) -> Answer<()> {
    if os == "linux" && ["x86_64", "aarch64"].contains(&processor) && width == "64" {
        return Ok(());
    }
    Err(format!(
        "this crate is for 64-bit Linux on x86_64 and aarch64, and not for {os} on {processor} with {width} bits. A crate that is for \
         other systems as well has it under [target.'cfg(target_os = \"linux\")'.dependencies]"
    ))
}

fn sources() -> PathBuf {
    let here = PathBuf::from(cargo("CARGO_MANIFEST_DIR"));
    let packed = here.join("c");
    if packed.is_dir() {
        packed
    } else {
        here.join("../c")
    }
}

/// In one order wherever it runs.
fn c_files(folder: &Path) -> Answer<Vec<PathBuf>> {
    let entries = fs::read_dir(folder).map_err(|why| format!("{}: {why}", folder.display()))?;
    let mut files: Vec<_> = entries.flatten().map(|entry| entry.path()).collect();
    files.retain(|file| file.extension().is_some_and(|it| it == "c"));
    files.sort();
    Ok(files)
}

struct Tools {
    compiler: String,
    archiver: String,
    flags: Vec<String>,
}

/// The variables that say a tool, from the first one that counts on.
pub(crate) fn forms(name: &str, host: &str, target: &str) -> [String; 4] {
    let of = if host == target { "HOST" } else { "TARGET" };
    [format!("{name}_{target}"), format!("{name}_{}", target.replace('-', "_")), format!("{of}_{name}"), name.into()]
}

impl Tools {
    fn find() -> Self {
        let (host, target) = (cargo("HOST"), cargo("TARGET"));
        let chosen = |name: &str| forms(name, &host, &target).iter().find_map(|form| told(form));
        // As Debian and Fedora call them: aarch64-linux-gnu-gcc, for aarch64-unknown-linux-gnu.
        let prefix = target.replace("-unknown-", "-");
        let usual = |own: &str, other: &str| if host == target { own.into() } else { format!("{prefix}-{other}") };
        Tools {
            compiler: chosen("CC").unwrap_or_else(|| usual("cc", "gcc")),
            archiver: chosen("AR").unwrap_or_else(|| usual("ar", "ar")),
            flags: chosen("CFLAGS").unwrap_or_default().split_whitespace().map(Into::into).collect(),
        }
    }

    fn compile(&self, source: &Path, out: &Path, words: &[&str]) -> Answer<PathBuf> {
        let object = out.join(source.file_name().expect("a file has a name")).with_extension("o");
        // It may be a compiler behind another word, like `ccache cc`.
        let mut compiler = self.compiler.split_whitespace();
        let mut command = Command::new(compiler.next().expect("it isn't empty"));
        command.args(compiler).args(["-std=c11", "-O2", "-fPIC"]).args(words).args(&self.flags);
        run(command.arg("-c").arg(source).arg("-o").arg(&object)).map(|_| object)
    }
}

/// What it printed.
fn run(command: &mut Command) -> Answer<String> {
    let name = command.get_program().to_string_lossy().into_owned();
    let ended = command.output().map_err(|why| format!("{name}: {why}"))?;
    if ended.status.success() {
        Ok(String::from_utf8_lossy(&ended.stdout).into_owned())
    } else {
        Err(format!("{command:?}: {}\n{}", ended.status, String::from_utf8_lossy(&ended.stderr).trim()))
    }
}
