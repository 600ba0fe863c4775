//! The engines: how the program for each is built and started, from sources under
//! `tests/bench/peers` into `target/peers`, or what is missing.

use std::env;
use std::fs;
use std::path::{Path, PathBuf};
use std::process::{Command, Output};

use super::process::Peer;

const SOURCES: &str = concat!(env!("CARGO_MANIFEST_DIR"), "/peers");
const BUILT: &str = concat!(env!("CARGO_MANIFEST_DIR"), "/../../target/peers");
/// Where Debian puts what is written in Java.
const JARS: &str = "/usr/share/java";

/// An engine that can be started.
pub struct Engine {
    pub name: &'static str,
    /// What its program says of itself.
    pub version: String,
    /// The program and its arguments.
    command: Vec<String>,
}

impl Engine {
    /// A process of its own, which waits to be asked.
    pub fn start(&self) -> Peer {
        let started = Peer::start(&mut command(&self.command));
        started.expect("it has started before").0
    }
}

/// How to build the program of an engine.
enum Source {
    /// By a compiler of C or C++, with what `pkg-config` says of a library.
    Native {
        /// The variable that names the compiler, and its name if there is none.
        compiler: (&'static str, &'static str),
        standard: &'static str,
        file: &'static str,
        library: &'static str,
    },
    /// By `javac`, with a jar if it is not Java's own.
    Java {
        class: &'static str,
        jar: Option<&'static str>,
    },
}

/// An engine's name, how it is built, and the packages of Debian that it needs.
struct Recipe {
    name: &'static str,
    source: Source,
    packages: &'static str,
}

const RECIPES: [Recipe; 5] = [
    Recipe {
        name: "libxml2",
        source: Source::Native {
            compiler: ("CC", "cc"),
            standard: "-std=c11",
            file: "libxml2.c",
            library: "libxml-2.0",
        },
        packages: "pkg-config, libxml2-dev",
    },
    Recipe {
        name: "pugixml",
        source: Source::Native {
            compiler: ("CXX", "c++"),
            standard: "-std=c++11",
            file: "pugixml.cpp",
            library: "pugixml",
        },
        packages: "pkg-config, libpugixml-dev",
    },
    Recipe {
        name: "Saxon-HE",
        source: Source::Java {
            class: "SaxonPeer",
            jar: Some("Saxon-HE.jar"),
        },
        packages: "default-jdk-headless, libsaxonhe-java",
    },
    Recipe {
        name: "BaseX",
        source: Source::Java {
            class: "BasexPeer",
            jar: Some("basex.jar"),
        },
        packages: "default-jdk-headless, basex",
    },
    Recipe {
        name: "Java's own",
        source: Source::Java {
            class: "JdkPeer",
            jar: None,
        },
        packages: "default-jdk-headless",
    },
];

/// Every engine by its name, or what is missing.
pub fn build_all() -> Vec<(&'static str, Result<Engine, String>)> {
    RECIPES
        .iter()
        .map(|recipe| (recipe.name, build(recipe)))
        .collect()
}

/// Builds a program, and starts it once for its version.
fn build(recipe: &Recipe) -> Result<Engine, String> {
    fs::create_dir_all(BUILT).map_err(|error| error.to_string())?;
    let words = match &recipe.source {
        Source::Native {
            compiler,
            standard,
            file,
            library,
        } => build_native(*compiler, standard, file, library),
        Source::Java { class, jar } => build_java(class, *jar),
    };
    let named = |error| format!("{error} (Debian: {})", recipe.packages);
    let words = words.map_err(named)?;
    let started = Peer::start(&mut command(&words));
    let (_, version) = started.map_err(|error| named(error.to_string()))?;
    Ok(Engine {
        name: recipe.name,
        version,
        command: words,
    })
}

fn build_native(
    (variable, compiler): (&str, &str),
    standard: &str,
    file: &str,
    library: &str,
) -> Result<Vec<String>, String> {
    let flags = output_of(Command::new("pkg-config").args(["--cflags", "--libs", library]))?;
    let source = Path::new(SOURCES).join(file);
    let program = Path::new(BUILT).join(source.file_stem().expect("it has a name"));
    let compiler = env::var(variable).unwrap_or_else(|_| compiler.to_string());
    let warnings = ["-Wall", "-Wextra", "-pedantic"];
    output_of(
        Command::new(compiler)
            .args([standard, "-O2"])
            .args(warnings)
            .arg("-o")
            .args([&program, &source])
            .args(flags.split_whitespace()),
    )?;
    Ok(vec![text(&program)])
}

fn build_java(class: &str, jar: Option<&str>) -> Result<Vec<String>, String> {
    let mut path = BUILT.to_string();
    if let Some(jar) = jar {
        let jar = Path::new(JARS).join(jar);
        if !jar.exists() {
            return Err(format!("there is no {}", jar.display()));
        }
        path += &format!(":{}", jar.display());
    }
    let sources = ["Peer", class].map(|class| Path::new(SOURCES).join(format!("{class}.java")));
    output_of(
        Command::new("javac")
            .args(["-d", BUILT, "-cp", &path])
            .args(sources),
    )?;
    let words = ["java", "-cp", &path, class];
    Ok(words.map(str::to_string).to_vec())
}

/// What a command writes, or the first line of what it says if it fails.
fn output_of(command: &mut Command) -> Result<String, String> {
    let program = text(&PathBuf::from(command.get_program()));
    let started = command.output();
    let output = started.map_err(|_| format!("{program} is not installed"))?;
    let Output { status, .. } = output;
    let said = String::from_utf8_lossy(&output.stderr);
    match status.success() {
        true => Ok(String::from_utf8_lossy(&output.stdout).into_owned()),
        false => Err(said.lines().next().unwrap_or(&program).to_string()),
    }
}

/// A command of the program and its arguments.
fn command(words: &[String]) -> Command {
    let mut command = Command::new(&words[0]);
    command.args(&words[1..]);
    command
}

fn text(path: &Path) -> String {
    path.to_string_lossy().into_owned()
}
