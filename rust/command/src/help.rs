//! The texts about the usage.

use std::ffi::OsStr;

/// What a text is about: a command, or all of them.
#[derive(Clone, Copy, Debug, PartialEq, Eq)]
pub enum Topic {
    All,
    Check,
    Select,
    Explain,
}

/// The one option that takes an argument, and how that is called.
pub const VALUES: &str = "--values";
pub const NODES: &str = "NODES";

/// Stands below the usage where the command is used wrongly.
pub const HINT: &str = "`yurzhoad --help` says more";

impl Topic {
    const COMMANDS: [Topic; 3] = [Topic::Check, Topic::Select, Topic::Explain];

    /// The command of this name.
    pub fn named(name: &OsStr) -> Option<Topic> {
        let has_name = |topic: &Topic| topic.name().is_some_and(|own| *name == *own);
        Topic::COMMANDS.into_iter().find(has_name)
    }

    /// The name of the command.
    pub fn name(self) -> Option<&'static str> {
        match self {
            Topic::All => None,
            Topic::Check => Some("check"),
            Topic::Select => Some("select"),
            Topic::Explain => Some("explain"),
        }
    }

    /// The options that the command takes, beside `--help`.
    pub fn options(self) -> &'static [&'static str] {
        match self {
            Topic::All | Topic::Explain => &[],
            Topic::Check => &["--rule", "--json"],
            Topic::Select => &["--plain", "--both", VALUES, "--count", "--json"],
        }
    }

    /// How it is used, in one line.
    pub fn usage(self) -> &'static str {
        match self {
            Topic::All => "usage: yurzhoad check | select | explain [OPTION]... OPERAND...",
            Topic::Check => "usage: yurzhoad check [--json] LIBRARY | --rule RULE",
            Topic::Select => {
                "usage: yurzhoad select [--plain | --both | --values NODES] [--count] [--json] \
                 RULE LIBRARY"
            }
            Topic::Explain => "usage: yurzhoad explain RULE",
        }
    }

    /// The help.
    pub fn text(self) -> &'static str {
        match self {
            Topic::All => include_str!("help/all.txt"),
            Topic::Check => include_str!("help/check.txt"),
            Topic::Select => include_str!("help/select.txt"),
            Topic::Explain => include_str!("help/explain.txt"),
        }
    }
}
