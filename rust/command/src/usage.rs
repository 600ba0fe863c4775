//! From the arguments to what is asked for.

use std::ffi::{OsStr, OsString};

use crate::failure::Failure;
use crate::help::{Topic, NODES, VALUES};
use crate::input::Source;
use crate::output::shown;
use crate::select::{Evaluations, Options};

/// What is asked for.
#[derive(Debug, PartialEq, Eq)]
pub enum Request {
    Help(Topic),
    Version,
    CheckLibrary {
        library: Source,
        json: bool,
    },
    CheckRule {
        rule: Source,
        json: bool,
    },
    Select {
        rule: Source,
        library: Source,
        options: Options,
    },
    Explain {
        rule: Source,
    },
}

impl Request {
    /// Whether answers, and refusals with them, are written as objects.
    pub fn json(&self) -> bool {
        match self {
            Request::CheckLibrary { json, .. } | Request::CheckRule { json, .. } => *json,
            Request::Select { options, .. } => options.json,
            Request::Help(_) | Request::Version | Request::Explain { .. } => false,
        }
    }
}

/// Reads the arguments behind the command's name.
pub fn read(arguments: &[OsString]) -> Result<Request, Failure> {
    let Some((first, rest)) = arguments.split_first() else {
        return Err(misused(Topic::All, "nothing is asked for"));
    };
    match first.to_str() {
        Some("check") => read_command(Topic::Check, rest, read_check),
        Some("select") => read_command(Topic::Select, rest, read_select),
        Some("explain") => read_command(Topic::Explain, rest, read_explain),
        Some("help" | "--help" | "-h") => read_help(rest),
        Some("--version" | "-V") => match rest {
            [] => Ok(Request::Version),
            [extra, ..] => Err(too_many(Topic::All, extra)),
        },
        _ => Err(no_command(first)),
    }
}

fn read_help(rest: &[OsString]) -> Result<Request, Failure> {
    let topic = match rest {
        [] => Topic::All,
        [name] => Topic::named(name).ok_or_else(|| no_command(name))?,
        [_, extra, ..] => return Err(too_many(Topic::All, extra)),
    };
    Ok(Request::Help(topic))
}

/// Reads what stands behind the name of a command. Help is given whatever else
/// stands there: who asks for it may not know what may.
fn read_command(
    topic: Topic,
    arguments: &[OsString],
    read: fn(Arguments) -> Result<Request, Failure>,
) -> Result<Request, Failure> {
    let mut options = arguments.iter().take_while(|argument| **argument != *"--");
    if options.any(|argument| *argument == *"--help" || *argument == *"-h") {
        return Ok(Request::Help(topic));
    }
    read(Arguments::read(topic, arguments)?)
}

fn read_check(mut arguments: Arguments) -> Result<Request, Failure> {
    let json = arguments.has("--json");
    if arguments.has("--rule") {
        let [rule] = arguments.operands(["RULE"])?;
        return Ok(Request::CheckRule { rule, json });
    }
    let [library] = arguments.operands(["LIBRARY"])?;
    Ok(Request::CheckLibrary { library, json })
}

fn read_select(mut arguments: Arguments) -> Result<Request, Failure> {
    let topic = arguments.topic;
    let options = Options {
        evaluations: read_evaluations(&arguments)?,
        count: arguments.has("--count"),
        json: arguments.has("--json"),
    };
    let [rule, library] = arguments.operands(["RULE", "LIBRARY"])?;
    if rule == Source::StandardInput && library == Source::StandardInput {
        let words = "RULE and LIBRARY cannot both be read from standard input";
        return Err(misused(topic, words));
    }
    Ok(Request::Select {
        rule,
        library,
        options,
    })
}

fn read_evaluations(arguments: &Arguments) -> Result<Evaluations, Failure> {
    let topic = arguments.topic;
    match (arguments.has("--plain"), arguments.has("--both")) {
        (true, true) => Err(misused(topic, "--plain and --both exclude each other")),
        (plain, both) if (plain || both) && !arguments.lists.is_empty() => {
            let other = if plain { "--plain" } else { "--both" };
            let words = format!("{other} and {VALUES} exclude each other");
            Err(misused(topic, &words))
        }
        (true, false) => Ok(Evaluations::Plain),
        (false, true) => Ok(Evaluations::Both),
        (false, false) => match &arguments.lists[..] {
            [] => Ok(Evaluations::Snippets),
            lists => {
                let nodes = lists.iter().map(|list| read_nodes(topic, list));
                let nodes: Vec<Vec<u16>> = nodes.collect::<Result<_, _>>()?;
                Ok(Evaluations::Values(nodes.concat()))
            }
        },
    }
}

/// Numbers of nodes with commas between them, or nothing. One that does not fit is
/// the number of no node, as the largest that fits is.
fn read_nodes(topic: Topic, list: &OsStr) -> Result<Vec<u16>, Failure> {
    let text = list.to_string_lossy();
    let is_number = |item: &str| !item.is_empty() && item.bytes().all(|b| b.is_ascii_digit());
    if text.is_empty() {
        return Ok(Vec::new());
    }
    if !text.split(',').all(is_number) {
        let words = format!(
            "{VALUES} takes numbers of nodes with commas between them, and not {}",
            shown(list)
        );
        return Err(misused(topic, &words));
    }
    let number = |item: &str| item.parse().unwrap_or(u16::MAX);
    Ok(text.split(',').map(number).collect())
}

fn read_explain(mut arguments: Arguments) -> Result<Request, Failure> {
    let [rule] = arguments.operands(["RULE"])?;
    Ok(Request::Explain { rule })
}

/// The arguments of a command, taken apart.
struct Arguments {
    topic: Topic,
    options: Vec<&'static str>,
    /// What stands behind each `--values`.
    lists: Vec<OsString>,
    operands: Vec<OsString>,
}

impl Arguments {
    /// Options may stand before and behind operands; `--` ends them, and `-`
    /// alone is an operand.
    fn read(topic: Topic, arguments: &[OsString]) -> Result<Arguments, Failure> {
        let mut read = Arguments {
            topic,
            options: Vec::new(),
            lists: Vec::new(),
            operands: Vec::new(),
        };
        let mut rest = arguments.iter();
        while let Some(argument) = rest.next() {
            let dashed = argument.as_encoded_bytes().starts_with(b"-");
            if !dashed || *argument == *"-" {
                read.operands.push(argument.clone());
            } else if *argument == *"--" {
                read.operands.extend(rest.by_ref().cloned());
            } else {
                read.option(argument, &mut rest)?;
            }
        }
        Ok(read)
    }

    /// Reads an option, with its argument if it takes one.
    fn option<'a>(
        &mut self,
        argument: &OsStr,
        rest: &mut impl Iterator<Item = &'a OsString>,
    ) -> Result<(), Failure> {
        let mut known = self.topic.options().iter();
        let Some(option) = known.find(|option| *argument == ***option) else {
            let words = format!("there is no option {}", shown(argument));
            return Err(misused(self.topic, &words));
        };
        if *option != VALUES {
            self.options.push(option);
            return Ok(());
        }
        match rest.next() {
            Some(list) => self.lists.push(list.clone()),
            None => {
                let words = format!("{NODES} is missing behind {VALUES}");
                return Err(misused(self.topic, &words));
            }
        }
        Ok(())
    }

    fn has(&self, option: &str) -> bool {
        self.options.contains(&option)
    }

    /// The operands, if there are as many as there are names.
    fn operands<const N: usize>(&mut self, names: [&str; N]) -> Result<[Source; N], Failure> {
        if let Some(extra) = self.operands.get(N) {
            return Err(too_many(self.topic, extra));
        }
        let missing = &names[self.operands.len()..];
        if !missing.is_empty() {
            let verb = if missing.len() == 1 { "is" } else { "are" };
            let words = format!("{} {verb} missing", missing.join(" and "));
            return Err(misused(self.topic, &words));
        }
        let mut operands = self.operands.drain(..).map(Source::of);
        Ok(names.map(|_| operands.next().expect("as many as names")))
    }
}

fn no_command(name: &OsStr) -> Failure {
    let words = format!("there is no command {}", shown(name));
    misused(Topic::All, &words)
}

fn too_many(topic: Topic, extra: &OsStr) -> Failure {
    misused(topic, &format!("{} is one argument too many", shown(extra)))
}

/// Wrong usage, with the name of the command before the words.
fn misused(topic: Topic, words: &str) -> Failure {
    Failure::Usage {
        words: match topic.name() {
            Some(name) => format!("{name}: {words}"),
            None => words.to_string(),
        },
        topic,
    }
}
