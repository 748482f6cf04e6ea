//! What a shell completes: commands, options and the values of options, from the same descriptions as the help.

use crate::arguments::{Command, Opt};

/// A function that makes a shell's script.
type Script = fn(&[&Command]) -> String;

/// Each shell by its name.
pub const SHELLS: &[(&str, Script)] = &[("bash", bash), ("zsh", zsh), ("fish", fish)];

/// What can stand as the value of an option.
#[derive(Clone, Copy, PartialEq, Eq)]
enum Value {
    None,
    File,
    Folder,
    Program,
    /// a number, which no shell knows
    Number,
}

/// The kind of an option's value, by what it is called.
fn value(option: &Opt) -> Value {
    match option.value {
        "" => Value::None,
        "FOLDER" => Value::Folder,
        "SOLVER" => Value::Program,
        "N" | "WORDS" => Value::Number,
        _ => Value::File,
    }
}

/// The words that can stand as the first argument of a command, where these are few.
fn words(command: &Command, commands: &[&Command]) -> Vec<&'static str> {
    match command.name {
        "completions" => SHELLS.iter().map(|(name, _)| *name).collect(),
        "manual" => commands.iter().map(|command| command.name).collect(),
        _ => Vec::new(),
    }
}

/// The names of the options of any command whose value is of a kind.
fn of_kind(commands: &[&Command], kind: Value) -> Vec<&'static str> {
    let mut names: Vec<_> = commands.iter().flat_map(|command| command.options).filter(|option| value(option) == kind).map(|option| option.name).collect();
    names.sort_unstable();
    names.dedup();
    names
}

/// The script for bash.
fn bash(commands: &[&Command]) -> String {
    let case = |command: &&Command| {
        let options: Vec<_> = command.options.iter().map(|option| option.name).chain(["--help"]).collect();
        format!("        {}) options='{}' words='{}' ;;\n", command.name, options.join(" "), words(command, commands).join(" "))
    };
    let names: Vec<_> = commands.iter().map(|command| command.name).collect();
    include_str!("shells/bash")
        .replace("@COMMANDS@", &names.join(" "))
        .replace("@CASES@", &commands.iter().map(case).collect::<String>())
        .replace("@FOLDERS@", &of_kind(commands, Value::Folder).join(" | "))
        .replace("@PROGRAMS@", &of_kind(commands, Value::Program).join(" | "))
        .replace("@NUMBERS@", &of_kind(commands, Value::Number).join(" | "))
        .replace("@FILES@", &of_kind(commands, Value::File).join(" | "))
}

/// A text between single quotes, for zsh.
fn quoted(text: &str) -> String {
    format!("'{}'", text.replace('\'', r"'\''"))
}

/// The script for zsh.
fn zsh(commands: &[&Command]) -> String {
    let described = |command: &&Command| format!("        {}\n", quoted(&format!("{}:{}", command.name, command.summary)));
    let option = |option: &Opt| {
        let says = option.says.replace('[', r"\[").replace(']', r"\]");
        let joined = if option.name.starts_with("--") { "=" } else { "" };
        quoted(&match value(option) {
            Value::None => format!("{}[{says}]", option.name),
            Value::File => format!("{}{joined}[{says}]:{}:_files", option.name, option.value),
            Value::Folder => format!("{}{joined}[{says}]:{}:_files -/", option.name, option.value),
            Value::Program => format!("{}{joined}[{says}]:{}:_command_names", option.name, option.value),
            Value::Number => format!("{}{joined}[{says}]:{}: ", option.name, option.value),
        })
    };
    let case = |command: &&Command| {
        let words = words(command, commands);
        let plain = if words.is_empty() { "*:file:_files".into() } else { format!("1:word:({})", words.join(" ")) };
        let all: Vec<_> = command.options.iter().map(option).chain([quoted("--help[say more of the command]"), quoted(&plain)]).collect();
        format!("        {}) _arguments {} ;;\n", command.name, all.join(" "))
    };
    include_str!("shells/zsh")
        .replace("@COMMANDS@", &commands.iter().map(described).collect::<String>())
        .replace("@CASES@", &commands.iter().map(case).collect::<String>())
}

/// The script for fish.
fn fish(commands: &[&Command]) -> String {
    let quoted = |text: &str| format!("'{}'", text.replace('\\', r"\\").replace('\'', r"\'"));
    let mut script = include_str!("shells/fish").to_string();
    for command in commands {
        script += &format!("complete -c basilvault -n __fish_use_subcommand -a {} -d {}\n", command.name, quoted(command.summary));
    }
    for command in commands {
        let of = format!("complete -c basilvault -n '__fish_seen_subcommand_from {}'", command.name);
        for option in command.options {
            let name = option.name.strip_prefix("--").map_or_else(|| format!("-s {}", option.name.trim_start_matches('-')), |name| format!("-l {name}"));
            let takes = match value(option) {
                Value::None => "",
                Value::File => " -r -F",
                Value::Folder => " -x -a '(__fish_complete_directories)'",
                Value::Program => " -x -a '(__fish_complete_command)'",
                Value::Number => " -x",
            };
            script += &format!("{of} {name}{takes} -d {}\n", quoted(option.says));
        }
        let words = words(command, commands);
        if !words.is_empty() {
            script += &format!("{of} -f -a {}\n", quoted(&words.join(" ")));
        }
    }
    script
}
