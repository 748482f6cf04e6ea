//! Pages for `man`, from the same texts as the help and from the header for C.

use crate::arguments::{Command, Opt};
use crate::help::{AFTER, BEFORE};

/// The header, which is the manual of the library for C.
const HEADER: &str = include_str!("../../include/basilvault.h");

/// The page of the whole.
pub fn general(commands: &[&Command]) -> String {
    let (usage, text) = BEFORE.split_once("\n\n").unwrap_or((BEFORE, ""));
    let list: String = commands.iter().map(|command| format!(".TP\n\\fB{}\\fR\n{}\n", plain(command.name), line(command.summary))).collect();
    let see: Vec<_> = commands.iter().map(|command| format!(".BR {} (1)", plain(&format!("basilvault-{}", command.name)))).collect();
    let head = head("basilvault", 1, "reduce, check, compare and show tables of map scripts", usage.strip_prefix("basilvault ").unwrap_or(usage), "basilvault");
    format!("{head}{}.SH COMMANDS\n{list}.SH NOTES\n{}.SH SEE ALSO\n{},\n.BR basilvault (3)\n", flowing(text), flowing(AFTER), see.join(",\n"))
}

/// The page of a command.
pub fn of(command: &Command) -> String {
    let (text, example) = command.help.split_once("Example:").unwrap_or((command.help, ""));
    let option = |Opt { name, value, says }: &Opt| {
        let value = if value.is_empty() { String::new() } else { format!(" \\fI{}\\fR", plain(value)) };
        format!(".TP\n\\fB{}\\fR{value}\n{}\n", plain(name), line(says))
    };
    let options: String = command.options.iter().map(option).collect();
    let options = if options.is_empty() { String::new() } else { format!(".SH OPTIONS\n{options}") };
    let name = format!("basilvault-{}", command.name);
    let head = head(&name, 1, command.summary, command.usage, &format!("basilvault {}", command.name));
    format!("{head}{}{options}.SH EXAMPLE\n{}.SH SEE ALSO\n.BR basilvault (1)\n", flowing(text), flowing(example))
}

/// The page of the functions for C: the header's first comment as text, what it declares as it stands.
pub fn functions() -> String {
    let (comment, rest) = HEADER.split_once("*/").unwrap_or((HEADER, ""));
    let comment: String = comment.trim_start_matches("/*").lines().map(|line| line.trim_start_matches(" *").trim().to_string() + "\n").collect();
    let declared = rest.split_once("extern \"C\" {\n#endif\n").map_or(rest, |(_, rest)| rest);
    let declared = declared.split_once("#ifdef __cplusplus").map_or(declared, |(declared, _)| declared).trim();
    let title = title("basilvault", 3);
    let link = "cc program.c $(pkg-config --cflags --libs basilvault)";
    let names = format!(".SH NAME\nbasilvault {} the reducer of map{}script tables, from C\n", r"\-", r"\-");
    format!(
        "{title}{names}.SH SYNOPSIS\n{}.SH DESCRIPTION\n{}.SH DECLARATIONS\n{}.SH SEE ALSO\n.BR basilvault (1)\n",
        verbatim(&["#include <basilvault.h>", "", link]),
        flowing(comment.trim_start()),
        verbatim(&declared.lines().collect::<Vec<_>>())
    )
}

/// The line that a page starts with.
fn title(name: &str, section: u8) -> String {
    format!(".TH {} {section} \"\" \"basilvault {}\"\n", plain(&name.to_uppercase()), env!("CARGO_PKG_VERSION"))
}

/// The start of a command's page, up to the text that describes it.
fn head(name: &str, section: u8, summary: &str, usage: &str, called: &str) -> String {
    let title = title(name, section);
    format!("{title}.SH NAME\n{} \\- {}\n.SH SYNOPSIS\n\\fB{}\\fR {}\n.SH DESCRIPTION\n", plain(name), line(summary), plain(called), plain(usage))
}

/// A text as `man` reads it: paragraphs, and lines that start with a blank as they are.
fn flowing(text: &str) -> String {
    let (mut page, mut kept) = (String::new(), Vec::new());
    for text in text.trim_matches('\n').lines() {
        if text.starts_with(' ') {
            kept.push(text.strip_prefix("    ").unwrap_or(text));
            continue;
        }
        page += &verbatim(&std::mem::take(&mut kept));
        page += &if text.is_empty() { ".PP\n".to_string() } else { line(text) + "\n" };
    }
    page + &verbatim(&kept)
}

/// Lines as they are.
fn verbatim(lines: &[&str]) -> String {
    if lines.is_empty() {
        return String::new();
    }
    let lines: String = lines.iter().map(|text| format!("\\&{}\n", plain(text))).collect();
    format!(".RS 4\n.nf\n{lines}.fi\n.RE\n")
}

/// A line of a paragraph: what stands between backquotes is bold.
fn line(text: &str) -> String {
    let parts: Vec<String> = text.split('`').map(plain).collect();
    let (mut line, mut bold) = (String::new(), false);
    for (place, part) in parts.iter().enumerate() {
        if place > 0 {
            line += if bold { "\\fR" } else { "\\fB" };
            bold = !bold;
        }
        line += part;
    }
    if line.starts_with(['.', '\'']) { format!("\\&{line}") } else { line }
}

/// A text whose characters mean nothing to `man`.
fn plain(text: &str) -> String {
    text.replace('\\', "\\e").replace('-', "\\-").replace('`', "\\(ga").replace('\'', "\\(aq").replace('^', "\\(ha").replace('~', "\\(ti")
}

#[cfg(test)]
mod tests {
    use super::*;

    #[test]
    fn what_man_would_take_for_its_own() {
        assert_eq!(line(".a `-b` 'c'"), "\\&.a \\fB\\-b\\fR \\(aqc\\(aq");
        assert_eq!(flowing("a\nb\n\n    c\\d\n    'e\n\nf"), "a\nb\n.PP\n.RS 4\n.nf\n\\&c\\ed\n\\&\\(aqe\n.fi\n.RE\n.PP\nf\n");
    }
}
