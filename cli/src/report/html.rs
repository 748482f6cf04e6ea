//! Pieces of a page.

/// How many lines a list may have before it is folded away.
pub const LONG: usize = 24;

/// A text as it stands in a page.
pub fn escaped(text: &str) -> String {
    let mut escaped = String::with_capacity(text.len());
    for letter in text.chars() {
        match letter {
            '&' => escaped += "&amp;",
            '<' => escaped += "&lt;",
            '>' => escaped += "&gt;",
            '"' => escaped += "&quot;",
            '\'' => escaped += "&#39;",
            letter if letter.is_control() => escaped.push(' '),
            letter => escaped.push(letter),
        }
    }
    escaped
}

/// The whole page. It names no other place, and its browser is told to ask none.
pub fn document(title: &str, body: &str) -> String {
    let (title, style, script) = (escaped(title), include_str!("page.css"), include_str!("page.js"));
    let policy = "default-src 'none'; style-src 'unsafe-inline'; script-src 'unsafe-inline'";
    format!(
        "<!DOCTYPE html>\n<html lang=\"en\">\n<head>\n<meta charset=\"utf-8\"/>\n\
         <meta name=\"viewport\" content=\"width=device-width, initial-scale=1\"/>\n\
         <meta http-equiv=\"Content-Security-Policy\" content=\"{policy}\"/>\n\
         <title>{title}</title>\n<style>\n{style}</style>\n</head>\n<body>\n<main>\n{body}</main>\n<script>\n{script}</script>\n</body>\n</html>\n"
    )
}

/// A section under its head.
pub fn section(head: &str, inner: &str) -> String {
    format!("<section>\n{}{inner}</section>\n", heading(head))
}

/// The head of a section.
pub fn heading(head: &str) -> String {
    format!("<h2>{}</h2>\n", escaped(head))
}

/// The title, what it comes to in one line, and facts: a few words in bold and what they are about.
pub fn opening(title: &str, lead: &str, facts: &[(String, String)]) -> String {
    let facts: String = facts.iter().map(|(bold, said)| format!("<li><b>{}</b><span>{}</span></li>\n", escaped(bold), escaped(said))).collect();
    format!("<h1>{}</h1>\n<p class=\"lead\">{}</p>\n<ul class=\"facts\">\n{facts}</ul>\n", escaped(title), escaped(lead))
}

/// What must not be missed.
pub fn notice(text: &str) -> String {
    format!("<p class=\"notice\">{}</p>\n", escaped(text))
}

/// A paragraph of plain text.
pub fn paragraph(text: &str) -> String {
    format!("<p>{}</p>\n", escaped(text))
}

/// A list of plain texts.
pub fn list(items: &[String]) -> String {
    let items: String = items.iter().map(|item| format!("<li>{}</li>\n", escaped(item))).collect();
    format!("<ul>\n{items}</ul>\n")
}

/// A table with a head, of cells that are pieces of a page already.
pub fn table(head: &[&str], rows: &[Vec<String>]) -> String {
    noted_table(head, &rows.iter().map(|row| (String::new(), row.clone())).collect::<Vec<_>>())
}

/// The same, of rows with attributes.
pub fn noted_table(head: &[&str], rows: &[(String, Vec<String>)]) -> String {
    let head: String = head.iter().map(|cell| format!("<th>{}</th>", escaped(cell))).collect();
    let cells = |row: &[String]| row.iter().map(|cell| format!("<td>{cell}</td>")).collect::<String>();
    let rows: String = rows.iter().map(|(attributes, row)| format!("<tr{attributes}>{}</tr>\n", cells(row))).collect();
    format!("<div class=\"wide\"><table>\n<thead><tr>{head}</tr></thead>\n<tbody>\n{rows}</tbody>\n</table></div>\n")
}

/// A part that is folded away where it is long.
pub fn folded(summary: &str, long: bool, inner: &str) -> String {
    let open = if long { "" } else { " open=\"open\"" };
    format!("<details{open}>\n<summary>{}</summary>\n{inner}</details>\n", escaped(summary))
}

/// A number with its noun, which takes an s where the number is not one; digits by threes.
pub fn count(number: impl TryInto<u64>, noun: &str) -> String {
    let number = number.try_into().unwrap_or(u64::MAX);
    format!("{} {noun}{}", grouped(number), if number == 1 { "" } else { "s" })
}

/// A number's digits by threes.
pub fn grouped(number: u64) -> String {
    let digits = number.to_string();
    let mut grouped = String::new();
    for (place, digit) in digits.chars().enumerate() {
        if place > 0 && (digits.len() - place).is_multiple_of(3) {
            grouped.push(',');
        }
        grouped.push(digit);
    }
    grouped
}
