//! Pictures through Graphviz where it is installed, else the moves by state.

use super::html::{count, escaped, folded, noted_table as html_table, paragraph};
use crate::draw::arrows::{self, Line};
use crate::draw::looks::{Looks, Meaning};
use crate::draw::{self, Picture};
use crate::model::Table;
use crate::names::Names;
use basilvault::Tops;
use std::io::{Read, Write};
use std::process::{Child, Command, Stdio};
use std::time::{Duration, Instant};

/// More arrows than this are no picture that a person can follow, though it can be enlarged and shows the moves of one state alone.
const MOST_ARROWS: usize = 600;

/// More dead returns than this hide the rest.
const MOST_DEAD: usize = 24;

/// What is said where Graphviz is not installed, or does not come to an end.
const NO_PICTURE: &str = "Graphviz, which draws the pictures, did not draw this one; the moves are listed instead.";

/// How long Graphviz may take.
const PATIENCE: Duration = Duration::from_secs(10);

/// A table on the page.
#[derive(Clone, Copy)]
pub struct Shown<'a> {
    pub table: &'a Table,
    pub tops: &'a Tops,
    pub names: &'a Names,
    /// a box is drawn around each of its classes
    pub map: Option<&'a [u8]>,
    /// states that break the map
    pub broken: &'a [u8],
    /// keeps what the pictures of one page have in them apart
    pub prefix: &'a str,
    /// a column of the list of moves: its head, and a class and a text for each state
    pub column: Option<(&'a str, &'a [(u8, String)])>,
}

/// A table as the page shows it: a picture with its meaning, where one can be had, and its moves by state. On paper a large picture has a sheet of its own,
/// `broad` or `tall`.
pub struct Drawing {
    sheet: &'static str,
    picture: String,
    moves: String,
}

impl Drawing {
    /// With a head and some text before it, in an element that has them on one sheet.
    pub fn under(&self, element: &str, head: &str, text: &str) -> String {
        let Drawing { sheet, picture, moves } = self;
        format!("<{element} class=\"{sheet}\">\n<div class=\"sheet\">\n{head}{text}{picture}</div>\n{moves}</{element}>\n")
    }
}

/// What is shown of a table.
pub fn shown(it: &Shown) -> Drawing {
    let listed = |said: String, arrows: &[arrows::Arrow]| Drawing { sheet: "", picture: said, moves: moves(it, arrows, it.table.states.len() > FEW) };
    let arrows = arrows::gathered(it.table, it.tops);
    let live = arrows.iter().filter(|arrow| arrow.line != Line::Dead).count();
    if live > MOST_ARROWS {
        let said = format!("With {} a picture would be a tangle; the moves are listed instead.", count(arrows.len(), "arrow"));
        return listed(paragraph(&said), &arrows);
    }
    let many = arrows.len() - live > MOST_DEAD;
    let without = without_dead(it.table, it.tops);
    let table = if many { &without } else { it.table };
    let drawn_of = Picture { table, tops: it.tops, names: it.names, map: it.map, broken: it.broken, explained: false };
    let Some((sheet, picture)) = drawn(&draw::dot(&drawn_of)).and_then(|svg| embedded(&svg, it.prefix)) else {
        return listed(paragraph(NO_PICTURE), &arrows);
    };
    let said = [
        (it.map.is_some(), "A yellow box holds states of one class."),
        (many, "Dead returns, which no script can take, are left out of the picture: there are too many."),
    ];
    let said: String = said.iter().filter(|(so, _)| *so).map(|(_, said)| paragraph(said)).collect();
    let looks = Looks::of(table, it.tops, it.broken);
    let picture = said + &picture + &legend(&looks.meanings(table, it.names, &arrows::gathered(table, it.tops)));
    Drawing { sheet, picture, moves: moves(it, &arrows, true) }
}

/// What a picture means, under it.
fn legend(meanings: &[Meaning]) -> String {
    let line = |meaning: &Meaning| {
        let swatch = meaning.colour.map(|colour| format!("<span class=\"swatch\" style=\"background:{}\"></span> ", colour.fill));
        format!("<li>{}{}</li>\n", swatch.unwrap_or_default(), escaped(&meaning.says))
    };
    format!("<ul class=\"legend\">\n{}</ul>\n", meanings.iter().map(line).collect::<String>())
}

/// A table without its dead returns.
fn without_dead(table: &Table, tops: &Tops) -> Table {
    let returns = table.returns.iter().copied().filter(|record| arrows::live(tops, record)).collect();
    Table { returns, ..table.clone() }
}

/// What Graphviz draws, where it does.
fn drawn(text: &str) -> Option<String> {
    let mut child = Command::new("dot").arg("-Tsvg").stdin(Stdio::piped()).stdout(Stdio::piped()).stderr(Stdio::null()).spawn().ok()?;
    let (mut input, mut output) = (child.stdin.take()?, child.stdout.take()?);
    let text = text.as_bytes().to_vec();
    let writing = std::thread::spawn(move || input.write_all(&text));
    let reading = std::thread::spawn(move || {
        let mut svg = String::new();
        output.read_to_string(&mut svg).map(|_| svg)
    });
    let done = ends_well(&mut child);
    let written = writing.join().ok()?.is_ok();
    let svg = reading.join().ok()?.ok()?;
    (done && written).then_some(svg)
}

/// Waits for a child, up to the time that it may take, and ends it then.
fn ends_well(child: &mut Child) -> bool {
    let start = Instant::now();
    loop {
        match child.try_wait() {
            Ok(Some(status)) => return status.success(),
            Ok(None) if start.elapsed() < PATIENCE => std::thread::sleep(Duration::from_millis(5)),
            _ => {
                let _ = child.kill();
                let _ = child.wait();
                return false;
            }
        }
    }
}

/// A picture inside of the page: without a script no smaller than can be read, in a frame that scrolls; and the sheet that it needs on paper, where it would
/// be too small beside the text.
fn embedded(svg: &str, prefix: &str) -> Option<(&'static str, String)> {
    let svg = &svg[svg.find("<svg")?..];
    let points = |side: &str| svg.split(&format!("{side}=\"")).nth(1)?.split("pt\"").next()?.parse::<f64>().ok();
    let (wide, high) = (points("width")?, points("height")?);
    let pixels = wide * 4.0 / 3.0;
    let style = format!("<svg role=\"img\" aria-label=\"a picture of the table\" style=\"width:{pixels:.0}px; min-width:{:.0}px\"", pixels * 0.6);
    let svg = svg.replacen("<svg", &style, 1).replace(" id=\"", &format!(" id=\"{prefix}-"));
    let svg = svg.replace("<a xlink:title=\"", "<g><title>").replace("</a>", "</g>");
    let svg: Vec<String> = svg.lines().filter(|line| !line.starts_with("<title>")).map(titled).collect();
    let sheet = match (INLINE[0] / wide).min(INLINE[1] / high) {
        scale if scale >= SMALLEST => "",
        _ if wide > high => "broad",
        _ => "tall",
    };
    Some((sheet, format!("<div class=\"picture\" id=\"{prefix}\">\n{}\n</div>\n", svg.join("\n").trim_end())))
}

/// The points that a picture has in the width of a printed page, beside the head, and how small it may become there.
const INLINE: [f64; 2] = [510.0, 400.0];
const SMALLEST: f64 = 0.55;

/// A line in which Graphviz's tip is made the title of its group.
fn titled(line: &str) -> String {
    match line.split_once("<g><title>") {
        Some((before, after)) => format!("{before}<g><title>{}", after.replacen("\">", "</title>", 1)),
        None => line.into(),
    }
}

/// Up to so many states the moves are open where there is no picture.
const FEW: usize = 16;

/// The moves by state, kind by kind; folded away where asked.
pub fn moves(it: &Shown, arrows: &[arrows::Arrow], away: bool) -> String {
    let looks = Looks::of(it.table, it.tops, it.broken);
    let row = |q: usize| {
        let (class, more) = it.column.map_or((String::new(), None), |(_, column)| (format!(" data-class=\"{}\"", column[q].0), Some(escaped(&column[q].1))));
        let cells = [escaped(it.names.state(q as u8)), said(it, &looks, q), kinds(it.names, arrows, q as u8)];
        (format!(" id=\"{}-row{q}\"{class}", it.prefix), more.into_iter().chain(cells).collect())
    };
    let head: Vec<&str> = it.column.map(|(head, _)| head).into_iter().chain(["state", "is", "moves"]).collect();
    let rows: Vec<(String, Vec<String>)> = (0..it.table.states.len()).map(row).collect();
    format!("<div class=\"moves\">\n{}</div>\n", folded("The moves, state by state", away, &html_table(&head, &rows)))
}

/// The moves of a state, a line for each kind.
fn kinds(names: &Names, arrows: &[arrows::Arrow], q: u8) -> String {
    let kinds = [(Line::Internal, "internals"), (Line::Call, "calls"), (Line::Return, "returns"), (Line::Dead, "dead returns")];
    let line = |(line, head): &(Line, &str)| {
        let own = arrows.iter().filter(|arrow| arrow.from == q && arrow.line == *line);
        let moves: Vec<String> = own.map(|arrow| format!("{} → {}", arrow.labels(names, usize::MAX).join(", "), names.state(arrow.to))).collect();
        let class = if *line == Line::Dead { " class=\"faint\"" } else { "" };
        (!moves.is_empty()).then(|| format!("<div{class}>{head}: {}</div>", escaped(&moves.join("; "))))
    };
    kinds.iter().filter_map(line).collect()
}

/// What a state is.
fn said(it: &Shown, looks: &Looks, q: usize) -> String {
    let (state, number) = (it.table.states[q], q as u8);
    let said = [
        (state.initial, "initial".to_string()),
        (state.accepting, "accepting".into()),
        (state.mark != 0, format!("mark {}", it.names.mark(state.mark))),
        (looks.unreached(number), "no run reaches it".into()),
        (looks.stuck(number), "nothing is accepted from it".into()),
        (it.broken.contains(&number), "breaks the map".into()),
    ];
    escaped(&said.into_iter().filter(|(so, _)| *so).map(|(_, said)| said).collect::<Vec<_>>().join(", "))
}
