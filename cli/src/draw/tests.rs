//! Pictures: all that a table has is in them, and Graphviz takes them.

use super::*;
use crate::samples;
use basilvault::{Limits, Load};
use std::io::Write;
use std::process::{Command, Stdio};

/// A random table with its tops.
fn random(seed: u32, states: usize, density: u32) -> (Table, Tops) {
    let bytes = samples::random(Load { seed, states, internals: 2, calls: 1, returns: 1, density });
    (samples::table(&bytes), basilvault::tops_within(Limits::LARGEST, &bytes).expect("a readable table"))
}

/// A picture with what it means under it.
fn plainly(table: &Table, tops: &Tops, names: &Names, map: Option<&[u8]>) -> String {
    dot(&Picture { table, tops, names, map, broken: &[], explained: true })
}

/// What Graphviz makes of a picture, where it is installed.
fn plain(text: &str) -> Option<String> {
    let mut child = Command::new("dot").arg("-Tplain").stdin(Stdio::piped()).stdout(Stdio::piped()).stderr(Stdio::piped()).spawn().ok()?;
    child.stdin.take().expect("a pipe").write_all(text.as_bytes()).expect("dot reads all of it");
    let done = child.wait_with_output().expect("dot ends");
    assert!(done.status.success() && done.stderr.is_empty(), "{}\n{text}", String::from_utf8_lossy(&done.stderr));
    Some(String::from_utf8(done.stdout).expect("text"))
}

#[test]
fn all_is_there() {
    for seed in 0..20 {
        let (table, tops) = random(seed, 5, 12_000 + 1_000 * seed);
        let names = Names::numbered(&table);
        let arrows = arrows::gathered(&table, &tops);
        let by = |line: Line| arrows.iter().filter(move |arrow| arrow.line == line).flat_map(|arrow| &arrow.by);
        let count = |line: Line| by(line).map(|(_, over)| over.len().max(1)).sum::<usize>();
        let live = table.returns.iter().filter(|record| arrows::live(&tops, record)).count();
        assert_eq!([Line::Internal, Line::Call, Line::Return].map(count), [table.internals.len(), table.calls.len(), live]);
        assert_eq!(count(Line::Dead), table.returns.len() - live);
        let text = plainly(&table, &tops, &names, None);
        for &[from, symbol, over, to] in &table.returns {
            let line = text.lines().filter(|line| line.starts_with(&format!("  q{from} -> q{to} ")));
            let said = |tip: &str| tip.contains(&format!("r{symbol} ↑")) && tip.contains(&format!("q{over}"));
            assert!(line.clone().any(|line| line.split("tooltip=").nth(1).is_some_and(said)), "{from} {symbol} {over} {to}\n{text}");
        }
        let edges = arrows.len() + table.states.iter().filter(|state| state.initial).count();
        if let Some(plain) = plain(&text) {
            assert_eq!(plain.lines().filter(|line| line.starts_with("edge ")).count(), edges);
        }
    }
}

#[test]
fn any_name_stands_for_itself() {
    let (table, tops) = random(3, 4, 30_000);
    let mut names = Names::numbered(&table);
    names.states = ["a \"b\"", "<b>&amp;\\N", "c\\", "</svg>{|}"].map(String::from).to_vec();
    names.symbols[0] = "\\G \"x\" -> y; }".into();
    let map = [0, 1, 1, 2];
    let text = plainly(&table, &tops, &names, Some(&map));
    assert!(text.contains("subgraph cluster_1 {\n    label=\"class 1: 2 states are one\"") && !text.contains("cluster_3"));
    assert_eq!(quoted("a\"\\\n&<"), "\"a\\\"\\\\\\n&amp;&lt;\"");
    if let Some(plain) = plain(&text) {
        assert_eq!(plain.lines().filter(|line| line.starts_with("node ")).count(), 5, "{plain}");
        for name in &names.states {
            let said = name.replace('\\', "\\\\").replace('"', "\\\"");
            assert!(plain.contains(&format!(" \"{said}\" filled")), "{name}\n{plain}");
        }
    }
}

#[test]
fn parallel_arrows_are_one() {
    let (table, tops) = random(1, 1, 65_536);
    let text = plainly(&table, &tops, &Names::numbered(&table), None);
    assert_eq!(text.matches("q0 -> q0").count(), 3, "{text}");
    assert!(text.contains("label=\"i0, i1\""), "{text}");
}

#[test]
fn long_labels_are_cut_in_the_picture_alone() {
    let labels: Vec<String> = (0..40).map(|number| format!("a long name {number}")).collect();
    let arrow = Arrow { from: 0, to: 0, line: Line::Internal, by: (0..40).map(|symbol| (symbol, Vec::new())).collect() };
    let names = Names { symbols: labels.clone(), states: vec!["q".into()], ..Names::default() };
    let text = edge(&arrow, &names);
    let label = text.split("tooltip=").next().expect("a label");
    assert!(label.contains("… and 35 more") && !label.contains("name 39") && labels.iter().all(|name| text.contains(name)), "{text}");
}
