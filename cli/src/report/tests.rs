//! Pages: well formed, complete, and on their own.

use super::picture::Shown;
use super::*;
use crate::maps::Broken;
use crate::names::Names;
use crate::samples::{self, example};
use basilvault::{Limits, Load, Refusal};

/// A page without its script, which has signs that look like tags. There is one, and it is the page's own.
fn without_script(page: &str) -> String {
    assert_eq!(page.matches("<script").count(), 1);
    let (before, rest) = page.split_once("<script>").expect("a script");
    let (script, after) = rest.split_once("</script>").expect("its end");
    assert_eq!(script.trim(), include_str!("page.js").trim());
    [before, after].concat()
}

/// The page of a table with these names.
fn searched(limits: Limits, bytes: &[u8], names: &Names, budget: u64, room: usize, title: &str) -> Result<String, Refusal> {
    Reduction::new(limits, bytes, names, budget, room).map(|reduction| without_script(&page(&reduction, title)))
}

/// A page is a tree of tags, all closed in order.
fn well_formed(page: &str) -> Result<(), String> {
    let mut open: Vec<&str> = Vec::new();
    let mut rest = page;
    while let Some(at) = rest.find('<') {
        rest = &rest[at..];
        if let Some(behind) = rest.strip_prefix("<!--") {
            rest = &behind[behind.find("-->").ok_or("a comment that stays open")? + 3..];
            continue;
        }
        let end = rest.find('>').ok_or("a tag that stays open")?;
        let tag = &rest[1..end];
        rest = &rest[end + 1..];
        let name = tag.trim_start_matches('/').split([' ', '\n', '/']).next().unwrap_or("");
        if tag.contains('<') || name.is_empty() || tag.matches('"').count() % 2 == 1 {
            return Err(format!("<{tag}>"));
        }
        match tag {
            _ if tag.starts_with('!') || tag.ends_with('/') => (),
            _ if tag.starts_with('/') => match open.pop() {
                Some(last) if last == name => (),
                last => return Err(format!("</{name}> closes {last:?}")),
            },
            _ => open.push(name),
        }
    }
    if open.is_empty() { Ok(()) } else { Err(format!("{open:?} stay open")) }
}

/// A page of a table with numbered names, which is well formed, names no other place and has every state and record.
fn page_of(bytes: &[u8], budget: u64) -> String {
    let table = samples::table(bytes);
    let names = Names::numbered(&table);
    let page = searched(Limits::LARGEST, bytes, &names, budget, 1 << 20, "a table").expect("room enough");
    well_formed(&page).unwrap_or_else(|e| panic!("{e}"));
    let elsewhere = page.replace("http://www.w3.org/2000/svg", "").replace("http://www.w3.org/1999/xlink", "");
    for word in ["http:", "https:", "src=", "href=", "url(", "@import", "<script", "<link"] {
        assert!(!elsewhere.contains(word), "{word}");
    }
    assert!(page.contains("Search ") && (0..table.states.len()).all(|q| page.contains(&format!("<td>q{q}</td>"))));
    let fates = ["kept", "folded", "dead"].map(|fate| page.matches(&format!("<span class=\"fate {fate}\">")).count());
    let mut out = vec![0; table.internals.len() + table.calls.len() + table.returns.len()];
    let (mut list, mut map, mut small) = (vec![0; 1 << 20], vec![0; table.states.len()], vec![0; bytes.len()]);
    basilvault::reduce_within(Limits::LARGEST, bytes, budget, &mut list, &mut map, &mut small).expect("room enough");
    let recorded = basilvault::records_within(Limits::LARGEST, bytes, &map, &mut out).expect("a map that passes");
    assert_eq!(fates, [recorded.kept, recorded.folded, recorded.dead]);
    assert!(page.contains(&format!("<code>{}</code>", map.iter().map(u8::to_string).collect::<Vec<_>>().join(" "))));
    assert!(!page.contains(">into <"), "a folded record says into which");
    page
}

#[test]
fn examples_have_pages() {
    assert!(page_of(&example("t"), 100).contains("4 states became 3"));
    assert!(page_of(&example("named_located"), 100).contains("All 4 states stay: none can be merged"));
    assert!(page_of(&example("unreachable_stack"), 100).contains("<span class=\"fate dead\">"));
    let spent = page_of(&example("hard-12"), 50);
    assert!(spent.contains("Search cut short") && spent.contains("class=\"notice\"") && !spent.contains("came to its end:"));
    assert!(!page_of(&example("hard-12"), 100_000).contains("class=\"notice\""));
    page_of(&example("atlas"), 100);
}

#[test]
fn random_tables_have_pages() {
    for seed in 0..12 {
        page_of(&samples::random(Load { seed, states: 1 + 3 * seed as usize, internals: 2, calls: 2, returns: 1, density: 900 }), 1_000);
    }
}

#[test]
fn a_list_of_moves_has_all_of_them() {
    let bytes = example("unreachable_stack");
    let table = samples::table(&bytes);
    let tops = basilvault::tops(&bytes).expect("a readable table");
    let names = Names::numbered(&table);
    let column = [0, 1, 1, 2].map(|class: u8| (class, class.to_string()));
    let shown = Shown { table: &table, tops: &tops, names: &names, map: None, broken: &[], prefix: "in", column: Some(("class", &column)) };
    let moves = picture::moves(&shown, &crate::draw::arrows::gathered(&table, &tops), false);
    let all =
        ["<tr id=\"in-row0\" data-class=\"0\"><td>0</td><td>q0</td><td>initial</td>", "internals: i0 → q2", "calls: c1 ↓ → q1", "returns: r2 ↑ q0 → q3", "dead returns: r2 ↑ q0 → q0"];
    for said in all.into_iter().chain(["accepting"]) {
        assert!(moves.contains(said), "{said}\n{moves}");
    }
    well_formed(&moves).unwrap_or_else(|e| panic!("{e}"));
}

#[test]
fn who_proposed_a_map_is_told() {
    let bytes = example("t");
    let names = Names::numbered(&samples::table(&bytes));
    let reduction = || Reduction::new(Limits::LARGEST, &bytes, &names, 100, 1_000).expect("room enough");
    let under = |map: &[u8], proposer| reduction().under(Limits::LARGEST, &bytes, map, proposer).map(|it| without_script(&page(&it, "t")));
    let own = under(&[0, 1, 2, 3], Proposer::File("hand.map".into())).expect("a map that passes");
    well_formed(&own).unwrap_or_else(|e| panic!("{e}"));
    for said in ["the map is proposed in hand.map", "All 4 states stay: the map joins none", "it joined 1 pair", "joins 1 pair, into 3 classes"] {
        assert!(own.contains(said), "{said}");
    }
    assert!(!own.contains("came to its end: no map"), "what is said of the search alone");
    let solved = under(&[0, 1, 1, 2], Proposer::Solver("cadical -q".into())).expect("a map that passes");
    assert!(solved.contains("proposed by cadical -q") && solved.contains("4 states became 3") && solved.contains("nothing more can be joined"));
    assert_eq!(under(&[0, 1, 1, 1], Proposer::Search).err(), Some(Refusal::Agreement));
}

#[test]
fn a_refused_map_has_a_page() {
    let bytes = example("t");
    let names = Names::numbered(&samples::table(&bytes));
    let reduction = Reduction::new(Limits::LARGEST, &bytes, &names, 100, 1_000).expect("room enough");
    let of = |map: &[u8], refusal, states: &[u8]| {
        let broken = Broken { text: "it joins <b>".into(), states: states.to_vec() };
        without_script(&refused(&reduction, &Refused { file: "hand.map", map, refusal, broken }, "t"))
    };
    let page = of(&[0, 1, 1, 1], Refusal::Agreement, &[1, 3]);
    well_formed(&page).unwrap_or_else(|e| panic!("{e}"));
    assert!(page.contains("not accepted") && page.contains("Refused 17") && page.contains("it joins &lt;b&gt;") && page.contains("<b>q1 and q3</b>"));
    assert_eq!(page.matches("breaks the map</td>").count(), 2);
    for map in [&[0, 255, 1, 2][..], &[0], &[]] {
        well_formed(&of(map, Refusal::Numbering, &[])).unwrap_or_else(|e| panic!("{e}"));
    }
}

#[test]
fn names_stand_for_themselves() {
    let bytes = example("t");
    let mut names = Names::numbered(&samples::table(&bytes));
    names.states = ["<script>", "a\"b' & c", "\\N --> x", "</td></svg>"].map(String::from).to_vec();
    names.symbols[0] = "<b>&lt;".into();
    let page = searched(Limits::STANDARD, &bytes, &names, 100, 1_000, "<i>").expect("room enough");
    well_formed(&page).unwrap_or_else(|e| panic!("{e}"));
    assert!(!page.contains("<script") && !page.contains("<i>") && !page.contains("<b>&lt;</b>"));
    assert!(page.contains("&lt;script&gt;") && page.contains("<b>&lt;b&gt;&amp;lt;</b>") && page.contains("a&quot;b&#39; &amp; c"));
}

#[test]
fn refusals_are_handed_on() {
    let bytes = example("t");
    let names = Names::numbered(&samples::table(&bytes));
    assert_eq!(searched(Limits::STANDARD, &bytes, &names, 100, 23, "t"), Err(Refusal::ListShort));
    assert_eq!(searched(Limits::STANDARD, &bytes[1..], &names, 100, 1_000, "t"), Err(Refusal::Distances));
}

#[test]
fn what_is_not_well_formed_is_found() {
    for page in ["<p>", "<p></b>", "</p>", "<p><b></p></b>", "<p a=\"></p>", "<p <b></b></p>", "<!-- <p></p>"] {
        assert!(well_formed(page).is_err(), "{page}");
    }
    assert_eq!(well_formed("<!DOCTYPE x><p a=\"1\"><br/>x<b>y</b></p>"), Ok(()));
}
