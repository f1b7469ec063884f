//! The table of wrong rules in docs/PROMISES.md.

use second::script::MEMORY_FRAMES;

const HEAD: &str = "| Edit: the wrong rule | Calls | What is then false |\n|---|---|---|\n";
const P_IS: &str = "P stands for the four calls ";
const FRAMES_ARE: &str = "with M = ";

/// A wrong rule, the calls that show it in a memory of so many frames, and the name of what is then false.
pub struct Row {
    pub name: String,
    pub frames: usize,
    pub calls: Vec<String>,
    pub broken: String,
}

/// The rows of the table, of which there has to be one.
pub fn rows(document: &str) -> Vec<Row> {
    let p = four_calls(document);
    let (_, table) = document
        .split_once(HEAD)
        .expect("the head of the table is in the document");
    let lines = table.lines().take_while(|line| line.starts_with('|'));
    let rows: Vec<Row> = lines.map(|line| row(line, &p)).collect();
    assert!(!rows.is_empty(), "the table has no row");
    rows
}

/// The calls that P stands for.
fn four_calls(document: &str) -> Vec<String> {
    let unwrapped = document.replace('\n', " ");
    let (_, after) = unwrapped.split_once(P_IS).expect("P is explained");
    let (cell, _) = after.split_once(':').expect("the calls end at a colon");
    let calls = calls(cell, &[]);
    assert_eq!(calls.len(), 4, "{cell}");
    calls
}

fn row(line: &str, p: &[String]) -> Row {
    let cells: Vec<&str> = line.trim_matches('|').split('|').map(str::trim).collect();
    let [edit, list, what] = cells[..] else {
        panic!("not three cells: {line}");
    };
    let named = edit.strip_prefix('`').and_then(|it| it.split_once("`: "));
    let (name, _) = named.unwrap_or_else(|| panic!("no name and rule: {line}"));
    let broken = what.split_once(':').map_or(what, |(name, _)| name);
    let (frames, list) = frames(list);
    Row {
        name: name.to_owned(),
        frames,
        calls: calls(list, p),
        broken: broken.to_owned(),
    }
}

/// The frames of memory, which are the script's where a cell names no others; and the list.
fn frames(cell: &str) -> (usize, &str) {
    let Some(named) = cell.strip_prefix(FRAMES_ARE) else {
        return (MEMORY_FRAMES, cell);
    };
    let (number, list) = named.split_once(": ").expect("a colon before the calls");
    (number.parse().expect("a number of frames"), list)
}

/// The calls of a list, in which the four may be written P.
fn calls(list: &str, p: &[String]) -> Vec<String> {
    let call = |item: &str| match item.strip_prefix('`').and_then(|it| it.strip_suffix('`')) {
        Some(call) => vec![call.to_owned()],
        None if item == "P" => p.to_vec(),
        None => panic!("not a call: {item:?}"),
    };
    list.split(", ").flat_map(call).collect()
}
