//! The crates by layer: the list `crates.txt`, the tables of `docs/ARCHITECTURE.md`, and a picture of both.

use crate::content;
use std::collections::{BTreeMap, BTreeSet};
use std::fmt::Write;

/// The layers from the bottom, as `docs/ARCHITECTURE.md` has them for headings.
pub const LAYERS: [&str; 7] =
    ["Words", "Meanings", "Tables", "Step", "Calls", "Archives", "Programs"];

/// A crate as a table of `docs/ARCHITECTURE.md` has it.
pub struct Entry {
    pub name: String,
    pub layer: usize,
    pub needs: Vec<String>,
}

/// Each crate of `crates.txt` with its direct dependencies, in their order there.
pub fn listed() -> Vec<(String, Vec<String>)> {
    let text = content("crates.txt");
    let lines = text.lines().filter(|line| !line.starts_with('#'));
    lines
        .filter_map(|line| line.split_once(':'))
        .map(|(name, needs)| {
            let name = name.trim_end_matches(" staticlib");
            (name.to_string(), needs.split_whitespace().map(str::to_string).collect())
        })
        .collect()
}

/// The rows of the tables under the layers' headings.
pub fn described() -> Vec<Entry> {
    let text = content("docs/ARCHITECTURE.md");
    let mut layer = None;
    let mut found = Vec::new();
    for line in text.lines() {
        if let Some(heading) = line.strip_prefix('#') {
            let heading = heading.trim_start_matches('#').trim();
            layer = LAYERS.iter().position(|name| *name == heading);
        }
        let cells: Vec<&str> = line.trim_matches('|').split(" | ").map(str::trim).collect();
        if let (Some(layer), [name, .., needs], true) =
            (layer, cells.as_slice(), line.starts_with("| `"))
        {
            let needs = needs.split('`').filter(|word| !word.trim_matches([' ', '|']).is_empty());
            found.push(Entry {
                name: name.trim_matches('`').to_string(),
                layer,
                needs: needs.map(str::to_string).collect(),
            });
        }
    }
    found
}

const WIDTH: usize = 1400;
const BOX: (usize, usize) = (112, 26);
const GAP: (usize, usize) = (12, 34);
const NAMES: usize = 110;
/// Where a row begins, in hundredths of the space that it leaves: rows of one box would hide the lines between others.
const SHIFTS: [usize; 5] = [50, 30, 70, 40, 60];

struct Picture {
    /// Where the middle of each crate's box is.
    at: BTreeMap<String, (usize, usize)>,
    text: String,
}

/// What a crate reaches by its dependencies' own.
fn reached(name: &str, edges: &BTreeMap<String, Vec<String>>, found: &mut BTreeSet<String>) {
    for need in edges.get(name).into_iter().flatten() {
        if found.insert(need.clone()) {
            reached(need, edges, found);
        }
    }
}

/// A layer's crates in rows, the lowest last: a crate stands above those of its layer that it uses.
fn rows_of(layer: usize, entries: &[Entry], columns: usize) -> Vec<Vec<&str>> {
    let own: Vec<&Entry> = entries.iter().filter(|one| one.layer == layer).collect();
    let mut level: BTreeMap<&str, usize> = BTreeMap::new();
    for _ in &own {
        for one in &own {
            let below = one.needs.iter().filter_map(|need| level.get(&**need)).max();
            level.insert(&one.name, below.map_or(0, |below| below + 1));
        }
    }
    let highest = level.values().max().copied().unwrap_or(0);
    let rows = (0..=highest).rev().map(|at| {
        own.iter().map(|one| &*one.name).filter(|name| level[name] == at).collect::<Vec<_>>()
    });
    rows.flat_map(|row| row.chunks(columns).map(<[&str]>::to_vec).collect::<Vec<_>>()).collect()
}

impl Picture {
    /// One band a layer, the lowest layer last.
    fn bands(entries: &[Entry]) -> Picture {
        let mut picture = Picture { at: BTreeMap::new(), text: String::new() };
        let columns = (WIDTH - NAMES) / (BOX.0 + GAP.0);
        let mut top = 12;
        for (layer, title) in LAYERS.iter().enumerate().rev() {
            let rows = rows_of(layer, entries, columns);
            let height = rows.len() * (BOX.1 + GAP.1) - GAP.1 / 2;
            picture.band(title, top, height);
            for (r, row) in rows.iter().enumerate() {
                let pitch = ((WIDTH - NAMES) / row.len()).min(2 * BOX.0).max(BOX.0 + GAP.0);
                let spare = WIDTH - NAMES - row.len() * pitch;
                let left = NAMES + spare * SHIFTS[r % SHIFTS.len()] / 100 + (pitch - BOX.0) / 2;
                let y = top + GAP.1 / 4 + r * (BOX.1 + GAP.1) + BOX.1 / 2;
                for (c, name) in row.iter().enumerate() {
                    let x = left + c * pitch + BOX.0 / 2;
                    picture.at.insert(name.to_string(), (x, y));
                }
            }
            top += height + 24;
        }
        picture.at.insert(String::new(), (WIDTH, top));
        picture
    }

    fn band(&mut self, title: &str, top: usize, height: usize) {
        let middle = top + height / 2 + 5;
        let wide = WIDTH - 8;
        writeln!(
            self.text,
            r#"<rect class="band" x="4" y="{top}" width="{wide}" height="{height}" rx="6"/><text class="layer" x="16" y="{middle}">{title}</text>"#
        )
        .expect("text");
    }

    /// A line from a crate down to one that it depends on: strong, unless another dependency implies it.
    fn edge(&mut self, from: &str, to: &str, implied: bool) {
        let (Some(&(x, y)), Some(&(u, v))) = (self.at.get(from), self.at.get(to)) else {
            return;
        };
        let (y, v) = (y + BOX.1 / 2, v - BOX.1 / 2);
        let (bend, class) = ((y + v) / 2, if implied { "implied" } else { "edge" });
        writeln!(
            self.text,
            r#"<path class="{class}" d="M{x} {y}C{x} {bend} {u} {bend} {u} {v}"><title>{from} uses {to}</title></path>"#
        )
        .expect("text");
    }

    fn boxes(&mut self) {
        let at = self.at.clone();
        for (name, (x, y)) in at.iter().filter(|(name, _)| !name.is_empty()) {
            let (left, top, base) = (x - BOX.0 / 2, y - BOX.1 / 2, y + 5);
            let (wide, high) = BOX;
            writeln!(
                self.text,
                r#"<rect class="crate" x="{left}" y="{top}" width="{wide}" height="{high}" rx="4"/><text x="{x}" y="{base}">{name}</text>"#
            )
            .expect("text");
        }
    }
}

const STYLE: &str = "text{font:13px system-ui,sans-serif;text-anchor:middle;fill:#17202a}\
.layer{font-weight:600;text-anchor:start}.band{fill:#f4f6f8}.crate{fill:#fff;stroke:#5d6d7e}\
path{fill:none}.edge{stroke:#1f618d;stroke-width:1.1;opacity:.75}.implied{stroke:#aab7b8;stroke-width:.6;opacity:.5}";

/// `docs/layers.svg`.
pub fn picture() -> String {
    let entries = described();
    let edges: BTreeMap<String, Vec<String>> = listed().into_iter().collect();
    let mut picture = Picture::bands(&entries);
    let (wide, high) = picture.at[""];
    for (name, needs) in &edges {
        for need in needs {
            let implied = needs.iter().filter(|other| *other != need).any(|other| {
                let mut found = BTreeSet::new();
                reached(other, &edges, &mut found);
                found.contains(need)
            });
            picture.edge(name, need, implied);
        }
    }
    picture.boxes();
    format!(
        "<svg xmlns=\"http://www.w3.org/2000/svg\" viewBox=\"0 0 {wide} {high}\" role=\"img\">\n\
         <title>The crates by layer; a line leads from a crate down to one that it uses</title>\n\
         <style>{STYLE}</style>\n<rect width=\"{wide}\" height=\"{high}\" fill=\"#fff\"/>\n{}</svg>\n",
        picture.text
    )
}
