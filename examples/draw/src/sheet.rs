//! The whole picture: the panels in two columns, with a line that says how to read them.

use crate::{
    panel::{kilowatt_hours, Frame, Panel},
    tables::Table,
};
use std::fmt::Write;

/// How wide a panel is, and the space around it.
const PANEL: f64 = 480.0;
const MARGIN: f64 = 16.0;
const TITLE: f64 = 28.0;
const LEGEND: f64 = 34.0;
const COLUMNS: usize = 2;

const STYLE: &str = "\
text{font-family:Helvetica,Arial,'DejaVu Sans',sans-serif;fill:#2b2620}\
.title{font-size:15px;font-weight:600}\
.legend{font-size:12px;fill:#6b655b}\
.count{font-size:10px;text-anchor:middle;paint-order:stroke;stroke:#f8d587;stroke-width:2.5px;stroke-linejoin:round}\
.energy{font-size:8px;text-anchor:middle;fill:#6b4a10;paint-order:stroke;stroke:#f8d587;stroke-width:2px;stroke-linejoin:round}\
.beside{font-size:9px;paint-order:stroke;stroke:#fff;stroke-width:2.5px;stroke-linejoin:round}\
.owner{fill:none;stroke:#8b93a1;stroke-width:.8}\
.finer{fill:#9aa1ad}\
.lamp{fill:#26364d}\
.cluster{fill:#f6c453;fill-opacity:.72;stroke:#a86f12;stroke-width:1}";

const HOW_TO_READ: &str = "Point: a lamp. Circle: a cluster with its number of lamps, which its area \
                           grows with, and its kWh. Line: from an entry of the finer table to the one \
                           that owns it.";

/// The picture of these tables, the finest first.
pub fn picture(tables: &[Table]) -> Result<String, String> {
    let frame = Frame::around(tables, PANEL);
    let columns = COLUMNS.min(tables.len());
    let rows = tables.len().div_ceil(columns);
    let [wide, high] = [MARGIN + PANEL, MARGIN + TITLE + frame.height];
    let width = MARGIN + wide * columns as f64;
    let height = high * rows as f64 + LEGEND;
    let mut svg = format!(
        "<svg xmlns=\"http://www.w3.org/2000/svg\" width=\"{width:.0}\" height=\"{height:.0}\" \
         viewBox=\"0 0 {width:.0} {height:.0}\">\n<style>{STYLE}</style>\n\
         <rect width=\"100%\" height=\"100%\" fill=\"#f7f5f0\"/>\n"
    );
    for (at, table) in tables.iter().enumerate() {
        let [column, row] = [at % columns, at / columns].map(|n| n as f64);
        let [x, y] = [MARGIN + wide * column, MARGIN + TITLE + high * row];
        let finer = at.checked_sub(1).map(|before| &tables[before]);
        let panel = Panel { table, finer, frame: &frame };
        let title = title(table);
        let drawn = panel.drawn()?;
        writeln!(
            svg,
            "<g transform=\"translate({x:.0} {y:.0})\">\n\
             <text class=\"title\" x=\"2\" y=\"-9\">{title}</text>\n{drawn}</g>"
        )
        .expect("a string takes any line");
    }
    let foot = height - 13.0;
    svg += &format!("<text class=\"legend\" x=\"{MARGIN}\" y=\"{foot:.0}\">{HOW_TO_READ}</text>\n");
    Ok(svg + "</svg>\n")
}

/// `zoom 3: 42 entries, 17 clusters, 31.4 kWh`.
fn title(table: &Table) -> String {
    let entries = counted(table.entries.len(), "entry", "entries");
    let clusters = counted(table.clusters(), "cluster", "clusters");
    format!("zoom {}: {entries}, {clusters}, {} kWh", table.zoom, kilowatt_hours(table.energy()))
}

fn counted(count: usize, one: &str, many: &str) -> String {
    format!("{count} {}", if count == 1 { one } else { many })
}
