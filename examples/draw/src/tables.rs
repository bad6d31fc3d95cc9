//! The tables as the lister prints them, and who owns whom.

/// An entry of a table.
#[derive(Clone, Copy, Debug, PartialEq)]
pub struct Entry {
    pub x: f64,
    pub y: f64,
    pub id: u32,
    pub parent: Option<u32>,
    pub num: u32,
    /// In watt-hours.
    pub energy: u64,
}

impl Entry {
    /// Whether this is a cluster, and no lamp.
    pub fn is_cluster(&self) -> bool {
        self.num > 1
    }
}

/// A table.
#[derive(Clone, Debug, PartialEq)]
pub struct Table {
    pub zoom: u32,
    pub entries: Vec<Entry>,
}

impl Table {
    /// How many of its entries are clusters.
    pub fn clusters(&self) -> usize {
        self.entries.iter().filter(|entry| entry.is_cluster()).count()
    }

    /// The energies of its entries, added up.
    pub fn energy(&self) -> u64 {
        self.entries.iter().map(|entry| entry.energy).sum()
    }

    /// The entry that owns one of the finer table before this: the cluster that absorbed it, or where it
    /// was absorbed by none the entry that carries its id on.
    pub fn owner(&self, finer: &Entry) -> Result<&Entry, String> {
        let id = finer.parent.unwrap_or(finer.id);
        let owner = self.entries.iter().find(|entry| entry.id == id);
        owner.ok_or_else(|| format!("nothing in table {} owns the entry {}", self.zoom, finer.id))
    }
}

/// The tables of a listing, the finest first.
pub fn read(text: &str) -> Result<Vec<Table>, String> {
    let mut tables: Vec<Table> = Vec::new();
    for line in text.lines() {
        let (zoom, place, entry) = read_line(line).ok_or_else(|| format!("no entry: {line}"))?;
        match tables.last_mut() {
            Some(table) if table.zoom == zoom => table.entries.push(entry),
            Some(table) if table.zoom != zoom + 1 => return Err(format!("out of turn: {line}")),
            _ => tables.push(Table { zoom, entries: vec![entry] }),
        }
        let places = tables.last().map_or(0, |table| table.entries.len());
        if place + 1 != places {
            return Err(format!("out of place: {line}"));
        }
    }
    if tables.is_empty() {
        return Err("no tables".to_string());
    }
    Ok(tables)
}

/// Zoom, place and entry of a line.
fn read_line(line: &str) -> Option<(u32, usize, Entry)> {
    let fields: Vec<&str> = line.split(' ').collect();
    let [zoom, place, x, y, _, id, parent, num, energy] = fields.try_into().ok()?;
    let bits = |field: &str| u64::from_str_radix(field, 16).ok().map(f64::from_bits);
    let parent = match parent {
        "-" => None,
        _ => Some(parent.parse().ok()?),
    };
    let entry = Entry {
        x: bits(x)?,
        y: bits(y)?,
        id: id.parse().ok()?,
        parent,
        num: num.parse().ok()?,
        energy: energy.parse().ok()?,
    };
    Some((zoom.parse().ok()?, place.parse().ok()?, entry))
}

#[cfg(test)]
mod tests {
    use super::*;

    /// SCOPE's example.
    const LINES: &str = include_str!("../../../crates/lister/stdout");

    #[test]
    fn owners_of_the_example() {
        let tables = read(LINES).unwrap();
        let ids = |at: usize| -> Vec<u32> {
            let finer = &tables[at].entries;
            finer.iter().map(|entry| tables[at + 1].owner(entry).unwrap().id).collect()
        };
        assert_eq!(ids(0), [6, 6, 70, 70]);
        assert_eq!(ids(1), [5, 5]);
        assert_eq!(tables.iter().map(Table::clusters).collect::<Vec<_>>(), [0, 2, 1]);
        assert_eq!(tables.iter().map(Table::energy).collect::<Vec<_>>(), [100; 3]);
    }

    #[test]
    fn an_entry_that_none_absorbs_is_carried_on() {
        let line = "1 0 3fd0000000000000 3fe0000000000000 0 7 - 1 9\n";
        let tables = read(&format!("{line}{}", line.replace("1 0 ", "0 0 "))).unwrap();
        assert_eq!(tables[1].owner(&tables[0].entries[0]).unwrap().id, 7);
    }

    #[test]
    fn what_is_no_listing() {
        for text in ["", "refusal=12\n", "1 0 3fd0 3fe0 0 7 - 1\n", "1 1 3fd0 3fe0 0 7 - 1 9\n"] {
            assert!(read(text).is_err(), "{text}");
        }
        assert!(read(&LINES.replace("0 0 3fd6", "1 2 3fd6")).is_ok());
        assert!(read(&LINES.replace("1 1 3fda", "0 0 3fda")).is_err());
    }
}
