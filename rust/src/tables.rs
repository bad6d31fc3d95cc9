//! The tables of a build, borrowed, and what is asked of them.

use crate::{
    lent::{self, Asked, Columns, State, ZOOMS},
    room::{listed, listed_in, FIRST_ROOM},
    Entry, LeafPages, Options, Refused,
};

/// An item of a tile.
#[derive(Clone, Copy, Debug, PartialEq, Eq)]
pub struct TileItem {
    /// The place of its entry in the table of the zoom used.
    pub place: u32,
    /// x within the tile, which is `extent` wide.
    pub x: i64,
    /// y within the tile.
    pub y: i64,
}

/// What a box found within an effort.
#[derive(Clone, Debug, PartialEq, Eq)]
pub struct Found {
    /// The places found.
    pub places: Vec<u32>,
    /// How many slots were tested.
    pub tested: usize,
    /// Whether a test was left.
    pub stopped: bool,
}

/// The tables of a build: columns and a state that are lent, by [`Supercluster::tables`](crate::Supercluster::tables) or
/// from elsewhere. Nothing is trusted in them: a question over columns that do not fit together is refused 11.
///
/// ```
/// use reachvolem::{Options, Refused, Supercluster, Tables};
///
/// let lamps = Supercluster::load(Options::default(), &[0.0, 0.01], &[0.5, 0.5], &[1, 2])?;
/// // Such a state and such columns may come from a file or from another process.
/// let (state, columns) = (*lamps.state(), lamps.columns());
/// let lent = Tables::lent(&state, columns);
/// assert_eq!(lent.tally(0, 0, 0)?, 2);
///
/// let mut spoiled = state;
/// spoiled.lens[0] = 3;
/// assert_eq!(Tables::lent(&spoiled, columns).tally(0, 0, 0), Err(Refused::Spoiled));
/// # Ok::<(), Refused>(())
/// ```
#[derive(Clone, Copy, Debug)]
pub struct Tables<'a> {
    asked: Asked<'a>,
}

impl<'a> Tables<'a> {
    /// The tables that this state finds in these columns.
    pub fn lent(state: &'a State, columns: Columns<'a>) -> Tables<'a> {
        Tables { asked: Asked::of(state, columns) }
    }

    /// The layer below, for columns of one's own to write the answers in.
    pub fn asked(&self) -> &Asked<'a> {
        &self.asked
    }

    /// The options of the build.
    pub fn options(&self) -> &Options {
        &self.asked.options
    }

    /// How many lamps the build has.
    pub fn count(&self) -> u32 {
        self.asked.count
    }

    /// The zoom whose table is asked where this zoom is given: at least `min_zoom`, at most `max_zoom + 1`.
    pub fn zoom_used(&self, zoom: u8) -> u8 {
        self.options().zoom_used(zoom)
    }

    /// The places, in the table of the zoom used, of the entries in a box: west, least y, east, greatest y. With longitudes a
    /// box may go across the date line, and its ys are projected already. On a plan all four are the plan's.
    pub fn get_clusters(&self, bbox: [f64; 4], zoom: u8) -> Result<Vec<u32>, Refused> {
        listed(|out| self.asked.in_box(zoom, bbox, out))
    }

    /// The same by testing at most so many slots. What is found begins the list of [`get_clusters`](Tables::get_clusters),
    /// and is all of it unless it stopped.
    pub fn get_clusters_within_effort(
        &self,
        bbox: [f64; 4],
        zoom: u8,
        allowance: usize,
    ) -> Result<Found, Refused> {
        let ask = |room| {
            let mut places = vec![0; room];
            let told = self.asked.box_effort(zoom, bbox, allowance, &mut places);
            (told.reply, Found { places, tested: told.tested, stopped: told.stopped })
        };
        let (length, mut found) = listed_in(FIRST_ROOM.min(allowance), ask)?;
        found.places.truncate(length);
        Ok(found)
    }

    /// The places, in the table of the zoom used, of the entries at most `radius` from (x, y), all in table units.
    pub fn ring(&self, zoom: u8, x: f64, y: f64, radius: f64) -> Result<Vec<u32>, Refused> {
        listed(|out| self.asked.ring(zoom, [x, y, radius], out))
    }

    /// The places of a cluster's children, in the table of [`origin_zoom`](Tables::origin_zoom) of its id.
    pub fn get_children(&self, cluster_id: u32) -> Result<Vec<u32>, Refused> {
        listed(|out| self.asked.children(cluster_id, out))
    }

    /// The ids of a cluster's lamps: at most `limit` of them, after the first `offset`. **Limit 0 lists nothing**; all lamps
    /// come with the cluster's num as limit.
    pub fn get_leaves(
        &self,
        cluster_id: u32,
        limit: u32,
        offset: u32,
    ) -> Result<Vec<u32>, Refused> {
        listed(|out| self.asked.leaves(cluster_id, limit, offset, out))
    }

    /// A page of a cluster's lamps, counted from 0: `size` of them after the pages before it. Past the last lamp it is empty.
    pub fn leaves_page(&self, cluster_id: u32, page: u32, size: u32) -> Result<Vec<u32>, Refused> {
        // An offset past u32's is past the last lamp, and so is u32's largest.
        self.get_leaves(cluster_id, size, page.saturating_mul(size))
    }

    /// All pages of a cluster's lamps, one after the other: joined they are the whole list.
    pub fn leaf_pages(&self, cluster_id: u32, size: u32) -> LeafPages<'a> {
        LeafPages::new(*self, cluster_id, size)
    }

    /// The zoom at which a cluster falls apart.
    pub fn get_cluster_expansion_zoom(&self, cluster_id: u32) -> Result<u8, Refused> {
        // The zoom is at most max_zoom + 1, which is at most 31.
        self.asked.expansion_zoom(cluster_id).accepted().map(|zoom| zoom as u8)
    }

    /// The items of the tile (z, x, y).
    pub fn get_tile(&self, z: u8, x: u32, y: u32) -> Result<Vec<TileItem>, Refused> {
        let ask = |room| {
            let (mut places, mut px, mut py) = (vec![0; room], vec![0; room], vec![0; room]);
            (self.asked.tile((z, x, y), &mut places, &mut px, &mut py), (places, px, py))
        };
        let (length, (places, px, py)) = listed_in(FIRST_ROOM, ask)?;
        let items = places.into_iter().zip(px.into_iter().zip(py));
        Ok(items.take(length).map(|(place, (x, y))| TileItem { place, x, y }).collect())
    }

    /// How many lamps the entries have whose centre lies in the tile (z, x, y). All tiles of a zoom come to the number of
    /// lamps.
    pub fn tally(&self, z: u8, x: u32, y: u32) -> Result<u64, Refused> {
        self.asked.tally((z, x, y)).accepted().map(|lamps| lamps as u64)
    }

    /// The table that the id of a cluster leads to, which has its children; none for a lamp's id.
    pub fn origin_zoom(&self, cluster_id: u32) -> Option<u8> {
        cluster_id.checked_sub(self.count()).map(|rest| (rest % 32) as u8)
    }

    /// The place in that table of the entry that the cluster began with; none for a lamp's id.
    pub fn origin_place(&self, cluster_id: u32) -> Option<u32> {
        cluster_id.checked_sub(self.count()).map(|rest| rest / 32)
    }

    /// The entry at a place of the table of the zoom used. A place that the table does not have is refused 6.
    pub fn entry(&self, zoom: u8, place: u32) -> Result<Entry, Refused> {
        let mut entry = lent::Entry::default();
        self.asked.entry(self.zoom_used(zoom), place, &mut entry).accepted()?;
        Ok(entry.into())
    }

    /// The entries of the table of the zoom used, in the order of their places.
    pub fn table(&self, zoom: u8) -> Result<Vec<Entry>, Refused> {
        let zoom = self.zoom_used(zoom);
        // Where the first entry is not refused, the state is sound: each table lies within the columns, and has an entry.
        self.entry(zoom, 0)?;
        let start = at(self.asked.starts, zoom);
        let positions = start..start + at(self.asked.lens, zoom);
        Ok(positions.map(|at| Entry::at(&self.asked.columns, at)).collect())
    }

    /// The place of a lamp's owner in the table of the zoom used: the one entry that the lamp is counted in. A lamp that the
    /// build does not have is refused 16.
    pub fn owner(&self, lamp: u32, zoom: u8) -> Result<u32, Refused> {
        // A place that is answered is one of a table, so that it is below N.
        self.asked.owner(lamp, zoom).accepted().map(|place| place as u32)
    }

    /// The same of every lamp, in their order.
    pub fn owners(&self, zoom: u8) -> Result<Vec<u32>, Refused> {
        // Where the first lamp's owner is not refused, the state is sound and the column has N places for each table, the
        // finest first.
        self.owner(0, zoom)?;
        let (zoom, count) = (self.zoom_used(zoom), self.count() as usize);
        let part = usize::from(self.zoom_used(u8::MAX) - zoom) * count;
        let owners = &self.asked.columns.owners[part..part + count];
        let length = at(self.asked.lens, zoom);
        match owners.iter().all(|place| (*place as usize) < length) {
            true => Ok(owners.to_vec()),
            false => Err(Refused::Spoiled),
        }
    }
}

/// What a state has for a zoom.
fn at(words: &[u32; ZOOMS], zoom: u8) -> usize {
    words[usize::from(zoom)] as usize
}
