//! A build that owns its columns.

use crate::{
    lent::{self, Columns, Given, State, Written, ZOOMS},
    Entry, Found, LeafPages, Options, Refused, Tables, TileItem,
};

/// Lamps in clusters for every zoom. Every question may be asked at any time and from several threads; after
/// [`load`](Supercluster::load) nothing changes but energies, by [`post`](Supercluster::post).
///
/// ```
/// use reachvolem::{CoordinateSystem, DataRange, Options, Supercluster};
///
/// let range = DataRange { max_x: 400.0, max_y: 400.0, ..DataRange::default() };
/// let plan = CoordinateSystem::Cartesian { range };
/// let options = Options { max_zoom: 2, coordinate_system: plan, ..Options::default() };
/// let lamps = Supercluster::load(options, &[100.0, 104.0, 300.0], &[80.0, 80.0, 80.0], &[10, 20, 30])?;
///
/// // The first two are near each other at zoom 2, the third is by itself.
/// let table = lamps.table(2)?;
/// assert_eq!(table.iter().map(|entry| (entry.num, entry.energy)).collect::<Vec<_>>(), [(2, 30), (1, 30)]);
/// assert_eq!(lamps.owners(2)?, [0, 0, 1]);
/// assert_eq!((lamps.owner(1, 2)?, lamps.owner(1, 3)?), (0, 1));
/// assert_eq!(range.denormalize(table[0].x), 102.0);
/// assert_eq!(lamps.get_cluster_expansion_zoom(table[0].id)?, 3);
/// # Ok::<(), reachvolem::Refused>(())
/// ```
#[derive(Clone, Debug)]
pub struct Supercluster {
    state: State,
    columns: Owned,
}

/// Columns of one's own, as they are lent.
#[derive(Clone, Debug)]
struct Owned {
    x: Vec<f64>,
    y: Vec<f64>,
    seen: Vec<u8>,
    id: Vec<u32>,
    parent: Vec<u32>,
    num: Vec<u32>,
    energy: Vec<u64>,
    ids: Vec<u32>,
    coords: Vec<f64>,
    near: Vec<u32>,
    owners: Vec<u32>,
}

impl Owned {
    /// Zeros for so many entries. The system hands them out page by page, so that a page that is never written to takes no
    /// memory.
    fn zeros(entries: usize) -> Owned {
        Owned {
            x: vec![0.0; entries],
            y: vec![0.0; entries],
            seen: vec![0; entries],
            id: vec![0; entries],
            parent: vec![0; entries],
            num: vec![0; entries],
            energy: vec![0; entries],
            ids: vec![0; entries],
            coords: vec![0.0; 2 * entries],
            near: vec![0; entries],
            owners: vec![0; entries],
        }
    }

    /// Lent to a build.
    fn written(&mut self) -> Written<'_> {
        let Owned { x, y, seen, id, parent, num, energy, ids, coords, near, owners } = self;
        Written { x, y, seen, id, parent, num, energy, ids, coords, near, owners }
    }

    /// Lent to a question.
    fn lent(&self) -> Columns<'_> {
        let Owned { x, y, seen, id, parent, num, energy, ids, coords, owners, .. } = self;
        Columns { x, y, seen, id, parent, num, energy, ids, coords, owners }
    }

    /// Gives back what lies behind so many entries, and the working room. The owners stay: there is one of each lamp for each
    /// table.
    fn shorten(&mut self, entries: usize) {
        cut(&mut self.x, entries);
        cut(&mut self.y, entries);
        cut(&mut self.seen, entries);
        cut(&mut self.id, entries);
        cut(&mut self.parent, entries);
        cut(&mut self.num, entries);
        cut(&mut self.energy, entries);
        cut(&mut self.ids, entries);
        cut(&mut self.coords, 2 * entries);
        cut(&mut self.near, 0);
    }
}

/// The first so many numbers of a column, and no room for more.
fn cut<T>(column: &mut Vec<T>, length: usize) {
    column.truncate(length);
    column.shrink_to_fit();
}

impl Supercluster {
    /// Builds the tables of the lamps (`xs[i]`, `ys[i]`) with so many watt-hours each. With longitudes ys are projected
    /// already. Refused 1, 2, 3 or 15.
    pub fn load(
        options: Options,
        xs: &[f64],
        ys: &[f64],
        energies: &[u64],
    ) -> Result<Supercluster, Refused> {
        let given = Given { xs, ys, energies };
        // Without room first, so that a refusal by what is given is told before anything is set aside. Lamps that are taken
        // are refused 4 here, as there is one at least.
        let mut built = Supercluster::unbuilt(options, 0);
        match built.build(&given) {
            Err(Refused::Tables) => {}
            refused => return refused.map(|()| built),
        }
        built = Supercluster::unbuilt(options, lent::entries_needed(&options, xs.len()));
        built.build(&given)?;
        // The count is at most 1,048,576.
        built.state.count = xs.len() as u32;
        built.columns.shorten(built.state.lens.iter().map(|length| *length as usize).sum());
        Ok(built)
    }

    /// No tables, and room for so many entries.
    fn unbuilt(options: Options, entries: usize) -> Supercluster {
        let state = State { options, count: 0, starts: [0; ZOOMS], lens: [0; ZOOMS] };
        Supercluster { state, columns: Owned::zeros(entries) }
    }

    /// Builds the tables in the columns, and keeps where each starts.
    fn build(&mut self, given: &Given) -> Result<(), Refused> {
        let State { options, starts, lens, .. } = &mut self.state;
        lent::load(options, given, self.columns.written(), starts, lens).accepted().map(|_| ())
    }

    /// Replaces the watt-hours of a lamp in every table, without a new build: all is then as if the lamp had been loaded with
    /// these. A lamp that the build does not have is refused 16, more than 2^40 watt-hours are refused 15, and a refusal changes
    /// nothing.
    ///
    /// ```
    /// # use reachvolem::{Options, Refused, Supercluster};
    /// # let mut lamps = Supercluster::load(Options::default(), &[0.0, 0.01], &[0.5; 2], &[7, 9])?;
    /// lamps.post(1, 20)?;
    /// assert_eq!((lamps.entry(17, 1)?.energy, lamps.entry(0, 0)?.energy), (20, 27));
    /// assert_eq!(lamps.post(2, 20), Err(Refused::Lamp));
    /// # Ok::<(), Refused>(())
    /// ```
    pub fn post(&mut self, lamp: u32, energy: u64) -> Result<(), Refused> {
        let Owned { energy: sums, owners, .. } = &mut self.columns;
        match lent::post(&self.state, sums, owners, lamp, energy).accepted() {
            // The reply does not carry the lamp.
            Err(Refused::Energy { .. }) => Err(Refused::Energy { at: lamp as usize }),
            told => told.map(|_| ()),
        }
    }

    /// What is known of the build beside its columns, to be kept with them.
    pub fn state(&self) -> &State {
        &self.state
    }

    /// The columns of its tables, the finest first, and that of the owners.
    pub fn columns(&self) -> Columns<'_> {
        self.columns.lent()
    }

    /// Its tables, borrowed.
    pub fn tables(&self) -> Tables<'_> {
        Tables::lent(&self.state, self.columns())
    }

    /// The options of the build.
    pub fn options(&self) -> &Options {
        &self.state.options
    }

    /// How many lamps it has.
    pub fn count(&self) -> u32 {
        self.state.count
    }

    /// The zoom whose table is asked where this zoom is given: at least `min_zoom`, at most `max_zoom + 1`.
    pub fn zoom_used(&self, zoom: u8) -> u8 {
        self.options().zoom_used(zoom)
    }
}

/// The questions, as [`Tables`] has them.
impl Supercluster {
    /// The places in a box, in the table of the zoom used: see [`Tables::get_clusters`].
    pub fn get_clusters(&self, bbox: [f64; 4], zoom: u8) -> Result<Vec<u32>, Refused> {
        self.tables().get_clusters(bbox, zoom)
    }

    /// The same by testing at most so many slots: see [`Tables::get_clusters_within_effort`].
    ///
    /// ```
    /// # use reachvolem::{Options, Supercluster};
    /// # let lamps = Supercluster::load(Options::default(), &[0.0, 90.0], &[0.5, 0.5], &[1, 2])?;
    /// let found = lamps.get_clusters_within_effort([-180.0, 0.0, 180.0, 1.0], 17, 1)?;
    /// assert_eq!((found.places.len(), found.tested, found.stopped), (1, 1, true));
    /// # Ok::<(), reachvolem::Refused>(())
    /// ```
    pub fn get_clusters_within_effort(
        &self,
        bbox: [f64; 4],
        zoom: u8,
        allowance: usize,
    ) -> Result<Found, Refused> {
        self.tables().get_clusters_within_effort(bbox, zoom, allowance)
    }

    /// The places at most `radius` from (x, y), all in table units: see [`Tables::ring`].
    pub fn ring(&self, zoom: u8, x: f64, y: f64, radius: f64) -> Result<Vec<u32>, Refused> {
        self.tables().ring(zoom, x, y, radius)
    }

    /// The places of a cluster's children, in the table of [`origin_zoom`](Supercluster::origin_zoom) of its id.
    pub fn get_children(&self, cluster_id: u32) -> Result<Vec<u32>, Refused> {
        self.tables().get_children(cluster_id)
    }

    /// The ids of a cluster's lamps: at most `limit` of them, after the first `offset`.
    ///
    /// **Limit 0 lists nothing**, where the original lists all. All lamps come with the cluster's num as limit.
    ///
    /// ```
    /// # use reachvolem::{Options, Supercluster};
    /// # let lamps = Supercluster::load(Options::default(), &[0.0, 0.01, 0.02], &[0.5; 3], &[1, 2, 3])?;
    /// let all = lamps.table(0)?[0];
    /// assert_eq!(lamps.get_leaves(all.id, all.num, 0)?, [0, 1, 2]);
    /// assert_eq!(lamps.get_leaves(all.id, 2, 1)?, [1, 2]);
    /// assert_eq!(lamps.get_leaves(all.id, 0, 0)?, []);
    /// # Ok::<(), reachvolem::Refused>(())
    /// ```
    pub fn get_leaves(
        &self,
        cluster_id: u32,
        limit: u32,
        offset: u32,
    ) -> Result<Vec<u32>, Refused> {
        self.tables().get_leaves(cluster_id, limit, offset)
    }

    /// A page of a cluster's lamps, counted from 0: see [`Tables::leaves_page`].
    pub fn leaves_page(&self, cluster_id: u32, page: u32, size: u32) -> Result<Vec<u32>, Refused> {
        self.tables().leaves_page(cluster_id, page, size)
    }

    /// All pages of a cluster's lamps, one after the other.
    ///
    /// ```
    /// # use reachvolem::{Options, Supercluster};
    /// # let lamps = Supercluster::load(Options::default(), &[0.0, 0.01, 0.02], &[0.5; 3], &[1, 2, 3])?;
    /// let id = lamps.table(0)?[0].id;
    /// let pages = lamps.leaf_pages(id, 2).collect::<Result<Vec<_>, _>>()?;
    /// assert_eq!(pages, [vec![0, 1], vec![2]]);
    /// # Ok::<(), reachvolem::Refused>(())
    /// ```
    pub fn leaf_pages(&self, cluster_id: u32, size: u32) -> LeafPages<'_> {
        self.tables().leaf_pages(cluster_id, size)
    }

    /// The zoom at which a cluster falls apart.
    pub fn get_cluster_expansion_zoom(&self, cluster_id: u32) -> Result<u8, Refused> {
        self.tables().get_cluster_expansion_zoom(cluster_id)
    }

    /// The items of the tile (z, x, y).
    ///
    /// ```
    /// # use reachvolem::{Options, Supercluster, TileItem};
    /// # let lamps = Supercluster::load(Options::default(), &[90.0], &[0.25], &[1])?;
    /// assert_eq!(lamps.get_tile(1, 1, 0)?, [TileItem { place: 0, x: 256, y: 256 }]);
    /// # Ok::<(), reachvolem::Refused>(())
    /// ```
    pub fn get_tile(&self, z: u8, x: u32, y: u32) -> Result<Vec<TileItem>, Refused> {
        self.tables().get_tile(z, x, y)
    }

    /// How many lamps the entries have whose centre lies in the tile (z, x, y): see [`Tables::tally`].
    pub fn tally(&self, z: u8, x: u32, y: u32) -> Result<u64, Refused> {
        self.tables().tally(z, x, y)
    }

    /// The table that the id of a cluster leads to, which has its children; none for a lamp's id.
    pub fn origin_zoom(&self, cluster_id: u32) -> Option<u8> {
        self.tables().origin_zoom(cluster_id)
    }

    /// The place in that table of the entry that the cluster began with; none for a lamp's id.
    pub fn origin_place(&self, cluster_id: u32) -> Option<u32> {
        self.tables().origin_place(cluster_id)
    }

    /// The entry at a place of the table of the zoom used. A place that the table does not have is refused 6.
    pub fn entry(&self, zoom: u8, place: u32) -> Result<Entry, Refused> {
        self.tables().entry(zoom, place)
    }

    /// The entries of the table of the zoom used, in the order of their places.
    pub fn table(&self, zoom: u8) -> Result<Vec<Entry>, Refused> {
        self.tables().table(zoom)
    }

    /// The place of a lamp's owner in the table of the zoom used: the one entry that the lamp is counted in. A lamp that the
    /// build does not have is refused 16.
    ///
    /// ```
    /// # use reachvolem::{Options, Refused, Supercluster};
    /// # let lamps = Supercluster::load(Options::default(), &[0.0, 90.0, 90.01], &[0.5; 3], &[1, 2, 3])?;
    /// assert_eq!(lamps.owner(2, 5)?, lamps.owner(1, 5)?);
    /// assert_ne!(lamps.owner(2, 5)?, lamps.owner(0, 5)?);
    /// assert_eq!(lamps.owner(3, 5), Err(Refused::Lamp));
    /// # Ok::<(), Refused>(())
    /// ```
    pub fn owner(&self, lamp: u32, zoom: u8) -> Result<u32, Refused> {
        self.tables().owner(lamp, zoom)
    }

    /// The place of each lamp's owner in the table of the zoom used: see [`Tables::owners`].
    pub fn owners(&self, zoom: u8) -> Result<Vec<u32>, Refused> {
        self.tables().owners(zoom)
    }
}
