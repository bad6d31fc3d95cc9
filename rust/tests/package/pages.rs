//! Pages of leaves join to the whole list.

use crate::{built, UNIT};
use reachvolem::{Options, Supercluster};

/// A build, and a cluster of it with many lamps.
fn cluster() -> (Supercluster, u32, u32) {
    let options =
        Options { max_zoom: 6, radius: 200.0, coordinate_system: UNIT, ..Options::default() };
    let lamps = built(options, 500);
    let table = lamps.table(0).unwrap();
    let largest = table.iter().max_by_key(|entry| entry.num).unwrap();
    assert!(largest.num >= 100);
    (lamps, largest.id, largest.num)
}

#[test]
fn pages_join_to_the_whole_list() {
    let (lamps, id, num) = cluster();
    let whole = lamps.get_leaves(id, num, 0).unwrap();
    assert_eq!(whole.len(), num as usize);
    for size in [1, 2, 7, num - 1, num, num + 1, u32::MAX] {
        let pages: Vec<Vec<u32>> =
            lamps.leaf_pages(id, size).collect::<Result<_, _>>().expect("pages");
        assert_eq!(pages.concat(), whole, "pages of {size}");
        assert_eq!(pages.len() as u32, num.div_ceil(size));
        for (number, page) in pages.iter().enumerate() {
            assert_eq!(lamps.leaves_page(id, number as u32, size).as_ref(), Ok(page));
        }
    }
}

#[test]
fn past_the_end() {
    let (lamps, id, num) = cluster();
    for page in [num, num + 1, u32::MAX] {
        assert_eq!(lamps.leaves_page(id, page, 1), Ok(vec![]));
    }
    // The offset of this page is past what a u32 holds.
    assert_eq!(lamps.leaves_page(id, u32::MAX, u32::MAX), Ok(vec![]));
    assert_eq!(lamps.leaves_page(id, 0, 0), Ok(vec![]));
    assert_eq!(lamps.leaf_pages(id, 0).count(), 0);
}
