use reachvolem::{mercator, Options, Refused, Supercluster};
fn main() -> Result<(), Refused> {
    let lng = [4.89, 4.9, 13.4];
    let y = [52.37, 52.38, 52.52].map(mercator::y_of);
    let lamps = Supercluster::load(Options::default(), &lng, &y, &[120, 80, 95])?;
    for place in lamps.get_clusters([-180.0, 0.0, 180.0, 1.0], 5)? {
        let entry = lamps.entry(5, place)?;
        println!("{} lamps, {} Wh", entry.num, entry.energy);
    }
    Ok(())
}
