//! Every lamp and every zoom of builds, each loaded by the port.

use super::{beyond, differs};
use crate::{questions::port::Port, report::Group};
use asked::Build;
use questions::{climbed, Refusal, State};

/// Up to so many lamps every zoom is asked that there is a number for; above, the built ones and some beside them.
const FEW: u32 = 8;

/// What was compared so far.
pub struct Builds {
    climbed: Group,
    listed: Group,
    beyond: Group,
    short: Group,
    builds: usize,
}

impl Builds {
    pub fn new() -> Builds {
        Builds {
            climbed: Group::new("owners, every lamp and zoom beside the climb"),
            listed: Group::new("owners, every lamp and table beside the Rust's leaves"),
            beyond: Group::new("owners, lamps that a build does not have"),
            short: Group::new("owners, a column one place short"),
            builds: 0,
        }
    }

    /// One build.
    pub fn compare(&mut self, build: &Build) {
        let port = match Port::loaded(build) {
            Ok(port) => port,
            Err(difference) => {
                return self.climbed.compare(|| build.name(), Some(difference));
            }
        };
        self.builds += 1;
        // A copy has no room behind it, so that the address sanitizer sees its end.
        let owners = port.owners().to_vec();
        let mut longer = owners.clone();
        longer.extend([u32::MAX, 0, 1]);
        let climbed = climbed(&build.state, &build.columns.lent()).unwrap_or_default();
        for zoom in zooms(&port.state) {
            let used = port.state.zoom_used(zoom);
            let part = (port.state.finest() - used) * port.state.count as usize;
            let about = |lamp: u32| format!("{}, lamp {lamp}, zoom {zoom}", build.name());
            for lamp in 0..port.state.count {
                let at = part + lamp as usize;
                // A column of a judge that does not have the lamp is a difference.
                let place = |column: &[u32]| Ok(column.get(at).map_or(u64::MAX, |at| (*at).into()));
                let column = if lamp % 2 == 0 { &owners } else { &longer };
                let difference = differs(place(&climbed), &port.state, column, lamp, zoom);
                self.climbed.compare(|| about(lamp), difference);
                if used == usize::from(zoom) {
                    let listed = place(&build.listed);
                    let difference = differs(listed, &port.state, &owners, lamp, zoom);
                    self.listed.compare(|| about(lamp), difference);
                }
            }
            for lamp in beyond(port.state.count) {
                let refused = Err(Refusal::Lamp);
                let difference = differs(refused, &port.state, &owners, lamp, zoom);
                self.beyond.compare(|| about(lamp), difference);
            }
            self.short(&port.state, &owners, zoom, about);
        }
    }

    /// A column one place short, one table short and none: 11, whatever lamp is asked for.
    fn short(&mut self, state: &State, owners: &[u32], zoom: u8, about: impl Fn(u32) -> String) {
        let one_table = owners.len() - state.count as usize;
        for length in [owners.len() - 1, one_table, 0] {
            let short: Box<[u32]> = owners[..length].into();
            for lamp in [0, state.count - 1, state.count, u32::MAX] {
                let difference = differs(Err(Refusal::Spoiled), state, &short, lamp, zoom);
                self.short.compare(|| format!("{}, a column of {length}", about(lamp)), difference);
            }
        }
    }

    /// Says how much there was; the groups.
    pub fn told(self) -> Vec<Group> {
        let Builds { climbed, listed, beyond, short, builds } = self;
        println!("builds whose lamps are asked for their owners: {builds}");
        vec![climbed, listed, beyond, short]
    }
}

/// The zooms that a build is asked.
fn zooms(state: &State) -> Vec<u8> {
    let [least, most] = [state.options.min_zoom, state.options.max_zoom];
    match state.count {
        0..=FEW => (0..=u8::MAX).collect(),
        _ => {
            let beside = [0, least.saturating_sub(1), most + 2, 31, 32, 127, 128, 255];
            let outside = beside.into_iter().filter(|zoom| !(least..=most + 1).contains(zoom));
            (least..=most + 1).chain(outside).collect()
        }
    }
}
