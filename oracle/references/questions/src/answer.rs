//! What a question comes to.

/// A reply: SCOPE's number of it, 0 where nothing is refused, and the number that it carries.
#[derive(Clone, Copy, Debug, PartialEq, Eq)]
pub struct Reply {
    pub number: u32,
    pub carried: u64,
}

impl Reply {
    /// The reply of a question that is not refused.
    pub fn done(carried: u64) -> Reply {
        Reply { number: 0, carried }
    }

    /// A refusal that carries nothing.
    pub fn refused(refusal: Refusal) -> Reply {
        Reply { number: refusal as u32, carried: 0 }
    }
}

/// SCOPE's refusals of a question and of a posting, by their numbers. 10 is not among them: it depends on the room alone.
#[derive(Clone, Copy, Debug, PartialEq, Eq)]
pub enum Refusal {
    NoTree = 5,
    NoCluster = 6,
    Tile = 7,
    EmptyTile = 8,
    Box = 9,
    Spoiled = 11,
    Energy = 15,
    Lamp = 16,
}

impl Refusal {
    /// The refusal with this number.
    pub fn numbered(number: u32) -> Option<Refusal> {
        use Refusal::*;
        let all = [NoTree, NoCluster, Tile, EmptyTile, Box, Spoiled, Energy, Lamp];
        all.into_iter().find(|refusal| *refusal as u32 == number)
    }
}

/// SCOPE's refusal for want of room.
const NO_ROOM: u32 = 10;

/// All that a question lists, and what refuses it then, if anything does. What is refused before its walk
/// lists nothing.
#[derive(Clone, Debug, PartialEq)]
pub struct Answer<T> {
    pub items: Vec<T>,
    pub refusal: Option<Refusal>,
}

impl<T: Copy> Answer<T> {
    /// The answer of a walk that puts what it finds into a list.
    pub(crate) fn of(walk: impl FnOnce(&mut Vec<T>) -> Result<(), Refusal>) -> Answer<T> {
        let mut items = Vec::new();
        let refusal = walk(&mut items).err();
        Answer { items, refusal }
    }

    /// The reply, where an output column has this room.
    pub fn reply(&self, room: usize) -> Reply {
        let carried = self.items.len() as u64;
        match self.refusal {
            Some(refusal) => Reply::refused(refusal),
            None if self.items.len() > room => Reply { number: NO_ROOM, carried },
            None => Reply::done(carried),
        }
    }

    /// The items that are left where there is this room: the first ones, as many as fit.
    pub fn left(&self, room: usize) -> &[T] {
        &self.items[..self.items.len().min(room)]
    }

    /// Leaves the items in an output column; the reply.
    pub fn told(&self, out: &mut [T]) -> Reply {
        let left = self.left(out.len());
        out[..left.len()].copy_from_slice(left);
        self.reply(out.len())
    }
}
