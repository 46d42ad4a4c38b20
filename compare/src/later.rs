//! A file with what a later writer added to it.

use florinhado::{Accepted, Refused};
use second::additions::{add, Addition};
use second::random::Random;
use second::Name;

/// An accepted file and a list of additions made in it one after the other.
pub struct Later {
    pub file: Vec<u8>,
    pub made: Vec<Made>,
    /// The places of the added headers, as they now are.
    headers: Vec<usize>,
    /// Those of them that stand inside an added group.
    pub inner: Vec<usize>,
}

/// An addition, and whether it was put into a group that had been added itself.
pub struct Made {
    pub addition: Addition,
    pub is_inside: bool,
}

impl Later {
    /// The file with up to eight additions.
    pub fn new(random: &mut Random, before: &[u8]) -> Later {
        let mut later =
            Later { file: before.to_vec(), made: Vec::new(), headers: Vec::new(), inner: Vec::new() };
        let count = random.below(9);
        for _ in 0..3 * count {
            if later.made.len() < count {
                add(random, &mut later.file).into_iter().for_each(|addition| later.record(addition));
            }
        }
        later
    }

    fn record(&mut self, addition: Addition) {
        let spot = addition.spot.as_ref();
        let is_inside = spot.is_some_and(|spot| spot.around.iter().any(|place| self.headers.contains(place)));
        for place in self.headers.iter_mut().chain(&mut self.inner) {
            *place = moved(*place, &addition);
        }
        self.headers.extend(&addition.headers);
        self.inner.extend(addition.headers.iter().skip(usize::from(!is_inside)));
        self.made.push(Made { addition, is_inside });
    }

    /// Where a byte of the first file now stands: the bytes put before it are counted.
    pub fn moved(&self, place: usize) -> usize {
        self.made.iter().fold(place, |place, made| moved(place, &made.addition))
    }

    /// What the check tells, from what it told of the first file.
    pub fn accepted(&self, before: Accepted) -> Accepted {
        let all: usize = self.made.iter().map(|made| made.addition.length).sum();
        let chunks = self.made.iter().filter(|made| made.addition.spot.is_some());
        let inside: usize = chunks.map(|made| made.addition.length).sum();
        Accepted {
            chunks: before.chunks + self.headers.len(),
            end: before.end + inside,
            trailing: before.trailing + all - inside,
        }
    }

    /// Puts version names over some of the added headers, at least one, and
    /// gives their places; none if no header was added.
    pub fn rename(&mut self, random: &mut Random) -> Option<Vec<usize>> {
        let mut chosen: Vec<usize> = self.headers.iter().copied().filter(|_| random.one_in(3)).collect();
        if chosen.is_empty() && !self.headers.is_empty() {
            chosen.push(random.pick(&self.headers));
        }
        for place in &chosen {
            self.file[*place..place + 4].copy_from_slice(&random.pick(&Name::versions()).0);
        }
        (!chosen.is_empty()).then_some(chosen)
    }
}

/// The refusal of a version name at the first of these places.
pub fn version_refused(places: &[usize]) -> Option<Refused> {
    places.iter().min().map(|place| Refused { number: 3, place: *place })
}

/// Where a byte stands after an addition.
fn moved(place: usize, addition: &Addition) -> usize {
    place + if addition.place <= place { addition.length } else { 0 }
}
