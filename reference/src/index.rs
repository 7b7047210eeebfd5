//! Which rows are listed: by state pair, the set of its packets.

use std::collections::hash_map::RandomState;
use std::collections::HashMap;
use std::hash::{BuildHasher, Hasher};

use crate::automaton::State;
use crate::packets::{set, Packets};

/// Mixes 64-bit numbers with a seed that differs from run to run: tables come from strangers.
#[derive(Clone, Copy, Debug)]
struct Mixer(u64);

impl Hasher for Mixer {
    fn write(&mut self, bytes: &[u8]) {
        for &byte in bytes {
            self.write_u64(byte.into());
        }
    }

    fn write_u64(&mut self, number: u64) {
        let mut mixed = self.0 ^ number;
        mixed = (mixed ^ (mixed >> 32)).wrapping_mul(0x9e37_79b9_7f4a_7c15);
        mixed = (mixed ^ (mixed >> 29)).wrapping_mul(0xbf58_476d_1ce4_e5b9);
        self.0 = mixed ^ (mixed >> 32);
    }

    fn finish(&self) -> u64 {
        self.0
    }
}

/// Makes mixers of one seed.
#[derive(Clone, Copy, Debug)]
struct Mixing(u64);

impl BuildHasher for Mixing {
    type Hasher = Mixer;

    fn build_hasher(&self) -> Mixer {
        Mixer(self.0)
    }
}

/// Both states of a row.
type Key = (State, State);

/// A set of rows.
#[derive(Debug)]
pub struct RowSet {
    words: usize,
    /// By state pair, the place of its set in `sets`.
    places: HashMap<Key, usize, Mixing>,
    sets: Vec<u64>,
    /// The pair asked for last: next rows of one row often share it.
    last: Option<(Key, usize)>,
}

impl RowSet {
    /// The empty set.
    pub fn new(packets: &Packets) -> RowSet {
        RowSet {
            words: packets.words(),
            places: HashMap::with_hasher(Mixing(RandomState::new().build_hasher().finish())),
            sets: Vec::new(),
            last: None,
        }
    }

    /// Puts a row in and says whether it is new.
    pub fn insert(&mut self, packet: usize, left: State, right: State) -> bool {
        let key = (left, right);
        let place = match self.last {
            Some((last, place)) if last == key => place,
            _ => *self.places.entry(key).or_insert_with(|| {
                self.sets.resize(self.sets.len() + self.words, 0);
                self.sets.len() - self.words
            }),
        };
        self.last = Some((key, place));
        let new = !set::contains(&self.sets[place..], packet);
        set::insert(&mut self.sets[place..], packet);
        new
    }

    /// Is the row in?
    pub fn contains(&mut self, packet: usize, left: State, right: State) -> bool {
        let key = (left, right);
        let place = match self.last {
            Some((last, place)) if last == key => place,
            _ => match self.places.get(&key) {
                Some(&place) => place,
                None => return false,
            },
        };
        self.last = Some((key, place));
        set::contains(&self.sets[place..], packet)
    }
}
