//! How far a partition is with a move that goes on with less: by what it has, and what the other end knows.

use super::state::{Pulled, Stand, State};
use crate::course::Move;
use crate::keymap::hex;
use squall::Rank;
use std::collections::{BTreeMap, BTreeSet};

/// How far it is with a move.
pub struct Passed {
    /// The rank to which its edge rises.
    pub edge: Rank,
    /// The ranks that it has given or loaded ahead of its edge. Some may lie below it: they stay given if the chunk around
    /// them goes back.
    ahead: BTreeSet<Rank>,
    /// Those that are the destination's, by what one of both ends knows.
    pub loaded: BTreeSet<Rank>,
}

impl Passed {
    /// How far that partition is.
    pub fn of(it: &Move, part: u32, number: u32, states: &BTreeMap<u32, State>) -> Passed {
        let of = |part| states.get(&part).and_then(|state| state.stand(number, it.lo));
        let ranks = |stand: Option<&Stand>, is_so_far: fn(&Pulled) -> bool| -> BTreeSet<Rank> {
            stand.into_iter().flat_map(|stand| stand.ahead(is_so_far)).collect()
        };
        let forgotten = ranks(of(it.source), |state| matches!(state, Pulled::Forgotten(_)));
        let loaded = &ranks(of(it.dest), |state| *state == Pulled::Loaded) | &forgotten;
        let ahead = match part {
            _ if part == it.source => &ranks(of(part), |_| true) | &loaded,
            _ if part == it.dest => loaded.clone(),
            _ => BTreeSet::new(),
        };
        Passed { edge: edge(it, part, number, states), ahead, loaded }
    }

    /// One with these ranks, which are the destination's.
    #[cfg(test)]
    pub fn with(edge: Rank, loaded: &[Rank]) -> Passed {
        let loaded: BTreeSet<Rank> = loaded.iter().copied().collect();
        Passed { edge, ahead: loaded.clone(), loaded }
    }

    /// As `squall_accept` takes it.
    pub fn word(&self) -> String {
        let ahead = self.ahead.iter().map(|&rank| format!("+{}", hex(rank)));
        hex(self.edge) + &ahead.collect::<String>()
    }
}

/// The rank to which the edge of a move rises.
fn edge(it: &Move, part: u32, number: u32, states: &BTreeMap<u32, State>) -> Rank {
    let of = |part| states.get(part).and_then(|state: &State| state.stand(number, it.lo));
    let other = match part {
        _ if part == it.dest => of(&it.source).map(|source| source.forgot),
        _ if part == it.source => of(&it.dest).map(|dest| dest.edge),
        _ => None,
    };
    other.max(of(&part).map(|own| own.edge)).unwrap_or(it.lo)
}

#[cfg(test)]
mod tests {
    use super::super::state::Role;
    use super::*;

    const IT: Move = Move { lo: Rank(100), hi: Rank(200), source: 1, dest: 3, sub: 0 };

    fn state(role: Role, peer: u32, (edge, forgot): (u64, u64), pulled: &[(u64, Pulled)]) -> State {
        let (lo, hi, edge, forgot) = (IT.lo, IT.hi, Rank(edge), Rank(forgot));
        let pulled = pulled.iter().map(|&(rank, state)| (Rank(rank), state)).collect();
        State {
            number: 2,
            moves: vec![Stand { lo, hi, role, peer, edge, forgot, gone: 0, pulled }],
            ..State::default()
        }
    }

    #[test]
    fn edges_rise_to_what_the_other_end_knows() {
        let source = |edge, forgot| state(Role::Out, 3, (edge, forgot), &[]);
        let dest = |edge| state(Role::In, 1, (edge, 100), &[]);
        let edges = |source, dest| {
            let states = BTreeMap::from([(1, source), (3, dest)]);
            [1, 3, 5].map(|part| edge(&IT, part, 2, &states).0)
        };
        // It has loaded more than the source has forgotten: these rows are its own.
        assert_eq!(edges(source(160, 130), dest(150)), [160, 150, 100]);
        assert_eq!(edges(source(120, 110), dest(150)), [150, 150, 100]);
        assert_eq!(edges(source(160, 140), dest(120)), [160, 140, 100]);
        assert_eq!(edges(State::default(), dest(150)), [150, 150, 100]);
        assert_eq!(edges(source(160, 140), State::default()), [160, 140, 100]);
    }

    #[test]
    fn ranks_that_were_pulled_are_known_by_one_end() {
        let source = [(150, Pulled::Given), (160, Pulled::Forgotten(1)), (165, Pulled::Given)];
        let source = || state(Role::Out, 3, (110, 100), &source);
        let dest = [(165, Pulled::Loaded), (170, Pulled::Loaded)];
        let dest = || state(Role::In, 1, (110, 100), &dest);
        let passed = |states: [State; 2]| {
            let [source, dest] = states;
            let states = BTreeMap::from([(1, source), (3, dest)]);
            [1, 3].map(|part| Passed::of(&IT, part, 2, &states))
        };
        let ranks = |all: &BTreeSet<Rank>| all.iter().map(|it| it.0).collect::<Vec<_>>();
        let [one, three] = passed([source(), dest()]);
        assert_eq!((ranks(&one.ahead), ranks(&one.loaded)), (vec![150, 160, 165, 170], vec![160, 165, 170]));
        assert_eq!((ranks(&three.ahead), ranks(&three.loaded)), (vec![160, 165, 170], vec![160, 165, 170]));
        assert_eq!(three.word(), "000000000000006e+00000000000000a0+00000000000000a5+00000000000000aa");
        // A chunk is given, and may go back without them.
        let given = state(Role::Out, 3, (168, 100), &[]);
        let [one, _] = passed([given, dest()]);
        assert_eq!(one.word(), "00000000000000a8+00000000000000a5+00000000000000aa");
        // One end knows nothing any more.
        let [one, three] = passed([State::default(), dest()]);
        assert_eq!((ranks(&one.ahead), ranks(&three.ahead)), (vec![165, 170], vec![165, 170]));
        let [one, three] = passed([source(), State::default()]);
        assert_eq!((ranks(&one.ahead), ranks(&three.ahead)), (vec![150, 160, 165], vec![160]));
    }
}
