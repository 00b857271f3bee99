//! Any bytes and any records are answered or refused: no call panics, and what it gives back is sound.

mod common;

use bahrufaz::{
    Constraint, Draft, Error, Listing, Operator, Pattern, PatternBytes, PatternNode, Store,
    StoreBytes,
};
use common::{pattern_a, store, world};

/// Numbers that look like chance, the same on every run.
struct Dice(u64);

impl Dice {
    fn roll(&mut self) -> u64 {
        self.0 ^= self.0 << 13;
        self.0 ^= self.0 >> 7;
        self.0 ^= self.0 << 17;
        self.0
    }

    fn below(&mut self, limit: usize) -> usize {
        (self.roll() % limit as u64) as usize
    }

    fn bytes(&mut self, most: usize) -> Vec<u8> {
        (0..self.below(most + 1)).map(|_| self.roll() as u8).collect()
    }

    /// The bytes with some changed, and sometimes cut or lengthened.
    fn damaged(&mut self, mut bytes: Vec<u8>) -> Vec<u8> {
        for _ in 0..self.below(4) {
            let place = self.below(bytes.len());
            bytes[place] = [0, 1, 255, self.roll() as u8][self.below(4)];
        }
        match self.below(8) {
            0 => bytes.truncate(self.below(bytes.len() + 1)),
            1 => bytes.extend(self.bytes(9)),
            _ => {}
        }
        bytes
    }
}

/// Makes every call; the listings that were given, of the bytes as they are and of the admitted store.
fn all_calls(store: &[u8], pattern: &[u8]) -> (Option<Listing>, Option<Listing>) {
    let (raw, wanted) = (StoreBytes::from(store), PatternBytes::from(pattern));
    if let Ok(built) = raw.build() {
        assert_eq!(Store::admit(built.clone().into_bytes()), Ok(built));
    }
    let planned = raw.plan(&wanted);
    let listing = raw.list_unadmitted(&wanted);
    if let (Ok(planned), Ok(listing)) = (&planned, &listing) {
        assert_eq!(planned.bound, listing.told.bound);
        assert!(listing.told.entries() <= u64::from(planned.bound));
        assert_eq!(listing.len() as u64, listing.told.matches);
    }
    let refused = [planned.err(), listing.clone().err()];
    assert!(refused.iter().flatten().all(|error| matches!(error, Error::Refused(_))));
    let admitted = Store::admit(store).ok().and_then(|store| store.list(&wanted).ok());
    (listing.ok(), admitted)
}

#[test]
fn damaged_stores_and_patterns() {
    let mut dice = Dice(1);
    let (store, pattern) = (store().into_bytes().into_vec(), pattern_a().into_vec());
    let (mut listed, mut admitted, mut refused) = (0, 0, 0);
    for _ in 0..400 {
        let wanted = dice.damaged(pattern.clone());
        match all_calls(&dice.damaged(store.clone()), &wanted) {
            (Some(raw), Some(sound)) => {
                assert_eq!(raw, sound);
                admitted += 1;
            }
            (Some(_), None) => listed += 1,
            (None, _) => refused += 1,
        }
    }
    assert!(admitted > 20 && listed > 20 && refused > 20, "{admitted} {listed} {refused}");
}

#[test]
fn bytes_of_chance() {
    let mut dice = Dice(2);
    for _ in 0..100 {
        let (store, pattern) = (dice.bytes(600), dice.bytes(120));
        assert_eq!(all_calls(&store, &pattern), (None, None));
    }
}

/// A draft that is right more often than not.
fn any_draft(dice: &mut Dice) -> Draft {
    let constraint = |dice: &mut Dice| Constraint {
        key_labels: (1..=dice.below(5) as u16).filter(|_| dice.below(3) > 0).collect(),
        label: dice.below(9).min(4) as u16,
        most: 3 + dice.below(9) as u32,
    };
    let (n, m, k) = (9, dice.below(5), dice.below(3));
    Draft {
        nodes: (0..n).map(|_| (1 + dice.below(4) as u16, dice.roll() as i32)).collect(),
        edges: (0..m).map(|_| (dice.below(9) as u32, dice.below(9) as u32)).collect(),
        constraints: (0..k).map(|_| constraint(dice)).collect(),
    }
}

fn any_pattern(dice: &mut Dice) -> Pattern {
    let node = |dice: &mut Dice| PatternNode {
        label: dice.below(4) as u16,
        conditions: (0..dice.below(4)).map(|_| (Operator::AtLeast, dice.roll() as i32)).collect(),
    };
    let (p, q) = (dice.below(10), dice.below(6));
    Pattern {
        nodes: (0..p).map(|_| node(dice)).collect(),
        edges: (0..q).map(|_| (dice.below(9) as u8, dice.below(9) as u8)).collect(),
    }
}

#[test]
fn any_records() {
    let mut dice = Dice(3);
    let (mut built, mut wrong) = (0, 0);
    for _ in 0..400 {
        let (draft, pattern) = (any_draft(&mut dice), any_pattern(&mut dice));
        let longest = draft.constraints.iter().map(|one| one.key_labels.len()).max();
        assert_eq!(draft.bytes().is_err(), longest > Some(3));
        let most = pattern.nodes.iter().map(|node| node.conditions.len()).max();
        assert_eq!(pattern.bytes().is_err(), most > Some(2));
        if let (Ok(draft), Ok(pattern)) = (draft.bytes(), pattern.bytes()) {
            all_calls(draft.as_ref(), pattern.as_ref());
            built += u32::from(draft.build().is_ok());
        } else {
            wrong += 1;
        }
    }
    assert!(built > 20 && wrong > 20, "{built} {wrong}");
}

#[test]
fn stores_at_odds_with_their_patterns() {
    let (store, pattern) = (store().into_bytes().into_vec(), pattern_a().into_vec());
    assert_eq!(all_calls(&pattern, &store), (None, None));
    assert_eq!(all_calls(&store, &store), (None, None));
    let draft = world().bytes().expect("a draft");
    assert!(all_calls(draft.as_ref(), &pattern).0.is_some_and(|listing| listing.is_empty()));
}
