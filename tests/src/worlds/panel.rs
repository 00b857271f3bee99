//! Feed panels: locales, formats, screens, fields, captions and units.

use super::random::Random;
use super::records::{ConstraintRule, PatternDraft, World};

/// The sizes that panels are mostly asked for.
pub const PANEL_SIZES: [usize; 3] = [1_000, 8_000, 60_000];

const LOCALE: u16 = 1;
const FORMAT: u16 = 2;
const SCREEN: u16 = 3;
const FIELD: u16 = 4;
const CAPTION: u16 = 5;
const UNIT: u16 = 6;

const LOCALES: usize = 6;
const FORMATS: usize = 3;
const UNITS: usize = 8;
/// Fields that one format and one unit have in common.
const FIELDS_PER_FORMAT_AND_UNIT: usize = 2;
const MOST_FIELDS: usize = 6;

/// A panel of about so many nodes; its constraints hold and don't hang on the size.
pub fn panel_draft(size: usize) -> Vec<u8> {
    panel(size).draft()
}

fn panel(size: usize) -> World {
    let mut random = Random::new(size as u64);
    let mut world = World { constraints: panel_constraints(), ..World::default() };
    let locales: Vec<u32> = (0..LOCALES).map(|code| world.add_node(LOCALE, code as i32)).collect();
    let mut formats = Vec::new();
    for &locale in &locales {
        for _ in 0..FORMATS {
            let format = world.add_node(FORMAT, random.below(60) as i32);
            world.edges.push((locale, format));
            formats.push((format, locale));
        }
    }
    let units: Vec<u32> = (0..UNITS).map(|power| world.add_node(UNIT, power as i32)).collect();
    let mut joined = 0;
    while world.nodes.len() + 40 < size {
        add_screen(&mut random, &mut world, &locales, &formats, &units, &mut joined);
    }
    world
}

/// A screen with its fields and their captions.
fn add_screen(
    random: &mut Random,
    world: &mut World,
    locales: &[u32],
    formats: &[(u32, u32)],
    units: &[u32],
    joined: &mut usize,
) {
    let screen = world.add_node(SCREEN, random.below(1_000) as i32);
    for _ in 0..1 + random.below(MOST_FIELDS) {
        let field = world.add_node(FIELD, random.below(1_000) as i32);
        world.edges.push((screen, field));
        // The first fields take a format, each pair of format and unit in turn.
        let (unit, locale) = if *joined < FIELDS_PER_FORMAT_AND_UNIT * formats.len() * units.len() {
            let (format, locale) = formats[*joined % formats.len()];
            let unit = units[*joined / formats.len() % units.len()];
            world.edges.push((field, format));
            *joined += 1;
            (unit, locale)
        } else {
            (random.pick(units), random.pick(locales))
        };
        world.edges.push((field, unit));
        world.edges.push((field, locale));
        for &locale in locales {
            if random.percent(25) {
                let caption = world.add_node(CAPTION, random.below(40) as i32);
                world.edges.push((locale, caption));
                world.edges.push((caption, field));
            }
        }
    }
}

fn panel_constraints() -> Vec<ConstraintRule> {
    let pairs = FIELDS_PER_FORMAT_AND_UNIT as u32;
    vec![
        ConstraintRule::new(&[], LOCALE, LOCALES as u32),
        ConstraintRule::new(&[], UNIT, UNITS as u32),
        ConstraintRule::new(&[LOCALE], FORMAT, FORMATS as u32),
        ConstraintRule::new(&[FORMAT], LOCALE, 1),
        ConstraintRule::new(&[LOCALE, FORMAT, UNIT], FIELD, pairs),
        ConstraintRule::new(&[FORMAT, UNIT], FIELD, pairs),
        ConstraintRule::new(&[FIELD], SCREEN, 1),
        ConstraintRule::new(&[SCREEN], FIELD, MOST_FIELDS as u32),
        ConstraintRule::new(&[FIELD], UNIT, 1),
        ConstraintRule::new(&[FIELD], FORMAT, 1),
        ConstraintRule::new(&[FIELD], LOCALE, 1),
        ConstraintRule::new(&[LOCALE, FIELD], CAPTION, 1),
        ConstraintRule::new(&[CAPTION], FIELD, 1),
        ConstraintRule::new(&[CAPTION], LOCALE, 1),
        ConstraintRule::new(&[SCREEN, UNIT], FIELD, MOST_FIELDS as u32),
    ]
}

/// Six patterns of 1 to 8 nodes that panels answer with 0 and some matches; T is always the same.
pub fn panel_patterns() -> Vec<Vec<u8>> {
    let whole = [LOCALE, FORMAT, UNIT, FIELD, SCREEN, CAPTION, FIELD, UNIT];
    let edges = [(0, 1), (3, 1), (3, 2), (4, 3), (0, 5), (5, 3), (4, 6), (6, 7)];
    let among = |p: u8| -> Vec<(u8, u8)> {
        edges.iter().copied().filter(|&(from, to)| from < p && to < p).collect()
    };
    [
        PatternDraft::plain(&whole[..1], &among(1)).with(0, 1, 2),
        PatternDraft::plain(&whole[..2], &among(2)).with(0, 2, 4),
        PatternDraft::plain(&whole[..4], &[(0, 1), (3, 0), (3, 1), (3, 2)]).with(2, 5, 3),
        PatternDraft::plain(&whole[..5], &among(5)).with(3, 3, 100).with(3, 4, 900),
        PatternDraft::plain(&whole[..6], &among(6)).with(0, 1, 1),
        PatternDraft::plain(&whole, &among(8)).with(2, 2, 4),
    ]
    .iter()
    .map(PatternDraft::bytes)
    .collect()
}

/// Patterns that panels answer with 0 and no match: an edge turned round, conditions that clash.
pub fn panel_empty_patterns() -> Vec<Vec<u8>> {
    let labels = [LOCALE, FORMAT, UNIT, FIELD];
    let edges = [(0, 1), (3, 1), (3, 2)];
    vec![
        PatternDraft::plain(&labels, &[(1, 0), (3, 1), (3, 2)]).bytes(),
        PatternDraft::plain(&labels, &edges).with(3, 3, 10).with(3, 2, 11).bytes(),
        PatternDraft::plain(&labels, &edges).with(0, 3, i32::MAX).bytes(),
    ]
}

/// Patterns that panels refuse, with the number: uncovered nodes and edges, T too large.
pub fn panel_refused_patterns() -> Vec<(u32, Vec<u8>)> {
    let chain = [LOCALE, FORMAT, UNIT, FIELD, SCREEN, FIELD, CAPTION, CAPTION];
    let edges = [(0, 1), (3, 1), (3, 2), (4, 3), (4, 5), (0, 6), (6, 5), (0, 7), (7, 5)];
    vec![
        (7, PatternDraft::plain(&[CAPTION], &[]).bytes()),
        (7, PatternDraft::plain(&[LOCALE, UNIT], &[(0, 1)]).bytes()),
        (7, PatternDraft::plain(&[UNIT, FIELD], &[(1, 0)]).bytes()),
        (8, PatternDraft::plain(&chain, &edges).bytes()),
    ]
}
