//! The index over six spreads of keys: its nodes, and how often a key is read, level by level when the cuts are made again and by the
//! builder itself.

use capi::prepared::{Tables, node_count};
use inside::calls::{Built, build_packed, select};
use inside::shapes::Family;

/// Document 01's ceiling, and the least number of edges from which on there are as many nodes.
const CEILING: usize = 1 << 20;
const MOST_NODES: usize = 589_824;

/// The most edges of a node that is not cut.
const LEAF: usize = 8;

/// The most reads of a key a level and an edge: 64 partitions, and once for the ends of the values.
const READS: usize = 65;

/// What builds cost: nodes, the most reads of a level as a multiple of the edges, rounded down, and all reads.
#[derive(Clone, Copy, Debug, Default, PartialEq, Eq)]
struct Cost {
    nodes: usize,
    level: usize,
    reads: usize,
}

/// Tables for one ring of n corners on a line.
fn tables(family: Family, n: usize) -> Tables {
    Tables {
        corners: (0..n).flat_map(|i| [family.x(i, n), 0]).collect(),
        rings: Vec::new(),
        polygons: Vec::new(),
        boxes: vec![[0; 4]; node_count(n)],
        parts: vec![[0; 3]; node_count(n)],
        edges: vec![0; n],
        undo: Vec::new(),
    }
}

/// The reads of every level. On a line every cut goes along x, and what a cut reads depends on its keys alone and not on their order: these
/// are the builder's reads.
fn reads_by_level(tables: &mut Tables) -> Vec<usize> {
    let mut levels = vec![0; tables.parts.len()];
    let mut reads = Vec::new();
    for (place, &[first, size, child]) in tables.parts.iter().enumerate() {
        if size > LEAF {
            let level: usize = levels[place];
            levels[child] = level + 1;
            levels[child + 1] = level + 1;
            reads.resize(reads.len().max(level + 1), 0);
            reads[level] += select(&mut tables.edges, first, size);
        }
    }
    reads
}

/// Builds over one ring of n corners and makes its cuts again.
fn cost(family: Family, n: usize) -> Cost {
    let mut tables = tables(family, n);
    let Built { nodes, reads } = build_packed(&mut tables, n);
    let by_level = reads_by_level(&mut tables);
    assert_eq!(by_level.iter().sum::<usize>(), reads, "{family:?} {n}");
    assert!(
        by_level.iter().all(|&level| level <= READS * n),
        "{family:?} {n}"
    );
    let most = by_level.into_iter().max().unwrap_or_default();
    let level = most.checked_div(n).unwrap_or_default();
    Cost {
        nodes,
        level,
        reads,
    }
}

/// The rings of 0 to 600 corners together.
fn small(family: Family) -> Cost {
    (0..=600)
        .map(|n| cost(family, n))
        .fold(Cost::default(), |sum, one| Cost {
            nodes: sum.nodes + one.nodes,
            level: sum.level.max(one.level),
            reads: sum.reads + one.reads,
        })
}

fn check(family: Family, found: Cost, nodes: usize, level: usize, reads: usize) {
    assert_eq!(
        found,
        Cost {
            nodes,
            level,
            reads
        },
        "{family:?}"
    );
}

#[test]
fn small_rings() {
    let nodes = 60_291;
    check(Family::Equal, small(Family::Equal), nodes, 2, 2_640_525);
    check(
        Family::TwoValued,
        small(Family::TwoValued),
        nodes,
        13,
        5_409_288,
    );
    check(Family::Sorted, small(Family::Sorted), nodes, 3, 2_575_290);
    check(
        Family::OrganPipe,
        small(Family::OrganPipe),
        nodes,
        5,
        2_746_378,
    );
    check(
        Family::Extreme,
        small(Family::Extreme),
        nodes,
        37,
        13_827_836,
    );
    check(
        Family::Doubling,
        small(Family::Doubling),
        nodes,
        24,
        14_140_486,
    );
}

fn large(family: Family, first: (usize, usize), ceiling: (usize, usize)) {
    let nodes = 262_143;
    check(family, cost(family, MOST_NODES), nodes, first.0, first.1);
    check(family, cost(family, CEILING), nodes, ceiling.0, ceiling.1);
}

#[test]
fn equal_keys_at_the_ceiling() {
    large(Family::Equal, (2, 20_512_768), (2, 35_651_584));
}

#[test]
fn two_keys_at_the_ceiling() {
    large(Family::TwoValued, (3, 22_383_504), (3, 38_214_670));
}

#[test]
fn sorted_keys_at_the_ceiling() {
    large(Family::Sorted, (2, 20_512_768), (2, 35_651_584));
}

#[test]
fn an_organ_pipe_at_the_ceiling() {
    large(Family::OrganPipe, (3, 20_694_818), (2, 35_651_584));
}

#[test]
fn extreme_keys_at_the_ceiling() {
    large(Family::Extreme, (2, 20_512_768), (2, 35_651_584));
}

#[test]
fn doubling_keys_at_the_ceiling() {
    large(Family::Doubling, (17, 69_475_159), (17, 120_626_327));
}
