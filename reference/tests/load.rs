//! Load: each number at its boundary, the node named, and which goes first.

mod common;
use common::bench;
use reference::lines::Script;
use reference::load_script;
use reference::tables::{load, Table};

/// Number, side and node for a side-1 table under the filter; none if it loads.
fn refused(nodes: &[[u32; 5]], pool: &[u32]) -> Option<(u32, u32, u32)> {
    refused_words(&nodes.concat(), pool)
}

fn refused_words(nodes: &[u32], pool: &[u32]) -> Option<(u32, u32, u32)> {
    let tables = [Table { nodes, pool }, Table::default()];
    let refusal = load(1, tables).err()?;
    Some((refusal.number, refusal.side, refusal.node))
}

/// The number and node for a table; (0, 0) if it loads.
fn fault(nodes: &[[u32; 5]], pool: &[u32]) -> (u32, u32) {
    refused(nodes, pool).map_or((0, 0), |(number, side, node)| {
        assert_eq!(side, 1);
        (number, node)
    })
}

const OK: (u32, u32) = (0, 0);
const NIL: [u32; 5] = [0; 5];

#[test]
fn the_wrapper_goes_first() {
    for wrapper in [0, 4, 5, 1_000, u32::MAX] {
        let input = format!("W {wrapper}\nN 1 9 9 9 9 9\nN 2 9 9 9 9 9");
        assert_eq!(bench(&input), "refused 1 0 0\n");
    }
}

#[test]
fn sizes() {
    assert_eq!(refused_words(&[], &[]), Some((1, 1, 0)));
    assert_eq!(refused_words(&[], &[7]), Some((1, 1, 0)));
    assert_eq!(refused_words(&[0; 4], &[]), Some((1, 1, 0)));
    assert_eq!(refused_words(&[0; 6], &[]), Some((1, 1, 0)));
    assert_eq!(refused_words(&[0; 5], &[]), None);
    assert_eq!(refused_words(&[0; 5], &[7; 1_024]), None);
    assert_eq!(refused_words(&[0; 5], &[7; 1_025]), Some((1, 1, 0)));
    assert_eq!(refused_words(&[9; 257 * 5], &[]), Some((1, 1, 0)));
    assert_eq!(refused_words(&[9; 256 * 5], &[]), Some((2, 1, 0)));
}

#[test]
fn side_2_is_empty_but_under_the_pipeline() {
    let load_with = |wrapper: u32, nodes: &[u32], pool: &[u32]| {
        let two = Table { nodes, pool };
        let one = Table {
            nodes: &NIL,
            pool: &[],
        };
        load(wrapper, [one, two])
            .err()
            .map(|r| (r.number, r.side, r.node))
    };
    for wrapper in [1, 3] {
        assert_eq!(load_with(wrapper, &[], &[]), None);
        assert_eq!(load_with(wrapper, &NIL, &[]), Some((1, 2, 0)));
        assert_eq!(load_with(wrapper, &[], &[7]), Some((1, 2, 0)));
    }
}

#[test]
fn side_1_wholly_before_side_2() {
    let thirty_three_particles = {
        let mut script = Script {
            wrapper: 1,
            ..Script::default()
        };
        for at in 0..32_u32 {
            script.nodes[0].extend([1, 2 * at + 1, 2 * at + 2, 0, 0, 4, 1, 1, 0, 0]);
        }
        script.nodes[0].extend([4, 1, 1, 0, 0]);
        script.pools[0].push(20);
        script.pools[1].push(7);
        script
    };
    let refusal = load_script(&thirty_three_particles).unwrap_err();
    assert_eq!((refusal.number, refusal.side, refusal.node), (7, 1, 0));
    assert_eq!(
        bench("W 2\nN 1 3 1 1 0 0\nN 1 0 0 0 0 1"),
        "refused 2 1 1\n"
    );
    assert_eq!(bench("W 2\nN 1 0 0 0 0 0"), "refused 1 2 0\n");
    assert_eq!(
        bench("W 2\nN 1 0 0 0 0 0\nN 2 2 64 1 0 0\nN 2 0 0 0 0 0"),
        "refused 4 2 0\n"
    );
    assert_eq!(bench("W 2\nN 2 0 0 0 0 0"), "refused 1 1 0\n");
}

#[test]
fn kinds_and_unused_fields() {
    assert_eq!(fault(&[[7, 0, 0, 0, 0]], &[]), (2, 0));
    assert_eq!(fault(&[[u32::MAX, 0, 0, 0, 0]], &[]), (2, 0));
    for field in 1..5 {
        let mut node = NIL;
        node[field] = 1;
        assert_eq!(fault(&[node], &[]), (2, 0), "nil {field}");
    }
    for (kind, used) in [(1, 2), (2, 2), (3, 2), (4, 3)] {
        for field in used + 1..5 {
            let mut node = [kind, 0, 0, 0, 0];
            node[field] = 1;
            assert_eq!(fault(&[NIL, node], &[]).0, 2, "{kind} {field}");
        }
    }
    assert_eq!(
        fault(&[[3, 1, 9, 0, 0], [8, 0, 0, 0, 0], [0, 1, 0, 0, 0]], &[]),
        (2, 1)
    );
}

#[test]
fn an_unknown_kind_counts_as_one_fault_with_an_unused_field() {
    assert_eq!(fault(&[[0, 0, 0, 0, 5], [7, 0, 0, 0, 0]], &[]), (2, 0));
    assert_eq!(fault(&[[7, 0, 0, 0, 0], [0, 0, 0, 0, 5]], &[]), (2, 0));
}

#[test]
fn children_are_above_their_parent_and_in_the_table() {
    assert_eq!(fault(&[[3, 5, 1, 0, 0], NIL], &[]), OK);
    assert_eq!(fault(&[[3, 5, 2, 0, 0], NIL], &[]), (3, 0));
    assert_eq!(fault(&[[3, 5, 0, 0, 0]], &[]), (3, 0));
    assert_eq!(fault(&[[3, 5, u32::MAX, 0, 0], NIL], &[]), (3, 0));
    assert_eq!(fault(&[[3, 5, 1, 0, 0], [3, 5, 1, 0, 0]], &[]), (3, 1));
    assert_eq!(fault(&[[5, 0, 1, 0, 0]], &[10]), (3, 0));
    assert_eq!(fault(&[[6, 0, 1, 0, 2], NIL], &[10]), (3, 0));
    assert_eq!(fault(&[[2, 0, 1, 0, 0]], &[]), (3, 0));
    assert_eq!(fault(&[[1, 1, 2, 0, 0], NIL], &[]), (3, 0));
    assert_eq!(fault(&[[1, 2, 1, 0, 0], NIL, NIL], &[]), OK);
}

#[test]
fn every_node_but_0_is_a_child_once() {
    assert_eq!(fault(&[NIL, NIL], &[]), (3, 1));
    assert_eq!(fault(&[[1, 1, 1, 0, 0], NIL], &[]), (3, 1));
    assert_eq!(fault(&[[3, 5, 2, 0, 0], NIL, NIL], &[]), (3, 1));
    let shared = [[1, 1, 2, 0, 0], [3, 5, 3, 0, 0], [3, 5, 3, 0, 0], NIL];
    assert_eq!(fault(&shared, &[]), (3, 3));
}

#[test]
fn a_bad_child_field_still_counts_its_child() {
    // Node 2 names node 1, which node 0 names too: node 1 is at fault.
    assert_eq!(fault(&[[1, 1, 2, 0, 0], NIL, [3, 5, 1, 0, 0]], &[]), (3, 1));
    // Node 2 alone names node 1: only node 2 is at fault.
    assert_eq!(fault(&[[3, 5, 2, 0, 0], NIL, [3, 5, 1, 0, 0]], &[]), (3, 2));
    // A field that names node 0 puts its own node at fault, never node 0.
    assert_eq!(fault(&[[3, 5, 1, 0, 0], [3, 5, 0, 0, 0]], &[]), (3, 1));
    // A field that names its own node counts it: only that node is at fault.
    assert_eq!(fault(&[NIL, [3, 5, 1, 0, 0]], &[]), (3, 1));
}

#[test]
fn names_up_to_63_and_tags_up_to_65() {
    let pool = [10];
    for kind in [2, 3] {
        assert_eq!(fault(&[[kind, 63, 1, 0, 0], NIL], &[]), OK);
        assert_eq!(fault(&[[kind, 64, 1, 0, 0], NIL], &[]), (4, 0));
    }
    assert_eq!(fault(&[[4, 63, 65, 0, 0]], &pool), OK);
    assert_eq!(fault(&[[4, 64, 0, 0, 0]], &pool), (4, 0));
    assert_eq!(fault(&[[4, 0, 66, 0, 0]], &pool), (4, 0));
    for kind in [5, 6] {
        assert_eq!(fault(&[[kind, 63, 65, 0, 1], NIL], &pool), OK);
        assert_eq!(fault(&[[kind, 64, 0, 0, 1], NIL], &pool), (4, 0));
        assert_eq!(fault(&[[kind, 0, 66, 0, 1], NIL], &pool), (4, 0));
        assert_eq!(fault(&[[kind, 0, u32::MAX, 0, 1], NIL], &pool), (4, 0));
    }
}

/// The number for an output of the value at place 0 of this pool.
fn value_fault(pool: &[u32]) -> u32 {
    fault(&[[4, 0, 0, 0, 0]], pool).0
}

/// The number for an input of the pattern at place 0 of this pool.
fn pattern_fault(pool: &[u32]) -> u32 {
    let (number, node) = fault(&[[5, 0, 0, 0, 1], NIL], pool);
    assert_eq!(node, u32::from(number == 6));
    number
}

#[test]
fn values_in_the_pool() {
    assert_eq!(value_fault(&[]), 5);
    assert_eq!(value_fault(&[63]), 0);
    assert_eq!(value_fault(&[4_000_000]), 0);
    assert_eq!(value_fault(&[4_000_001]), 5);
    assert_eq!(value_fault(&[4_000_001, 4_000_000]), 0);
    assert_eq!(value_fault(&[4_000_002, 7, 7]), 0);
    assert_eq!(value_fault(&[4_000_002, 7]), 5);
    assert_eq!(value_fault(&[4_000_002, 7, 64]), 5);
    for word in [
        64,
        65_536,
        131_072,
        196_608,
        196_863,
        3_999_999,
        4_000_016,
        4_999_999,
        5_000_000,
        u32::MAX,
    ] {
        assert_eq!(value_fault(&[word, 7, 7, 7]), 5, "{word}");
    }
}

#[test]
fn places_in_the_pool() {
    assert_eq!(fault(&[[4, 0, 0, 1, 0]], &[64, 7]), OK);
    assert_eq!(fault(&[[4, 0, 0, 2, 0]], &[64, 7]), (5, 0));
    assert_eq!(fault(&[[4, 0, 0, u32::MAX, 0]], &[64, 7]), (5, 0));
    assert_eq!(fault(&[[4, 0, 0, 1_023, 0]], &[7; 1_024]), OK);
    assert_eq!(fault(&[[4, 0, 0, 1_024, 0]], &[7; 1_024]), (5, 0));
    // Values overlap, and one may end with the pool.
    let both = [[1, 1, 2, 0, 0], [4, 0, 0, 0, 0], [4, 0, 0, 1, 0]];
    assert_eq!(fault(&both, &[4_000_002, 4_000_001, 7, 8]), OK);
    assert_eq!(fault(&both, &[4_000_002, 4_000_001, 7]), (5, 1));
}

#[test]
fn sixteen_words_at_most() {
    let sixteen = [vec![4_000_015], vec![7; 15]].concat();
    assert_eq!(value_fault(&sixteen), 0);
    let seventeen = [vec![4_000_015, 4_000_001], vec![7; 15]].concat();
    assert_eq!(value_fault(&seventeen), 5);
    assert_eq!(value_fault(&[vec![4_000_001; 15], vec![7]].concat()), 0);
    assert_eq!(value_fault(&[vec![4_000_001; 16], vec![7]].concat()), 5);
    assert_eq!(
        pattern_fault(&[vec![4_000_015], vec![4_999_999; 15]].concat()),
        0
    );
    let long = [vec![4_000_015, 4_000_001], vec![4_999_999; 15]].concat();
    assert_eq!(pattern_fault(&long), 5);
}

#[test]
fn patterns_in_the_pool() {
    assert_eq!(pattern_fault(&[4_999_999]), 0);
    assert_eq!(pattern_fault(&[4_999_998]), 5);
    assert_eq!(pattern_fault(&[5_000_000]), 5);
    for word in [64, 65_536, 131_072, 196_608, 196_863] {
        assert_eq!(pattern_fault(&[word]), 5, "{word}");
        assert_eq!(pattern_fault(&[4_000_002, 10, word]), 5, "{word}");
    }
    assert_eq!(pattern_fault(&[4_000_002, 10, 11]), 0);
    assert_eq!(pattern_fault(&[4_000_002, 10, 10]), 5);
    assert_eq!(pattern_fault(&[4_000_002, 4_999_999, 4_999_999]), 0);
    assert_eq!(pattern_fault(&[4_000_002, 10, 4_000_001, 10]), 5);
    assert_eq!(pattern_fault(&[4_000_002, 4_000_000, 4_000_000]), 0);
    // The same words are a value for an output though no pattern.
    assert_eq!(value_fault(&[4_000_002, 10, 10]), 0);
    // A value may not hold the wildcard anywhere.
    assert_eq!(value_fault(&[4_000_002, 10, 4_999_999]), 5);
}

#[test]
fn eight_bound_names_in_force() {
    let eight: Vec<u32> = [vec![4_000_008], (10..18).collect()].concat();
    let nine: Vec<u32> = [vec![4_000_009], (10..19).collect()].concat();
    assert_eq!(pattern_fault(&eight), 0);
    assert_eq!(pattern_fault(&nine), 6);
    // Wildcards bind nothing.
    let mut wild = nine.clone();
    wild[5] = 4_999_999;
    assert_eq!(pattern_fault(&wild), 0);
    // The same number twice counts twice; the body is named, not the binder.
    let news = |count: u32| -> Vec<[u32; 5]> {
        let mut nodes: Vec<[u32; 5]> = (1..=count).map(|at| [3, 5, at, 0, 0]).collect();
        nodes.push(NIL);
        nodes
    };
    assert_eq!(fault(&news(8), &[]), OK);
    assert_eq!(fault(&news(9), &[]), (6, 9));
    assert_eq!(fault(&news(12), &[]), (6, 9));
}

#[test]
fn the_lowest_node_with_too_many_bound_names() {
    // The body of the second branch has nine, at node 3, before the first
    // branch's at node 4.
    let nine: Vec<u32> = [vec![4_000_009], (10..19).collect()].concat();
    let nodes = [[1, 1, 2, 0, 0], [5, 0, 0, 0, 4], [5, 0, 0, 0, 3], NIL, NIL];
    assert_eq!(fault(&nodes, &nine), (6, 3));
}

#[test]
fn scopes_are_per_branch() {
    // Eight names in one branch and eight in the other are fine.
    let eight: Vec<u32> = [vec![4_000_008], (10..18).collect()].concat();
    let nodes = [[1, 1, 2, 0, 0], [5, 0, 0, 0, 3], [6, 0, 0, 0, 4], NIL, NIL];
    assert_eq!(fault(&nodes, &eight), OK);
}

/// So many copies of a one-node process side by side.
fn side_by_side(leaf: [u32; 5], count: u32) -> Vec<[u32; 5]> {
    let mut nodes = Vec::new();
    for at in 0..count - 1 {
        nodes.extend([[1, 2 * at + 1, 2 * at + 2, 0, 0], leaf]);
    }
    nodes.push(leaf);
    nodes
}

#[test]
fn particles_at_the_start() {
    let output = [4, 1, 1, 0, 0];
    assert_eq!(fault(&side_by_side(output, 32), &[20]), OK);
    assert_eq!(fault(&side_by_side(output, 33), &[20]), (7, 0));
}

#[test]
fn boxes_at_the_start_with_box_0() {
    let boxes = |count: u32| {
        let mut nodes: Vec<[u32; 5]> = (1..=count).map(|at| [2, 5, at, 0, 0]).collect();
        nodes.push(NIL);
        nodes
    };
    assert_eq!(fault(&boxes(15), &[]), OK);
    assert_eq!(fault(&boxes(16), &[]), (7, 0));
}

#[test]
fn nothing_under_an_input_counts_at_the_start() {
    let mut nodes = vec![[6, 0, 1, 0, 1]];
    for node in side_by_side([4, 1, 1, 0, 0], 40) {
        let shift = |child: u32| if node[0] == 1 { child + 1 } else { child };
        nodes.push([node[0], shift(node[1]), shift(node[2]), node[3], node[4]]);
    }
    assert_eq!(fault(&nodes, &[10]), OK);
}

#[test]
fn the_lowest_number_wins_over_the_lowest_node() {
    // 3 at node 0, 2 at node 1.
    assert_eq!(fault(&[[3, 5, 7, 0, 0], [9, 0, 0, 0, 0]], &[]), (2, 1));
    // 4 at node 0, 3 at node 1.
    assert_eq!(fault(&[[3, 64, 1, 0, 0], [3, 5, 7, 0, 0]], &[]), (3, 1));
    // 5 at node 1, 4 at node 2.
    let nodes = [[1, 1, 2, 0, 0], [4, 0, 0, 9, 0], [4, 64, 0, 0, 0]];
    assert_eq!(fault(&nodes, &[10]), (4, 2));
    // 6 at node 1, 5 at node 2.
    let nine: Vec<u32> = [vec![4_000_009], (10..19).collect()].concat();
    let nodes = [[5, 0, 0, 0, 1], [1, 2, 3, 0, 0], [4, 0, 0, 99, 0], NIL];
    assert_eq!(fault(&nodes, &nine), (5, 2));
    // 7 for the particles, 6 deep inside.
    let mut nodes = side_by_side([4, 1, 1, 1, 0], 33);
    let end = nodes.len() as u32;
    *nodes.last_mut().unwrap() = [5, 0, 0, 0, end];
    nodes.push(NIL);
    assert_eq!(fault(&nodes, &nine), (6, end));
}

#[test]
fn a_name_bound_by_new_may_be_any_number() {
    for number in [0, 1, 2, 63] {
        assert_eq!(fault(&[[3, number, 1, 0, 0], NIL], &[]), OK);
    }
}
