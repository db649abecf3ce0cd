//! The trials A to I and the others of the scope paper.

mod common;
use common::{bench, load, refusal, Bench};
use reference::generator::sketch::{
    boxed, child, input, new, output, parallel, repeat, tuple, Sketch, PARENT, WITHIN,
};

const IN: u32 = 0;
const OUT: u32 = 1;
const MID: u32 = 2;

fn copier() -> Sketch {
    repeat(IN, PARENT, &[10], output(OUT, PARENT, &tuple(&[10, 10])))
}

#[test]
fn listing_a_byte_by_byte() {
    let input = b"W\t1\nN\t1\t6\t0\t1\t0\t1\nN\t1\t4\t1\t1\t1\t0\n\
        V\t1\t10\nV\t1\t4000002\nV\t1\t10\nV\t1\t10\n\
        S\t1\t1\t0\t0\t20\nS\t2\t1\t0\t0\nS\t5\t1\t1\t0\nS\t3\t1\t1\t0\n\
        S\t6\t1\t0\t0\nS\t7\t1\t0\t0\nS\t7\t1\t0\t0\n";
    let output = "ok\n0\tin1\t20\n1\ttau\n2\ttau\n3\ttau\n4\ttau\n\
        5\tout1\t4000002\t20\t20\n6\tno\t10\n";
    assert_eq!(reference::run(input), output);
}

#[test]
fn a_listing_a_with_the_bench() {
    let mut bench = Bench::filter(copier());
    assert_eq!(bench.enter(1, &[20]), "in1 20");
    bench.silent(2, 1, 0, 0);
    bench.silent(5, 1, 1, 0);
    bench.silent(3, 1, 1, 0);
    bench.silent(6, 1, 0, 0);
    assert_eq!(bench.ask(7, 1, 0, 0), "out1 4000002 20 20");
    assert_eq!(bench.ask(7, 1, 0, 0), "no 10");
}

#[test]
fn b_mid_from_side_2_strands() {
    let mut bench = Bench::pipeline(Sketch::Nil, output(MID, PARENT, &[20]));
    assert_eq!(bench.state.stranded(2), []);
    bench.silent(3, 2, 0, 0);
    assert_eq!(bench.ask(6, 2, 0, 0), "no 13");
    assert_eq!(bench.state.stranded(2), [0]);
    assert_eq!(bench.state.stranded(1), []);
    assert!(bench.state.shelf.is_empty());
}

#[test]
fn c_mid_from_side_1_is_shelved_and_taken_once() {
    let mut bench = Bench::pipeline(output(MID, PARENT, &[20]), Sketch::Nil);
    bench.silent(3, 1, 0, 0);
    assert!(bench.side(1).lobby.is_empty());
    bench.silent(8, 2, 0, 0);
    assert_eq!(bench.ask(8, 2, 0, 0), "no 13");
    assert_eq!(bench.side(2).lobby.len(), 1);
}

#[test]
fn d_a_pair_pattern_takes_a_pair_only() {
    let handler = input(IN, PARENT, &tuple(&[10, 11]), output(OUT, PARENT, &[11]));
    let mut bench = Bench::filter(handler);
    assert_eq!(bench.receive(1, &[4_000_003, 20, 21, 22], 0), "no 14");
    assert_eq!(bench.receive(1, &[4_000_002, 20, 21], 0), "tau");
    assert_eq!(bench.send_out(1, 1), "out1 21");
}

#[test]
fn e_a_name_used_as_channel_takes_no_tuple() {
    let handler = repeat(IN, PARENT, &[10], output(10, WITHIN, &[20]));
    let mut bench = Bench::filter(handler);
    assert_eq!(bench.receive(1, &[4_000_000], 0), "no 15");
    assert_eq!(bench.receive(1, &[20], 0), "tau");
}

#[test]
fn f_copies_of_seven_words_fit_and_of_eight_do_not() {
    let mut bench = Bench::filter(copier());
    let eight = [4_000_007, 20, 20, 20, 20, 20, 20, 20];
    assert_eq!(bench.receive(1, &eight, 0), "no 16");
    let seven = [4_000_006, 20, 20, 20, 20, 20, 20];
    assert_eq!(bench.receive(1, &seven, 0), "tau");
    let out = bench.send_out(1, 2);
    assert_eq!(out.split(' ').count(), 1 + 15);
}

#[test]
fn g_the_seventeenth_enter() {
    let mut bench = Bench::filter(Sketch::Nil);
    for _ in 0..16 {
        assert_eq!(bench.enter(1, &[20]), "in1 20");
    }
    assert_eq!(bench.enter(1, &[21]), "no 17");
    bench.silent(2, 1, 5, 0);
    assert_eq!(bench.enter(1, &[21]), "in1 21");
}

#[test]
fn h_a_minted_name_enters_after_it_left() {
    let mut bench = Bench::filter(new(10, output(OUT, PARENT, &[10])));
    assert_eq!(bench.enter(1, &[65_536]), "no 12");
    bench.silent(3, 1, 0, 0);
    bench.silent(6, 1, 0, 0);
    assert_eq!(bench.enter(1, &[65_536]), "no 12");
    assert_eq!(bench.ask(7, 1, 0, 0), "out1 65536");
    assert_eq!(bench.enter(1, &[65_536]), "in1 65536");
}

#[test]
fn i_a_box_sends_to_its_parent() {
    let mut bench = Bench::filter(parallel(vec![
        boxed(7, output(5, PARENT, &[20])),
        input(5, child(7), &[10], output(OUT, PARENT, &[10])),
    ]));
    bench.silent(3, 1, 0, 0);
    bench.silent(5, 1, 0, 1);
    assert_eq!(bench.send_out(1, 0), "out1 20");
}

#[test]
fn the_33rd_mid_is_refused_though_all_are_taken() {
    let echo = repeat(IN, PARENT, &[10], output(MID, PARENT, &[10]));
    let drain = repeat(MID, PARENT, &[10], Sketch::Nil);
    let mut bench = Bench::pipeline(echo, drain);
    for place in 0..32 {
        assert_eq!(bench.receive(1, &[20], 0), "tau");
        bench.silent(3, 1, 1, 0);
        bench.silent(8, 2, place, 0);
        bench.silent(2, 2, 0, 0);
        bench.silent(5, 2, 1, 0);
    }
    assert_eq!(bench.receive(1, &[20], 0), "tau");
    assert_eq!(bench.ask(3, 1, 1, 0), "no 17");
    assert_eq!(bench.ask(8, 2, 32, 0), "no 10");
}

/// An input with so many nodes: a chain of parallels with nil to the left,
/// under a box if the count is even.
fn nodes(count: usize) -> String {
    let mut listing = String::from("W 1\n");
    let mut next = 0;
    if count.is_multiple_of(2) {
        listing += "N 1 2 7 1 0 0\n";
        next = 1;
    }
    while next + 2 < count {
        listing += &format!("N 1 1 {} {} 0 0\n", next + 1, next + 2);
        listing += "N 1 0 0 0 0 0\n";
        next += 2;
    }
    listing + "N 1 0 0 0 0 0\n"
}

#[test]
fn node_count_255_256_257() {
    assert_eq!(nodes(255).lines().count(), 256);
    assert_eq!(nodes(256).lines().count(), 257);
    assert_eq!(nodes(257).lines().count(), 258);
    assert_eq!(bench(&nodes(255)), "ok\n");
    assert_eq!(bench(&nodes(256)), "ok\n");
    assert_eq!(bench(&nodes(257)), "refused 1 1 0\n");
}

#[test]
fn bound_names_8_and_9() {
    let chain = |count: u32| (0..count).fold(Sketch::Nil, |body, name| new(name, body));
    assert!(load(1, &[chain(8)]).is_ok());
    assert_eq!(refusal(load(1, &[chain(9)])), Some((6, 1, 9)));
}

#[test]
fn a_refusal_does_not_end_the_run() {
    let output = bench(
        "W 1
         N 1 0 0 0 0 0
         S 9 1 0 0
         S 1 1 0 0 20
         S 7 1 0 0
         S 2 1 0 0",
    );
    assert_eq!(output, "ok\n0 no 10\n1 in1 20\n2 no 13\n3 tau\n");
}
