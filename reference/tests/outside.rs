//! Names brought from outside: 196,608 + serial, serial 0 to 255.

mod common;
use common::{bench, Bench};
use reference::generator::sketch::{
    boxed, child, input, new, output, parallel, repeat, tuple, Sketch, PARENT, WITHIN,
};
use reference::state::{Act, OutputTag, Stage};
use reference::terms::{Direction, Name, MID};

const IN: u32 = 0;
const OUT: u32 = 1;
const MIDDLE: u32 = 2;
const PAIR: u32 = 4_000_002;
/// The first, some and the last of the names.
const FIRST: u32 = 196_608;
const SOME: u32 = 196_700;
const LAST: u32 = 196_863;

/// Sends everything that comes by the inlet up on a channel.
fn forward(channel: u32) -> Sketch {
    repeat(IN, PARENT, &[10], output(channel, PARENT, &[10]))
}

/// The handler under each wrapper, and the sides it then has.
fn wrapped(handler: &Sketch) -> Vec<(Bench, Vec<u32>)> {
    vec![
        (Bench::filter(handler.clone()), vec![1]),
        (Bench::logged(handler.clone()), vec![1]),
        (
            Bench::pipeline(handler.clone(), handler.clone()),
            vec![1, 2],
        ),
    ]
}

// ---- Entering ----------------------------------------------------------

#[test]
fn the_first_and_the_last_enter_and_their_neighbours_do_not() {
    for (mut bench, sides) in wrapped(&Sketch::Nil) {
        for side in sides {
            for word in [FIRST, SOME, LAST] {
                assert_eq!(bench.enter(side, &[word]), format!("in{side} {word}"));
            }
            for word in [196_607, 196_864, 262_144] {
                assert_eq!(bench.enter(side, &[word]), "no 11", "{word}");
                assert_eq!(bench.enter(side, &[PAIR, FIRST, word]), "no 11", "{word}");
            }
        }
    }
}

#[test]
fn all_256_enter() {
    let mut bench = Bench::filter(Sketch::Nil);
    for word in FIRST..=LAST {
        assert_eq!(bench.enter(1, &[word]), format!("in1 {word}"));
        bench.state.sides[0].lobby.clear();
    }
}

#[test]
fn a_value_that_is_malformed_otherwise_still_gives_11() {
    let mut bench = Bench::filter(Sketch::Nil);
    let bad: [&[u32]; 4] = [
        &[FIRST, FIRST],
        &[PAIR, FIRST],
        &[PAIR, FIRST, LAST, LAST],
        &[4_000_000, FIRST],
    ];
    for words in bad {
        assert_eq!(bench.enter(1, words), "no 11", "{words:?}");
    }
    let seventeen = [vec![4_000_001; 16], vec![LAST]].concat();
    assert_eq!(bench.enter(1, &seventeen), "no 11");
    let sixteen = [vec![4_000_015], vec![LAST; 15]].concat();
    assert!(bench.enter(1, &sixteen).starts_with("in1 4000015 196863"));
}

#[test]
fn a_minted_name_beside_one_from_outside_still_gives_12() {
    let mut bench = Bench::filter(new(10, output(OUT, PARENT, &[10])));
    assert_eq!(bench.enter(1, &[PAIR, FIRST, 65_536]), "no 12");
    assert_eq!(bench.enter(1, &[PAIR, 131_072, LAST]), "no 12");
    assert_eq!(bench.enter(1, &[PAIR, 65_536, 196_864]), "no 11");
    assert_eq!(bench.send_out(1, 0), "out1 65536");
    assert_eq!(
        bench.enter(1, &[PAIR, FIRST, 65_536]),
        "in1 4000002 196608 65536"
    );
    assert_eq!(bench.enter(1, &[PAIR, FIRST, 65_537]), "no 12");
}

#[test]
fn a_full_lobby_gives_17_and_an_unused_field_10() {
    let mut bench = Bench::filter(Sketch::Nil);
    for _ in 0..16 {
        assert_eq!(bench.enter(1, &[SOME]), "in1 196700");
    }
    assert_eq!(bench.enter(1, &[SOME]), "no 17");
    assert_eq!(bench.enter(1, &[196_864]), "no 11");
    let step = |side, i| reference::steps::Step {
        kind: 1,
        side,
        i,
        j: 0,
        value: vec![SOME],
    };
    assert_eq!(bench.step(step(1, 1)), "no 10");
    assert_eq!(bench.step(step(2, 0)), "no 10");
}

// ---- No count and no mark ----------------------------------------------

#[test]
fn it_leaves_no_mark_and_enters_again_as_before() {
    for (mut bench, sides) in wrapped(&forward(OUT)) {
        assert_eq!(bench.receive(1, &[PAIR, FIRST, LAST], 0), "tau");
        let out = bench.send_out(1, 1);
        assert_eq!(out, "out1 4000002 196608 196863");
        for side in sides {
            assert!(bench.side(side).left.is_empty());
            for word in [FIRST, LAST, SOME] {
                assert_eq!(bench.enter(side, &[word]), format!("in{side} {word}"));
            }
            assert_eq!(bench.enter(side, &[196_864]), "no 11");
        }
    }
}

#[test]
fn only_the_minted_name_beside_it_is_marked() {
    let body = new(11, output(OUT, PARENT, &tuple(&[10, 11])));
    let mut bench = Bench::filter(repeat(IN, PARENT, &[10], body));
    assert_eq!(bench.receive(1, &[FIRST], 0), "tau");
    assert_eq!(bench.enter(1, &[65_536]), "no 12");
    bench.state.sides[0].lobby.clear();
    assert_eq!(bench.send_out(1, 1), "out1 4000002 196608 65536");
    let minted = Name::Minted { side: 1, serial: 0 };
    assert_eq!(Vec::from_iter(&bench.side(1).left), [&minted]);
}

#[test]
fn it_is_not_minted() {
    let body = parallel(vec![
        output(OUT, PARENT, &[10]),
        new(11, output(OUT, PARENT, &[11])),
    ]);
    let mut bench = Bench::pipeline(repeat(IN, PARENT, &[10], body), Sketch::Nil);
    assert_eq!(bench.receive(1, &[LAST], 0), "tau");
    assert_eq!(bench.side(1).minted, 1);
    assert_eq!(bench.side(2).minted, 0);
    assert_eq!(bench.send_out(1, 2), "out1 65536");
    assert_eq!(bench.send_out(1, 1), "out1 196863");
}

// ---- In the place of a name --------------------------------------------

#[test]
fn as_a_channel() {
    let body = parallel(vec![
        output(10, WITHIN, &[20]),
        input(10, WITHIN, &[11], output(OUT, PARENT, &tuple(&[10, 11]))),
    ]);
    for (mut bench, sides) in wrapped(&repeat(IN, PARENT, &[10], body)) {
        for side in sides {
            assert_eq!(bench.receive(side, &[SOME], 0), "tau");
            bench.silent(5, side, 1, 2);
            let out = format!("out{side} 4000002 196700 20");
            assert_eq!(bench.send_out(side, 1), out);
        }
    }
}

#[test]
fn two_channels_of_which_one_is_another_name() {
    // in (y z). (y 20 | z(x). out x)
    let body = parallel(vec![
        output(10, WITHIN, &[20]),
        input(11, WITHIN, &[12], output(OUT, PARENT, &[12])),
    ]);
    let handler = repeat(IN, PARENT, &tuple(&[10, 11]), body);
    for other in [FIRST + 1, LAST, 0, 63] {
        let mut bench = Bench::filter(handler.clone());
        assert_eq!(bench.receive(1, &[PAIR, FIRST, other], 0), "tau");
        assert_eq!(bench.ask(5, 1, 1, 2), "no 13", "{other}");
    }
    let mut bench = Bench::filter(handler);
    assert_eq!(bench.receive(1, &[PAIR, FIRST, FIRST], 0), "tau");
    bench.silent(5, 1, 1, 2);
    assert_eq!(bench.send_out(1, 1), "out1 20");
}

#[test]
fn a_minted_name_of_the_same_serial_is_another_name() {
    // new x. in y. (y 20 | x(z). out z): 65,536 and 196,608 have serial 0.
    let body = parallel(vec![
        output(10, WITHIN, &[20]),
        input(9, WITHIN, &[12], output(OUT, PARENT, &[12])),
    ]);
    let mut bench = Bench::filter(new(9, repeat(IN, PARENT, &[10], body)));
    assert_eq!(bench.receive(1, &[FIRST], 0), "tau");
    assert_eq!(bench.ask(5, 1, 1, 2), "no 13");
}

#[test]
fn as_the_channel_of_what_goes_up() {
    let handler = repeat(IN, PARENT, &[10], output(10, PARENT, &[20]));
    let mut bench = Bench::pipeline(handler, Sketch::Nil);
    assert_eq!(bench.receive(1, &[FIRST], 0), "tau");
    bench.silent(3, 1, 1, 0);
    assert!(bench.state.shelf.is_empty());
    let stage = bench.side(1).lobby[0].stage;
    assert_eq!(stage, Stage::Arrived(Name::Outside(FIRST)));
    assert_eq!(bench.ask(6, 1, 0, 0), "no 13");
    assert_eq!(bench.state.stranded(1), [0]);
}

#[test]
fn as_tag_and_as_box_name() {
    // in y. (5^y 20 | y[5^up(x). 6^up x] | 6^y(x). out (y x))
    let body = parallel(vec![
        output(5, child(10), &[20]),
        boxed(10, input(5, PARENT, &[11], output(6, PARENT, &[11]))),
        input(6, child(10), &[11], output(OUT, PARENT, &tuple(&[10, 11]))),
    ]);
    let mut bench = Bench::filter(repeat(IN, PARENT, &[10], body));
    assert_eq!(bench.receive(1, &[LAST], 0), "tau");
    let name = Name::Outside(LAST);
    assert_eq!(bench.side(1).boxes[1].outside.map(|o| o.name), Some(name));
    let Act::Output(sent) = &bench.side(1).particles[1].act else {
        panic!("an input");
    };
    assert_eq!(sent.tag, OutputTag::To(Direction::Child(name)));
    bench.silent(4, 1, 1, 1);
    bench.silent(5, 1, 1, 2);
    bench.silent(3, 1, 2, 0);
    bench.silent(5, 1, 2, 1);
    assert_eq!(bench.send_out(1, 1), "out1 4000002 196863 20");
}

#[test]
fn a_box_of_another_name() {
    // in (y z). (5^y 20 | z[0])
    let body = parallel(vec![output(5, child(10), &[20]), boxed(11, Sketch::Nil)]);
    let mut bench = Bench::filter(repeat(IN, PARENT, &tuple(&[10, 11]), body));
    assert_eq!(bench.receive(1, &[PAIR, FIRST, LAST], 0), "tau");
    assert_eq!(bench.ask(4, 1, 1, 1), "no 13");
    assert_eq!(bench.receive(1, &[PAIR, FIRST, FIRST], 0), "tau");
    bench.silent(4, 1, 1, 2);
}

#[test]
fn twice_in_a_tuple() {
    let mut bench = Bench::filter(forward(OUT));
    let words = [PAIR, FIRST, FIRST];
    assert_eq!(bench.enter(1, &words), "in1 4000002 196608 196608");
    bench.silent(2, 1, 0, 0);
    bench.silent(5, 1, 1, 0);
    assert_eq!(bench.send_out(1, 1), "out1 4000002 196608 196608");
    let copies = repeat(IN, PARENT, &[10], output(OUT, PARENT, &tuple(&[10, 10])));
    let mut bench = Bench::filter(copies);
    assert_eq!(bench.receive(1, &[LAST], 0), "tau");
    assert_eq!(bench.send_out(1, 1), "out1 4000002 196863 196863");
}

#[test]
fn tuples_of_them_give_14_15_and_16_as_others_do() {
    let mut bench = Bench::filter(repeat(IN, PARENT, &tuple(&[10, 11]), Sketch::Nil));
    assert_eq!(bench.receive(1, &[SOME], 0), "no 14");
    let uses = repeat(IN, PARENT, &[10], output(10, WITHIN, &[10]));
    let mut bench = Bench::filter(uses);
    assert_eq!(bench.receive(1, &[4_000_001, SOME], 0), "no 15");
    assert_eq!(bench.receive(1, &[SOME], 0), "tau");
    let copies = repeat(IN, PARENT, &[10], output(OUT, PARENT, &tuple(&[10, 10])));
    let mut bench = Bench::filter(copies);
    let eight = [vec![4_000_007], vec![SOME; 7]].concat();
    assert_eq!(bench.receive(1, &eight, 0), "no 16");
}

// ---- In a table --------------------------------------------------------

#[test]
fn no_word_of_a_table() {
    for word in [FIRST, SOME, LAST] {
        let value = format!("W 1\nN 1 4 1 1 0 0\nV 1 {word}");
        assert_eq!(bench(&value), "refused 5 1 0\n");
        let part = format!("W 3\nN 1 4 1 1 0 0\nV 1 4000001\nV 1 {word}");
        assert_eq!(bench(&part), "refused 5 1 0\n");
        let pattern = format!(
            "W 2\nN 1 0 0 0 0 0\nN 2 5 0 1 0 1\nN 2 0 0 0 0 0\nV 2 4000002\nV 2 10\nV 2 {word}"
        );
        assert_eq!(bench(&pattern), "refused 5 2 0\n");
        let unread = format!("W 1\nN 1 4 1 1 1 0\nV 1 {word}\nV 1 20");
        assert_eq!(bench(&unread), "ok\n");
        for node in ["2 {} 1 0 0", "3 {} 1 0 0", "5 {} 1 0 1", "6 0 {} 0 1"] {
            let node = node.replace("{}", &word.to_string());
            let table = format!("W 1\nN 1 {node}\nN 1 0 0 0 0 0\nV 1 10");
            assert_eq!(bench(&table), "refused 4 1 0\n", "{node}");
        }
    }
}

// ---- From side to side -------------------------------------------------

#[test]
fn over_mid_and_out_of_the_second_outlet() {
    let second = repeat(MIDDLE, PARENT, &[10], output(OUT, PARENT, &[10]));
    let mut bench = Bench::pipeline(forward(MIDDLE), second);
    assert_eq!(bench.receive(1, &[PAIR, FIRST, LAST], 0), "tau");
    bench.silent(3, 1, 1, 0);
    assert_eq!(bench.state.shelf[0].words(), [PAIR, FIRST, LAST]);
    bench.silent(8, 2, 0, 0);
    assert_eq!(bench.side(2).lobby[0].stage, Stage::Down(MID));
    bench.silent(2, 2, 0, 0);
    bench.silent(5, 2, 1, 0);
    assert_eq!(bench.send_out(2, 1), "out2 4000002 196608 196863");
    assert!(bench.side(1).left.is_empty() && bench.side(2).left.is_empty());
    assert_eq!(bench.enter(1, &[FIRST]), "in1 196608");
    assert_eq!(bench.enter(2, &[LAST]), "in2 196863");
}

#[test]
fn side_2_answers_on_a_channel_that_came_over_mid() {
    // Side 1: in y. mid (y 20). Side 2: mid (y z). (y z | y(x). out (x y)).
    let first = repeat(IN, PARENT, &[10], output(MIDDLE, PARENT, &tuple(&[10, 20])));
    let body = parallel(vec![
        output(10, WITHIN, &[11]),
        input(10, WITHIN, &[12], output(OUT, PARENT, &tuple(&[12, 10]))),
    ]);
    let second = repeat(MIDDLE, PARENT, &tuple(&[10, 11]), body);
    let mut bench = Bench::pipeline(first, second);
    assert_eq!(bench.receive(1, &[SOME], 0), "tau");
    bench.silent(3, 1, 1, 0);
    bench.silent(8, 2, 0, 0);
    bench.silent(2, 2, 0, 0);
    bench.silent(5, 2, 1, 0);
    bench.silent(5, 2, 1, 2);
    assert_eq!(bench.send_out(2, 1), "out2 4000002 20 196700");
}

#[test]
fn what_entered_on_side_2_only_does_not_leave_by_the_first_outlet() {
    // Side 2 sends it up on `mid`, on `in` and on `out`; side 1 would send on
    // whatever came to it.
    let sends = [MIDDLE, IN, OUT].map(|channel| output(channel, PARENT, &[10]));
    let second = repeat(IN, PARENT, &[10], parallel(sends.to_vec()));
    let first = parallel(vec![
        forward(OUT),
        repeat(MIDDLE, PARENT, &[10], output(OUT, PARENT, &[10])),
    ]);
    let mut bench = Bench::pipeline(first, second);
    assert_eq!(bench.receive(2, &[SOME], 0), "tau");
    bench.silent(3, 2, 1, 0);
    bench.silent(3, 2, 1, 0);
    assert_eq!(bench.ask(6, 2, 0, 0), "no 13");
    assert_eq!(bench.ask(6, 2, 1, 0), "no 13");
    assert_eq!(bench.send_out(2, 1), "out2 196700");
    assert!(bench.state.shelf.is_empty() && bench.side(1).lobby.is_empty());
    assert_eq!(bench.ask(8, 2, 0, 0), "no 10");
    // The first outlet has what entered on side 1, and no more.
    assert_eq!(bench.receive(1, &[PAIR, 20, FIRST], 0), "tau");
    assert_eq!(bench.send_out(1, 2), "out1 4000002 20 196608");
    // A refused enter brings nothing.
    assert_eq!(bench.enter(1, &[PAIR, SOME, 65_536]), "no 12");
    assert_eq!(bench.enter(1, &[PAIR, SOME, 64]), "no 11");
    assert!(bench.side(1).lobby.is_empty());
    // Once it has entered on side 1 it does leave there.
    assert_eq!(bench.receive(1, &[SOME], 0), "tau");
    assert_eq!(bench.send_out(1, 2), "out1 196700");
}

// ---- The filter and the logging wrapper --------------------------------

#[test]
fn under_the_filter() {
    let output = common::bench(
        "W 1
         N 1 6 0 1 0 1
         N 1 4 1 1 0 0
         V 1 10
         S 1 1 0 0 196607
         S 1 1 0 0 196608
         S 2 1 0 0
         S 5 1 1 0
         S 3 1 1 0
         S 6 1 0 0
         S 7 1 0 0
         S 1 1 0 0 196863
         S 1 1 0 0 196864",
    );
    let expected = "ok\n0 no 11\n1 in1 196608\n2 tau\n3 tau\n4 tau\n5 tau\n6 out1 196608\n\
        7 in1 196863\n8 no 11\n";
    assert_eq!(output, expected);
}

#[test]
fn under_the_logging_wrapper() {
    let mut bench = Bench::logged(forward(OUT));
    assert_eq!(bench.enter(1, &[PAIR, LAST, 20]), "in1 4000002 196863 20");
    assert_eq!(bench.ask(7, 1, 0, 0), "log1 4000002 196863 20");
    assert!(bench.side(1).left.is_empty());
    bench.silent(2, 1, 0, 0);
    bench.silent(5, 1, 1, 0);
    bench.silent(3, 1, 1, 0);
    bench.silent(6, 1, 0, 0);
    assert_eq!(bench.ask(7, 1, 1, 0), "log1 4000002 196863 20");
    assert_eq!(bench.ask(7, 1, 0, 0), "out1 4000002 196863 20");
    assert!(bench.side(1).left.is_empty());
    assert_eq!(bench.enter(1, &[LAST]), "in1 196863");
}
