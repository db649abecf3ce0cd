//! The eight steps: what each does, each refusal just allowed and just
//! refused, and which refusal goes first.

mod common;
use common::Bench;
use reference::generator::sketch::{
    boxed, child, input, new, output, parallel, repeat, tuple, Sketch, PARENT, WITHIN,
};
use reference::state::{Act, Origin, OutputTag, Stage};
use reference::steps::Step;
use reference::terms::{Direction, Name, MID};

const IN: u32 = 0;
const OUT: u32 = 1;
const MIDDLE: u32 = 2;
/// The word of the empty tuple.
const EMPTY: u32 = 4_000_000;
/// The word of a pair.
const PAIR: u32 = 4_000_002;

/// The tag of the output at a position.
fn tag(bench: &Bench, side: u32, i: usize) -> OutputTag {
    match &bench.side(side).particles[i].act {
        Act::Output(output) => output.tag,
        Act::Input(_) => panic!("an input at {i}"),
    }
}

/// So many copies side by side.
fn many(count: usize, one: Sketch) -> Sketch {
    parallel(vec![one; count])
}

// ---- Names and minting -------------------------------------------------

#[test]
fn each_side_has_its_own_mint_count() {
    let mint = || new(10, output(OUT, PARENT, &[10]));
    let mut bench = Bench::pipeline(parallel(vec![mint(), mint()]), mint());
    assert_eq!(bench.send_out(1, 1), "out1 65537");
    assert_eq!(bench.send_out(1, 0), "out1 65536");
    assert_eq!(bench.send_out(2, 0), "out2 131072");
}

#[test]
fn unfolding_order_decides_serials() {
    let handler = parallel(vec![
        boxed(7, new(10, new(11, output(OUT, PARENT, &tuple(&[10, 11]))))),
        new(10, output(OUT, PARENT, &[10])),
    ]);
    let mut bench = Bench::filter(handler);
    assert_eq!(bench.send_out(1, 1), "out1 65538");
    bench.silent(3, 1, 0, 0);
    let Act::Output(output) = &bench.side(1).particles[0].act else {
        panic!("an input");
    };
    assert_eq!(output.value.words(), [PAIR, 65_536, 65_537]);
}

#[test]
fn new_under_an_input_mints_at_each_meeting() {
    let handler = repeat(IN, PARENT, &[10], new(11, output(OUT, PARENT, &[11])));
    let mut bench = Bench::filter(handler);
    assert_eq!(bench.side(1).minted, 0);
    assert_eq!(bench.receive(1, &[20], 0), "tau");
    assert_eq!(bench.receive(1, &[20], 0), "tau");
    assert_eq!(bench.send_out(1, 2), "out1 65537");
    assert_eq!(bench.send_out(1, 1), "out1 65536");
}

#[test]
fn an_entered_public_name_is_not_captured_by_a_binder_of_its_number() {
    // in 10. new 11. out <10 11>, and 11 enters.
    let body = new(11, output(OUT, PARENT, &tuple(&[10, 11])));
    let mut bench = Bench::filter(repeat(IN, PARENT, &[10], body));
    assert_eq!(bench.receive(1, &[11], 0), "tau");
    assert_eq!(bench.send_out(1, 1), "out1 4000002 11 65536");
}

#[test]
fn the_inner_binder_hides_the_outer_one() {
    let inner = input(IN, PARENT, &[10], output(OUT, PARENT, &[10]));
    let mut bench = Bench::filter(input(IN, PARENT, &[10], inner));
    assert_eq!(bench.receive(1, &[20], 0), "tau");
    assert_eq!(bench.receive(1, &[21], 0), "tau");
    assert_eq!(bench.send_out(1, 0), "out1 21");
}

#[test]
fn the_outer_name_is_seen_again_beside_the_inner_scope() {
    let handler = input(
        IN,
        PARENT,
        &[10],
        parallel(vec![
            new(10, output(OUT, PARENT, &[10])),
            output(OUT, PARENT, &[10]),
        ]),
    );
    let mut bench = Bench::filter(handler);
    assert_eq!(bench.receive(1, &[20], 0), "tau");
    assert_eq!(bench.send_out(1, 1), "out1 20");
    assert_eq!(bench.send_out(1, 0), "out1 65536");
}

#[test]
fn in_out_and_mid_can_be_bound() {
    // new out. out^parent: the minted channel is not `out`.
    let mut bench = Bench::filter(new(OUT, output(OUT, PARENT, &[20])));
    bench.silent(3, 1, 0, 0);
    assert_eq!(bench.ask(6, 1, 0, 0), "no 13");
    assert_eq!(bench.state.stranded(1), [0]);
    // in y. y^parent with y = public mid is `mid`.
    let handler = input(IN, PARENT, &[10], output(10, PARENT, &[20]));
    let mut bench = Bench::pipeline(handler, Sketch::Nil);
    assert_eq!(bench.receive(1, &[2], 0), "tau");
    bench.silent(3, 1, 0, 0);
    assert_eq!(bench.state.shelf.len(), 1);
    // A minted name under the number 2 is not `mid`.
    let handler = new(MIDDLE, output(MIDDLE, PARENT, &[20]));
    let mut bench = Bench::pipeline(handler, Sketch::Nil);
    bench.silent(3, 1, 0, 0);
    assert!(bench.state.shelf.is_empty());
    assert_eq!(bench.state.stranded(1), [0]);
}

// ---- Enter and down ----------------------------------------------------

#[test]
fn down_adds_a_received_output_last() {
    let mut bench = Bench::filter(output(OUT, PARENT, &[20]));
    bench.enter(1, &[21]);
    bench.enter(1, &[22]);
    bench.silent(2, 1, 1, 0);
    assert_eq!(bench.side(1).particles.len(), 2);
    assert_eq!(tag(&bench, 1, 1), OutputTag::From(Origin::Parent));
    assert_eq!(bench.side(1).particles[1].home, 0);
    assert_eq!(bench.side(1).lobby[0].value.words(), [21]);
    // A received output goes neither up nor down.
    assert_eq!(bench.ask(3, 1, 1, 0), "no 13");
    assert_eq!(bench.ask(4, 1, 1, 0), "no 13");
}

#[test]
fn entered_values() {
    let mut bench = Bench::filter(Sketch::Nil);
    let good: [&[u32]; 8] = [
        &[0],
        &[63],
        &[196_608],
        &[196_863],
        &[EMPTY],
        &[PAIR, 20, PAIR, 1, 2],
        &[4_000_015, 1, 2, 3, 4, 5, 6, 7, 8, 9, 10, 11, 12, 13, 14, 15],
        &[4_000_001, 4_000_001, 4_000_001, EMPTY],
    ];
    for words in good {
        let answer = bench.enter(1, words);
        assert!(answer.starts_with("in1 "), "{words:?} {answer}");
    }
    assert_eq!(
        bench
            .enter(1, &[vec![4_000_001; 15], vec![20]].concat())
            .len(),
        3 + 8 * 15 + 3
    );
}

#[test]
fn words_that_do_not_enter() {
    let mut bench = Bench::filter(Sketch::Nil);
    let bad: [&[u32]; 17] = [
        &[],
        &[64],
        &[65_535],
        &[65_792],
        &[131_071],
        &[131_328],
        &[196_607],
        &[196_864],
        &[4_999_999],
        &[4_000_016],
        &[5_000_000],
        &[u32::MAX],
        &[20, 20],
        &[EMPTY, 20],
        &[PAIR, 20],
        &[PAIR, 20, 20, 20],
        &[
            4_000_015, 4_000_001, 2, 3, 4, 5, 6, 7, 8, 9, 10, 11, 12, 13, 14, 15, 16,
        ],
    ];
    for words in bad {
        assert_eq!(bench.enter(1, words), "no 11", "{words:?}");
    }
    assert_eq!(
        bench.enter(1, &[vec![4_000_001; 16], vec![20]].concat()),
        "no 11"
    );
}

#[test]
fn minted_numbers_pass_11_and_give_12() {
    let mut bench = Bench::filter(Sketch::Nil);
    for word in [65_536, 65_791, 131_072, 131_327] {
        assert_eq!(bench.enter(1, &[word]), "no 12", "{word}");
    }
    assert_eq!(bench.enter(1, &[PAIR, 20, 65_536]), "no 12");
}

#[test]
fn eleven_before_twelve_before_seventeen() {
    let mut bench = Bench::filter(Sketch::Nil);
    for _ in 0..16 {
        bench.enter(1, &[20]);
    }
    assert_eq!(bench.enter(1, &[PAIR, 65_536, 64]), "no 11");
    assert_eq!(bench.enter(1, &[64]), "no 11");
    assert_eq!(bench.enter(1, &[65_536]), "no 12");
    assert_eq!(bench.enter(1, &[20]), "no 17");
}

#[test]
fn ten_before_eleven() {
    let mut bench = Bench::filter(Sketch::Nil);
    let step = |i, j, side| Step {
        kind: 1,
        side,
        i,
        j,
        value: vec![64],
    };
    assert_eq!(bench.step(step(1, 0, 1)), "no 10");
    assert_eq!(bench.step(step(0, 1, 1)), "no 10");
    assert_eq!(bench.step(step(0, 0, 2)), "no 10");
    assert_eq!(bench.step(step(0, 0, 1)), "no 11");
}

#[test]
fn a_name_that_left_by_either_outlet_may_enter_on_both_sides() {
    let mint = new(10, output(OUT, PARENT, &[10]));
    let mut bench = Bench::pipeline(mint.clone(), mint);
    assert_eq!(bench.enter(2, &[65_536]), "no 12");
    assert_eq!(bench.send_out(1, 0), "out1 65536");
    assert_eq!(bench.enter(2, &[65_536]), "in2 65536");
    assert_eq!(
        bench.enter(1, &[PAIR, 65_536, 65_536]),
        "in1 4000002 65536 65536"
    );
    assert_eq!(bench.enter(1, &[131_072]), "no 12");
    assert_eq!(bench.send_out(2, 0), "out2 131072");
    assert_eq!(bench.enter(1, &[131_072]), "in1 131072");
    // Never minted, so it has not left.
    assert_eq!(bench.enter(1, &[65_537]), "no 12");
}

#[test]
fn all_names_of_a_tuple_are_marked_as_left() {
    let value = [PAIR, 10, 4_000_001, 11];
    let mut bench = Bench::filter(new(10, new(11, output(OUT, PARENT, &value))));
    assert_eq!(bench.send_out(1, 0), "out1 4000002 65536 4000001 65537");
    assert_eq!(bench.enter(1, &[65_536]), "in1 65536");
    assert_eq!(bench.enter(1, &[65_537]), "in1 65537");
}

#[test]
fn a_name_sent_over_mid_has_not_left_until_side_2_sends_it_out() {
    let first = new(10, output(MIDDLE, PARENT, &[10]));
    let second = input(MIDDLE, PARENT, &[10], output(OUT, PARENT, &[10]));
    let mut bench = Bench::pipeline(first, second);
    bench.silent(3, 1, 0, 0);
    bench.silent(8, 2, 0, 0);
    bench.silent(2, 2, 0, 0);
    bench.silent(5, 2, 1, 0);
    assert_eq!(bench.enter(1, &[65_536]), "no 12");
    assert_eq!(bench.send_out(2, 0), "out2 65536");
    assert_eq!(bench.enter(1, &[65_536]), "in1 65536");
    // The mark stands in side 2's record, not in side 1's.
    assert!(bench.side(1).left.is_empty());
    let name = Name::Minted { side: 1, serial: 0 };
    assert!(bench.side(2).left.contains(&name));
}

#[test]
fn down_at_32_particles() {
    let mut bench = Bench::filter(many(31, output(5, WITHIN, &[20])));
    bench.enter(1, &[20]);
    bench.enter(1, &[20]);
    bench.silent(2, 1, 0, 0);
    assert_eq!(bench.side(1).particles.len(), 32);
    assert_eq!(bench.ask(2, 1, 0, 0), "no 17");
}

#[test]
fn down_closes_the_gap_in_the_lobby() {
    let mut bench = Bench::filter(Sketch::Nil);
    for word in 20..25 {
        bench.enter(1, &[word]);
    }
    bench.silent(2, 1, 1, 0);
    let lobby = &bench.side(1).lobby;
    let words: Vec<_> = lobby.iter().map(|message| message.value.words()).collect();
    assert_eq!(words, [[20], [22], [23], [24]]);
}

#[test]
fn leave_closes_the_gap_in_the_lobby() {
    let outputs = (20..25)
        .map(|value| output(OUT, PARENT, &[value]))
        .collect();
    let mut bench = Bench::filter(parallel(outputs));
    for _ in 0..5 {
        bench.silent(3, 1, 0, 0);
    }
    bench.silent(6, 1, 1, 0);
    assert_eq!(bench.ask(7, 1, 1, 0), "out1 21");
    let lobby = &bench.side(1).lobby;
    let words: Vec<_> = lobby.iter().map(|message| message.value.words()).collect();
    assert_eq!(words, [[20], [22], [23], [24]]);
}

#[test]
fn down_is_for_down_messages() {
    let mut bench = Bench::filter(output(OUT, PARENT, &[20]));
    bench.silent(3, 1, 0, 0);
    assert_eq!(bench.ask(2, 1, 0, 0), "no 13");
    bench.silent(6, 1, 0, 0);
    assert_eq!(bench.ask(2, 1, 0, 0), "no 13");
    assert_eq!(bench.ask(6, 1, 0, 0), "no 13");
    bench.enter(1, &[20]);
    assert_eq!(bench.ask(6, 1, 1, 0), "no 13");
    assert_eq!(bench.ask(7, 1, 1, 0), "no 13");
}

// ---- Up and descend ----------------------------------------------------

#[test]
fn up_keeps_the_position_and_names_the_box() {
    let handler = parallel(vec![
        boxed(7, boxed(8, output(5, PARENT, &[20]))),
        output(6, WITHIN, &[21]),
    ]);
    let mut bench = Bench::filter(handler);
    bench.silent(3, 1, 0, 0);
    let eight = Origin::Child(Name::Public(8));
    assert_eq!(tag(&bench, 1, 0), OutputTag::From(eight));
    assert_eq!(bench.side(1).particles[0].home, 1);
    assert_eq!(bench.ask(3, 1, 0, 0), "no 13");
    assert_eq!(bench.ask(3, 1, 1, 0), "no 13");
    assert_eq!(bench.ask(3, 1, 2, 0), "no 10");
}

#[test]
fn up_from_box_0_goes_to_the_lobby_until_it_is_full() {
    let mut bench = Bench::filter(many(18, output(5, PARENT, &[20])));
    for _ in 0..16 {
        bench.silent(3, 1, 0, 0);
    }
    assert_eq!(bench.side(1).particles.len(), 2);
    assert_eq!(bench.ask(3, 1, 0, 0), "no 17");
    assert_eq!(bench.state.stranded(1), Vec::from_iter(0..16));
}

#[test]
fn up_inside_does_not_ask_for_room_in_the_lobby() {
    let handler = parallel(vec![
        boxed(7, output(5, PARENT, &[20])),
        many(16, output(5, PARENT, &[20])),
    ]);
    let mut bench = Bench::filter(handler);
    for _ in 0..16 {
        bench.silent(3, 1, 1, 0);
    }
    bench.silent(3, 1, 0, 0);
}

#[test]
fn a_full_lobby_does_not_stop_mid_from_side_1() {
    let mut bench = Bench::pipeline(output(MIDDLE, PARENT, &[20]), Sketch::Nil);
    for _ in 0..16 {
        bench.enter(1, &[20]);
    }
    bench.silent(3, 1, 0, 0);
    assert_eq!(bench.state.shelf.len(), 1);
}

#[test]
fn mid_under_the_filter_arrives() {
    let mut bench = Bench::filter(output(MIDDLE, PARENT, &[20]));
    bench.silent(3, 1, 0, 0);
    assert_eq!(bench.side(1).lobby[0].stage, Stage::Arrived(MID));
    assert_eq!(bench.ask(6, 1, 0, 0), "no 13");
    assert_eq!(bench.state.stranded(1), [0]);
    assert_eq!(bench.ask(8, 1, 0, 0), "no 10");
    assert_eq!(bench.ask(8, 2, 0, 0), "no 10");
}

#[test]
fn descend_asks_for_a_child_of_that_name_only() {
    let handler = parallel(vec![
        output(5, child(7), &[20]),
        boxed(8, boxed(7, Sketch::Nil)),
        boxed(7, input(5, PARENT, &[10], Sketch::Nil)),
        input(6, WITHIN, &[10], Sketch::Nil),
        output(5, PARENT, &[20]),
    ]);
    let mut bench = Bench::filter(handler);
    // Box 1 is 8, box 2 is the 7 inside it, box 3 the 7 in box 0.
    assert_eq!(bench.ask(4, 1, 0, 0), "no 13");
    assert_eq!(bench.ask(4, 1, 0, 1), "no 13");
    assert_eq!(bench.ask(4, 1, 0, 2), "no 13");
    assert_eq!(bench.ask(4, 1, 0, 4), "no 10");
    assert_eq!(bench.ask(4, 1, 9, 3), "no 10");
    assert_eq!(bench.ask(4, 1, 2, 3), "no 13");
    assert_eq!(bench.ask(4, 1, 3, 3), "no 13");
    assert_eq!(bench.ask(4, 1, 3, 9), "no 10");
    bench.silent(4, 1, 0, 3);
    assert_eq!(bench.side(1).particles[0].home, 3);
    assert_eq!(tag(&bench, 1, 0), OutputTag::From(Origin::Parent));
    bench.silent(5, 1, 0, 1);
}

#[test]
fn descend_ignores_the_channel() {
    let handler = new(
        9,
        parallel(vec![output(9, child(7), &[20]), boxed(7, Sketch::Nil)]),
    );
    let mut bench = Bench::filter(handler);
    bench.silent(4, 1, 0, 1);
}

#[test]
fn descend_chooses_among_boxes_of_one_name() {
    let listener = || boxed(7, input(5, PARENT, &[10], output(6, PARENT, &[10])));
    let handler = parallel(vec![output(5, child(7), &[20]), listener(), listener()]);
    let mut bench = Bench::filter(handler);
    bench.silent(4, 1, 0, 2);
    assert_eq!(bench.ask(5, 1, 0, 1), "no 13");
    bench.silent(5, 1, 0, 2);
}

#[test]
fn a_box_named_by_a_minted_name() {
    let handler = new(
        7,
        parallel(vec![
            output(5, child(7), &[20]),
            boxed(7, input(5, PARENT, &[10], output(6, PARENT, &[10]))),
            input(6, child(7), &[10], output(OUT, PARENT, &[10])),
        ]),
    );
    let mut bench = Bench::filter(parallel(vec![handler, boxed(7, Sketch::Nil)]));
    assert_eq!(bench.ask(4, 1, 0, 2), "no 13");
    bench.silent(4, 1, 0, 1);
    bench.silent(5, 1, 0, 1);
    bench.silent(3, 1, 1, 0);
    bench.silent(5, 1, 1, 0);
    assert_eq!(bench.send_out(1, 0), "out1 20");
}

#[test]
fn tag_word_10_is_child_8() {
    let handler = parallel(vec![
        Sketch::Output(5, 10, vec![20]),
        boxed(10, Sketch::Nil),
        boxed(8, Sketch::Nil),
    ]);
    let mut bench = Bench::filter(handler);
    assert_eq!(bench.ask(4, 1, 0, 1), "no 13");
    bench.silent(4, 1, 0, 2);
}

// ---- Meet --------------------------------------------------------------

#[test]
fn a_plain_input_goes_and_a_replicated_one_stays() {
    let handler = parallel(vec![
        output(5, WITHIN, &[20]),
        input(5, WITHIN, &[10], Sketch::Nil),
        output(5, WITHIN, &[20]),
        repeat(5, WITHIN, &[10], Sketch::Nil),
    ]);
    let mut bench = Bench::filter(handler);
    bench.silent(5, 1, 0, 3);
    assert_eq!(bench.side(1).particles.len(), 3);
    bench.silent(5, 1, 1, 0);
    assert_eq!(bench.side(1).particles.len(), 1);
}

#[test]
fn what_a_meeting_adds_goes_last_and_gaps_close() {
    let handler = parallel(vec![
        output(6, WITHIN, &[1]),
        input(
            5,
            WITHIN,
            &[10],
            parallel(vec![output(6, WITHIN, &[10]), output(6, WITHIN, &[3])]),
        ),
        output(6, WITHIN, &[2]),
        output(5, WITHIN, &[20]),
        output(6, WITHIN, &[4]),
    ]);
    let mut bench = Bench::filter(handler);
    bench.silent(5, 1, 3, 1);
    let values: Vec<Vec<u32>> = bench
        .side(1)
        .particles
        .iter()
        .map(|particle| match &particle.act {
            Act::Output(output) => output.value.words(),
            Act::Input(_) => vec![],
        })
        .collect();
    assert_eq!(values, [[1], [2], [4], [20], [3]]);
}

#[test]
fn which_tags_meet() {
    let inputs = vec![
        repeat(5, WITHIN, &[10], Sketch::Nil),
        repeat(5, PARENT, &[10], Sketch::Nil),
        repeat(5, child(7), &[10], Sketch::Nil),
        repeat(5, child(8), &[10], Sketch::Nil),
    ];
    let outputs = vec![
        output(5, WITHIN, &[20]),
        output(5, PARENT, &[20]),
        output(5, child(7), &[20]),
        boxed(7, output(5, PARENT, &[20])),
    ];
    let mut bench = Bench::filter(parallel([inputs, outputs].concat()));
    let fitting = |i: u32| -> Vec<u32> {
        let meets = |j: &u32| bench.clone().ask(5, 1, i, *j) == "tau";
        (0..4).filter(meets).collect()
    };
    assert_eq!(fitting(4), [0]);
    assert!(fitting(5).is_empty());
    assert!(fitting(6).is_empty());
    assert!(fitting(7).is_empty());
    bench.silent(3, 1, 7, 0);
    let meets = |j: &u32| bench.clone().ask(5, 1, 7, *j) == "tau";
    assert_eq!((0..4).filter(meets).collect::<Vec<_>>(), [2]);
}

#[test]
fn received_from_the_parent_meets_parent_only() {
    let inputs = vec![
        repeat(IN, WITHIN, &[10], Sketch::Nil),
        repeat(IN, child(7), &[10], Sketch::Nil),
        repeat(OUT, PARENT, &[10], Sketch::Nil),
        boxed(7, repeat(IN, PARENT, &[10], Sketch::Nil)),
        repeat(IN, PARENT, &[10], Sketch::Nil),
    ];
    let mut bench = Bench::filter(parallel(inputs));
    bench.enter(1, &[20]);
    bench.silent(2, 1, 0, 0);
    for j in 0..4 {
        assert_eq!(bench.ask(5, 1, 5, j), "no 13", "{j}");
    }
    assert_eq!(bench.ask(5, 1, 5, 5), "no 13");
    assert_eq!(bench.ask(5, 1, 4, 5), "no 13");
    assert_eq!(bench.ask(5, 1, 0, 4), "no 13");
    assert_eq!(bench.ask(5, 1, 5, 6), "no 10");
    assert_eq!(bench.ask(5, 1, 6, 4), "no 10");
    bench.silent(5, 1, 5, 4);
}

#[test]
fn the_body_unfolds_in_the_box_of_the_input() {
    let handler = boxed(
        7,
        parallel(vec![
            output(5, WITHIN, &[20]),
            input(
                5,
                WITHIN,
                &[10],
                parallel(vec![
                    output(6, PARENT, &[10]),
                    boxed(9, output(6, PARENT, &[10])),
                ]),
            ),
        ]),
    );
    let mut bench = Bench::filter(handler);
    bench.silent(5, 1, 0, 1);
    assert_eq!(bench.side(1).particles[0].home, 1);
    assert_eq!(bench.side(1).particles[1].home, 2);
    let inside = bench.side(1).boxes[2].outside.unwrap();
    assert_eq!((inside.parent, inside.name), (1, Name::Public(9)));
}

#[test]
fn shapes_of_patterns() {
    let cases: [(&[u32], &[u32], &str); 12] = [
        (&[4_999_999], &[20], "tau"),
        (&[4_999_999], &[PAIR, 1, 2], "tau"),
        (&[10], &[PAIR, 1, 2], "tau"),
        (&[EMPTY], &[EMPTY], "tau"),
        (&[EMPTY], &[20], "no 14"),
        (&[EMPTY], &[4_000_001, 20], "no 14"),
        (&[PAIR, 10, 11], &[20], "no 14"),
        (&[PAIR, 10, 11], &[PAIR, EMPTY, PAIR, 1, 2], "tau"),
        (&[PAIR, 10, 4_000_001, 11], &[PAIR, 1, 2], "no 14"),
        (&[PAIR, 10, 4_000_001, 11], &[PAIR, 1, 4_000_001, 2], "tau"),
        (
            &[PAIR, 4_999_999, 4_000_001, 11],
            &[PAIR, 1, PAIR, 2, 3],
            "no 14",
        ),
        (&[4_000_001, 10], &[EMPTY], "no 14"),
    ];
    for (pattern, value, answer) in cases {
        let mut bench = Bench::filter(repeat(IN, PARENT, pattern, Sketch::Nil));
        assert_eq!(bench.receive(1, value, 0), answer, "{pattern:?} {value:?}");
    }
}

#[test]
fn parts_go_to_the_names_in_order() {
    let pattern = [4_000_003, 12, PAIR, 11, 4_999_999, 10];
    let handler = repeat(
        IN,
        PARENT,
        &pattern,
        output(OUT, PARENT, &tuple(&[10, 11, 12])),
    );
    let mut bench = Bench::filter(handler);
    assert_eq!(
        bench.receive(1, &[4_000_003, 1, PAIR, 2, 3, EMPTY], 0),
        "tau"
    );
    assert_eq!(bench.send_out(1, 1), "out1 4000003 4000000 2 1");
}

// ---- 15 ----------------------------------------------------------------

/// The answer when the empty tuple meets `!in 10. body`.
fn tuple_into(body: Sketch) -> String {
    let mut bench = Bench::filter(repeat(IN, PARENT, &[10], body));
    bench.receive(1, &[EMPTY], 0)
}

#[test]
fn fifteen_for_channel_tag_and_box_name() {
    assert_eq!(tuple_into(output(10, WITHIN, &[20])), "no 15");
    assert_eq!(tuple_into(output(5, child(10), &[20])), "no 15");
    assert_eq!(tuple_into(input(10, WITHIN, &[11], Sketch::Nil)), "no 15");
    assert_eq!(tuple_into(repeat(10, WITHIN, &[11], Sketch::Nil)), "no 15");
    assert_eq!(tuple_into(input(5, child(10), &[11], Sketch::Nil)), "no 15");
    assert_eq!(tuple_into(boxed(10, Sketch::Nil)), "no 15");
}

#[test]
fn no_fifteen_for_values_and_binders() {
    assert_eq!(tuple_into(Sketch::Nil), "tau");
    assert_eq!(tuple_into(output(5, WITHIN, &[10])), "tau");
    assert_eq!(tuple_into(output(5, WITHIN, &[PAIR, 10, 10])), "tau");
    assert_eq!(tuple_into(new(10, Sketch::Nil)), "tau");
    assert_eq!(tuple_into(input(5, WITHIN, &[10], Sketch::Nil)), "tau");
    assert_eq!(tuple_into(output(8, child(8), &[20])), "tau");
    assert_eq!(tuple_into(Sketch::Output(5, 10, vec![20])), "tau");
}

#[test]
fn fifteen_however_deep() {
    let bad = || output(10, PARENT, &[20]);
    assert_eq!(tuple_into(parallel(vec![Sketch::Nil, bad()])), "no 15");
    assert_eq!(tuple_into(parallel(vec![bad(), Sketch::Nil])), "no 15");
    assert_eq!(tuple_into(boxed(7, bad())), "no 15");
    assert_eq!(tuple_into(new(11, bad())), "no 15");
    assert_eq!(tuple_into(input(5, WITHIN, &[11], bad())), "no 15");
    assert_eq!(
        tuple_into(repeat(5, WITHIN, &[PAIR, 11, 12], boxed(7, new(13, bad())))),
        "no 15"
    );
}

#[test]
fn fifteen_and_hiding() {
    let bad = || output(10, PARENT, &[10]);
    assert_eq!(tuple_into(new(10, bad())), "tau");
    assert_eq!(tuple_into(input(5, WITHIN, &[10], bad())), "tau");
    assert_eq!(
        tuple_into(repeat(5, WITHIN, &[PAIR, 11, 10], boxed(10, bad()))),
        "tau"
    );
    // Beside the inner scope the name is free again.
    assert_eq!(tuple_into(parallel(vec![new(10, bad()), bad()])), "no 15");
    // The inner input's own channel and tag are outside its pattern.
    assert_eq!(tuple_into(input(10, WITHIN, &[10], Sketch::Nil)), "no 15");
    assert_eq!(tuple_into(input(5, child(10), &[10], bad())), "no 15");
    assert_eq!(
        tuple_into(new(11, input(5, WITHIN, &[12], new(10, bad())))),
        "tau"
    );
}

#[test]
fn a_hidden_tuple_does_not_matter_later() {
    // in 10. in 10. 10^within 10: a tuple first, then a name.
    let inner = input(IN, PARENT, &[10], output(10, WITHIN, &[10]));
    let mut bench = Bench::filter(repeat(IN, PARENT, &[10], inner));
    assert_eq!(bench.receive(1, &[EMPTY], 0), "tau");
    assert_eq!(bench.receive(1, &[EMPTY], 1), "no 15");
    assert_eq!(bench.receive(1, &[20], 1), "tau");
}

#[test]
fn fifteen_only_for_names_bound_to_tuples() {
    let handler = repeat(IN, PARENT, &[PAIR, 10, 11], output(10, WITHIN, &[11]));
    let mut bench = Bench::filter(handler);
    assert_eq!(bench.receive(1, &[PAIR, 20, EMPTY], 0), "tau");
    assert_eq!(bench.receive(1, &[PAIR, EMPTY, 20], 0), "no 15");
}

#[test]
fn fourteen_before_fifteen_before_sixteen_before_seventeen() {
    // !in (10 11). ( 10^within 11 | out <11 x 8> | 40 outputs )
    let handler = repeat(
        IN,
        PARENT,
        &[PAIR, 10, 11],
        parallel(vec![
            many(40, output(6, WITHIN, &[20])),
            output(10, WITHIN, &[11]),
            output(OUT, PARENT, &tuple(&[11; 8])),
        ]),
    );
    let mut bench = Bench::filter(handler);
    let long = [PAIR, 1, 2];
    assert_eq!(bench.receive(1, &[EMPTY], 0), "no 14");
    let words = [&[PAIR, EMPTY], &long[..]].concat();
    assert_eq!(bench.receive(1, &words, 0), "no 15");
    let words = [&[PAIR, 20], &long[..]].concat();
    assert_eq!(bench.receive(1, &words, 0), "no 16");
    assert_eq!(bench.receive(1, &[PAIR, 20, 21], 0), "no 17");
}

#[test]
fn thirteen_before_fourteen() {
    let handler = parallel(vec![
        output(5, WITHIN, &[EMPTY]),
        repeat(6, WITHIN, &[PAIR, 10, 11], Sketch::Nil),
        repeat(5, PARENT, &[PAIR, 10, 11], Sketch::Nil),
        repeat(5, WITHIN, &[PAIR, 10, 11], Sketch::Nil),
    ]);
    let mut bench = Bench::filter(handler);
    assert_eq!(bench.ask(5, 1, 0, 1), "no 13");
    assert_eq!(bench.ask(5, 1, 0, 2), "no 13");
    assert_eq!(bench.ask(5, 1, 0, 3), "no 14");
}

// ---- 16 ----------------------------------------------------------------

#[test]
fn sixteen_words_are_allowed_and_seventeen_refused() {
    let handler = repeat(IN, PARENT, &[10], output(OUT, PARENT, &[4_000_001, 10]));
    let mut bench = Bench::filter(handler);
    let fifteen = [vec![4_000_014], vec![20; 14]].concat();
    let sixteen = [vec![4_000_015], vec![20; 15]].concat();
    assert_eq!(bench.receive(1, &fifteen, 0), "tau");
    assert_eq!(bench.receive(1, &sixteen, 0), "no 16");
}

#[test]
fn sixteen_only_when_the_output_becomes_active() {
    let long = output(OUT, PARENT, &tuple(&[10, 10, 10]));
    let handler = input(IN, PARENT, &[10], input(5, WITHIN, &[11], long));
    let handler = parallel(vec![handler, output(5, WITHIN, &[20])]);
    let mut bench = Bench::filter(handler);
    let eight = [vec![4_000_007], vec![20; 7]].concat();
    assert_eq!(bench.receive(1, &eight, 0), "tau");
    assert_eq!(bench.ask(5, 1, 0, 1), "no 16");
}

#[test]
fn sixteen_in_a_box_and_under_new() {
    let long = || output(OUT, PARENT, &tuple(&[10; 8]));
    let eight = [PAIR, 1, 2];
    for body in [
        boxed(7, long()),
        new(11, long()),
        parallel(vec![Sketch::Nil, long()]),
    ] {
        let mut bench = Bench::filter(repeat(IN, PARENT, &[10], body));
        assert_eq!(bench.receive(1, &eight, 0), "no 16");
    }
}

#[test]
fn sixteen_before_seventeen_for_boxes_and_minted_names_too() {
    let long = || output(OUT, PARENT, &tuple(&[10; 8]));
    let boxes = parallel(vec![many(16, boxed(7, Sketch::Nil)), long()]);
    let mut bench = Bench::filter(repeat(IN, PARENT, &[10], boxes));
    assert_eq!(bench.receive(1, &[PAIR, 1, 2], 0), "no 16");
    assert_eq!(bench.receive(1, &[20], 0), "no 17");
}

// ---- 17 ----------------------------------------------------------------

#[test]
fn particles_after_a_meeting() {
    // The state after counts: 32 and one or two go, as many come.
    let adds = |count: usize| many(count, output(6, WITHIN, &[20]));
    let fill = many(30, output(6, WITHIN, &[20]));
    let plain = |count: usize| {
        let mut bench = Bench::filter(parallel(vec![
            output(5, WITHIN, &[20]),
            input(5, WITHIN, &[10], adds(count)),
            fill.clone(),
        ]));
        assert_eq!(bench.side(1).particles.len(), 32);
        bench.ask(5, 1, 0, 1)
    };
    assert_eq!(plain(2), "tau");
    assert_eq!(plain(3), "no 17");
    let replicated = |count: usize| {
        let mut bench = Bench::filter(parallel(vec![
            output(5, WITHIN, &[20]),
            repeat(5, WITHIN, &[10], adds(count)),
            fill.clone(),
        ]));
        bench.ask(5, 1, 0, 1)
    };
    assert_eq!(replicated(1), "tau");
    assert_eq!(replicated(2), "no 17");
}

#[test]
fn boxes_after_a_meeting() {
    let mut bench = Bench::filter(repeat(IN, PARENT, &[10], many(5, boxed(7, Sketch::Nil))));
    for _ in 0..3 {
        assert_eq!(bench.receive(1, &[20], 0), "tau");
    }
    assert_eq!(bench.side(1).boxes.len(), 16);
    assert_eq!(bench.receive(1, &[20], 0), "no 17");
}

#[test]
fn minted_names_after_a_meeting() {
    let mint = |count: usize| many(count, new(11, Sketch::Nil));
    let handler = parallel(vec![
        repeat(IN, PARENT, &[10], mint(64)),
        repeat(5, PARENT, &[10], Sketch::Nil),
    ]);
    let mut bench = Bench::filter(handler);
    for _ in 0..4 {
        assert_eq!(bench.receive(1, &[20], 0), "tau");
    }
    assert_eq!(bench.side(1).minted, 256);
    assert_eq!(bench.receive(1, &[20], 0), "no 17");
}

#[test]
fn the_last_minted_name_can_leave_and_enter() {
    let seventeen = repeat(IN, PARENT, &[10], many(17, new(11, Sketch::Nil)));
    let one = repeat(5, WITHIN, &[10], new(11, output(OUT, PARENT, &[11])));
    let start = many(2, output(5, WITHIN, &[20]));
    let mut bench = Bench::filter(parallel(vec![seventeen, one, start]));
    for _ in 0..15 {
        assert_eq!(bench.receive(1, &[20], 0), "tau");
    }
    assert_eq!(bench.side(1).minted, 255);
    bench.silent(5, 1, 2, 1);
    assert_eq!(bench.side(1).minted, 256);
    assert_eq!(bench.ask(5, 1, 2, 1), "no 17");
    assert_eq!(bench.send_out(1, 3), "out1 65791");
    assert_eq!(bench.enter(1, &[65_791]), "in1 65791");
}

#[test]
fn minting_does_not_count_for_the_other_side() {
    let handler = || repeat(IN, PARENT, &[10], many(64, new(11, Sketch::Nil)));
    let mut bench = Bench::pipeline(handler(), handler());
    for _ in 0..4 {
        assert_eq!(bench.receive(1, &[20], 0), "tau");
    }
    assert_eq!(bench.receive(1, &[20], 0), "no 17");
    for _ in 0..4 {
        assert_eq!(bench.receive(2, &[20], 0), "tau");
    }
}

#[test]
fn freed_lobby_places_serve_again() {
    let mut bench = Bench::filter(many(2, output(OUT, PARENT, &[20])));
    bench.silent(3, 1, 0, 0);
    for _ in 0..15 {
        bench.enter(1, &[21]);
    }
    assert_eq!(bench.ask(3, 1, 0, 0), "no 17");
    bench.silent(6, 1, 0, 0);
    assert_eq!(bench.ask(3, 1, 0, 0), "no 17");
    assert_eq!(bench.ask(7, 1, 0, 0), "out1 20");
    bench.silent(3, 1, 0, 0);
    // The gap closed: the arrived message is now the last of 16.
    bench.silent(6, 1, 15, 0);
}

#[test]
fn take_into_a_full_lobby() {
    let mut bench = Bench::pipeline(many(2, output(MIDDLE, PARENT, &[20])), Sketch::Nil);
    bench.silent(3, 1, 0, 0);
    bench.silent(3, 1, 0, 0);
    bench.silent(8, 2, 0, 0);
    for _ in 0..15 {
        bench.enter(2, &[21]);
    }
    assert_eq!(bench.ask(8, 2, 1, 0), "no 17");
    assert_eq!(bench.ask(8, 2, 0, 0), "no 13");
    assert_eq!(bench.ask(8, 2, 2, 0), "no 10");
    bench.silent(2, 2, 3, 0);
    bench.silent(8, 2, 1, 0);
}

// ---- Pass, leave, take -------------------------------------------------

#[test]
fn pass_keeps_the_place_and_leave_closes_the_gap() {
    let handler = parallel(vec![output(OUT, PARENT, &[20]), output(OUT, PARENT, &[21])]);
    let mut bench = Bench::filter(handler);
    bench.silent(3, 1, 0, 0);
    bench.enter(1, &[22]);
    bench.silent(3, 1, 0, 0);
    assert_eq!(bench.ask(7, 1, 0, 0), "no 13");
    bench.silent(6, 1, 0, 0);
    bench.silent(6, 1, 2, 0);
    assert_eq!(bench.ask(7, 1, 0, 0), "out1 20");
    assert_eq!(bench.ask(7, 1, 2, 0), "no 10");
    assert_eq!(bench.ask(7, 1, 1, 0), "out1 21");
}

#[test]
fn a_taken_message_goes_down_on_mid() {
    let second = parallel(vec![
        repeat(IN, PARENT, &[10], Sketch::Nil),
        repeat(MIDDLE, PARENT, &[10], output(OUT, PARENT, &[10])),
    ]);
    let mut bench = Bench::pipeline(output(MIDDLE, PARENT, &[PAIR, 1, 2]), second);
    bench.silent(3, 1, 0, 0);
    bench.silent(8, 2, 0, 0);
    assert_eq!(bench.side(2).lobby[0].stage, Stage::Down(MID));
    bench.silent(2, 2, 0, 0);
    assert_eq!(bench.ask(5, 2, 2, 0), "no 13");
    bench.silent(5, 2, 2, 1);
    assert_eq!(bench.send_out(2, 2), "out2 4000002 1 2");
    // The shelf keeps its message.
    assert_eq!(bench.state.shelf.len(), 1);
}

#[test]
fn shelf_messages_may_be_taken_in_any_order() {
    let outputs = (20..23)
        .map(|value| output(MIDDLE, PARENT, &[value]))
        .collect();
    let mut bench = Bench::pipeline(parallel(outputs), Sketch::Nil);
    for _ in 0..3 {
        bench.silent(3, 1, 0, 0);
    }
    bench.silent(8, 2, 2, 0);
    bench.silent(8, 2, 0, 0);
    assert_eq!(bench.ask(8, 2, 2, 0), "no 13");
    bench.silent(8, 2, 1, 0);
    let words: Vec<_> = bench
        .side(2)
        .lobby
        .iter()
        .map(|m| m.value.words())
        .collect();
    assert_eq!(words, [[22], [20], [21]]);
}

// ---- 10 ----------------------------------------------------------------

#[test]
fn unused_fields_and_value_words() {
    let handler = || {
        parallel(vec![
            output(OUT, PARENT, &[20]),
            output(5, child(7), &[20]),
            boxed(7, Sketch::Nil),
            output(5, WITHIN, &[20]),
            repeat(5, WITHIN, &[10], Sketch::Nil),
        ])
    };
    let first = parallel(vec![handler(), output(MIDDLE, PARENT, &[20])]);
    let mut bench = Bench::pipeline(first, handler());
    bench.silent(3, 1, 4, 0);
    bench.enter(2, &[20]);
    let mut lobby = bench.clone();
    lobby.silent(3, 2, 0, 0);
    let mut leaving = lobby.clone();
    leaving.silent(6, 2, 1, 0);
    let steps: [(&Bench, u32, u32, u32); 7] = [
        (&bench, 2, 0, 0),
        (&bench, 3, 0, 0),
        (&bench, 4, 1, 1),
        (&bench, 5, 2, 3),
        (&lobby, 6, 1, 0),
        (&leaving, 7, 1, 0),
        (&bench, 8, 0, 0),
    ];
    for (bench, kind, i, j) in steps {
        let step = |j: u32, value: &[u32]| Step {
            kind,
            side: 2,
            i,
            j,
            value: value.to_vec(),
        };
        assert!(
            !bench.clone().step(step(j, &[])).starts_with("no"),
            "{kind}"
        );
        assert_eq!(bench.clone().step(step(j, &[20])), "no 10", "{kind}");
        if kind != 4 && kind != 5 {
            assert_eq!(bench.clone().step(step(1, &[])), "no 10", "{kind}");
        }
    }
}

#[test]
fn kinds_and_sides_that_do_not_exist() {
    let mut bench = Bench::pipeline(Sketch::Nil, Sketch::Nil);
    for kind in [0, 9, 10, u32::MAX] {
        assert_eq!(bench.ask(kind, 1, 0, 0), "no 10");
    }
    let enter = |side: u32| Step {
        kind: 1,
        side,
        i: 0,
        j: 0,
        value: vec![20],
    };
    for side in [0, 3, u32::MAX] {
        assert_eq!(bench.step(enter(side)), "no 10");
    }
    assert_eq!(bench.step(enter(2)), "in2 20");
    let mut bench = Bench::filter(Sketch::Nil);
    assert_eq!(bench.step(enter(2)), "no 10");
}

#[test]
fn take_is_side_2s_under_the_pipeline() {
    let mut bench = Bench::pipeline(output(MIDDLE, PARENT, &[20]), Sketch::Nil);
    bench.silent(3, 1, 0, 0);
    assert_eq!(bench.ask(8, 1, 0, 0), "no 10");
    assert_eq!(bench.ask(8, 2, 1, 0), "no 10");
    bench.silent(8, 2, 0, 0);
}

#[test]
fn positions_just_past_each_list() {
    let mut bench = Bench::filter(many(2, output(OUT, PARENT, &[20])));
    assert_eq!(bench.ask(3, 1, 2, 0), "no 10");
    assert_eq!(bench.ask(3, 1, u32::MAX, 0), "no 10");
    assert_eq!(bench.ask(2, 1, 0, 0), "no 10");
    bench.enter(1, &[20]);
    assert_eq!(bench.ask(2, 1, 1, 0), "no 10");
    assert_eq!(bench.ask(6, 1, 1, 0), "no 10");
    assert_eq!(bench.ask(7, 1, 1, 0), "no 10");
    assert_eq!(bench.ask(5, 1, 0, 2), "no 10");
    assert_eq!(bench.ask(5, 1, 2, 0), "no 10");
    assert_eq!(bench.ask(5, 1, 0, 0), "no 13");
    assert_eq!(bench.ask(4, 1, 0, 1), "no 10");
    assert_eq!(bench.ask(4, 1, 0, 0), "no 13");
}

// ---- Stranded ----------------------------------------------------------

#[test]
fn stranded_messages() {
    let handler = parallel(vec![
        output(OUT, PARENT, &[20]),
        output(IN, PARENT, &[20]),
        new(9, output(9, PARENT, &[20])),
    ]);
    let mut bench = Bench::filter(handler);
    bench.enter(1, &[20]);
    bench.silent(3, 1, 0, 0);
    assert_eq!(bench.state.stranded(1), []);
    bench.silent(6, 1, 1, 0);
    assert_eq!(bench.state.stranded(1), []);
    bench.silent(3, 1, 1, 0);
    assert_eq!(bench.state.stranded(1), [2]);
    bench.silent(3, 1, 0, 0);
    assert_eq!(bench.state.stranded(1), [2, 3]);
    for side in [0, 2, 3, u32::MAX] {
        assert_eq!(bench.state.stranded(side), []);
    }
}

#[test]
fn a_tag_resolves_to_the_bound_name() {
    // in 10. ( 10[5^parent 20] | 5 from 10 ): box and tag get the entered name.
    let body = parallel(vec![
        boxed(10, output(5, PARENT, &[20])),
        input(5, child(10), &[11], output(OUT, PARENT, &[11])),
    ]);
    let mut bench = Bench::filter(input(IN, PARENT, &[10], body));
    assert_eq!(bench.receive(1, &[33], 0), "tau");
    let Act::Input(waiting) = &bench.side(1).particles[1].act else {
        panic!("an output");
    };
    assert_eq!(waiting.tag, Direction::Child(Name::Public(33)));
    bench.silent(3, 1, 0, 0);
    bench.silent(5, 1, 0, 1);
    assert_eq!(bench.send_out(1, 0), "out1 20");
}
