//! The logging wrapper L of document 004, section 3: its input on `in` has the
//! body `log y | in y`, its input on `out` the body `log y | out y`.

mod common;
use common::{bench, copier, Bench};
use reference::generator::sketch::{new, output, parallel, Sketch, PARENT};
use reference::state::Stage;
use reference::terms::{IN, LOG, OUT};

const ON_OUT: u32 = 1;
const ON_MID: u32 = 2;
const ON_LOG: u32 = 3;

fn stages(bench: &Bench) -> Vec<Stage> {
    let lobby = &bench.state.sides[0].lobby;
    lobby.iter().map(|message| message.stage).collect()
}

#[test]
fn both_bodies_send_a_copy() {
    let mut bench = Bench::logged(copier());
    assert_eq!(bench.enter(1, &[20]), "in1 20");
    assert_eq!(stages(&bench), [Stage::Leaving(LOG), Stage::Down(IN)]);
    assert_eq!(bench.ask(2, 1, 0, 0), "no 13");
    bench.silent(2, 1, 1, 0);
    bench.silent(5, 1, 1, 0);
    bench.silent(3, 1, 1, 0);
    assert_eq!(bench.enter(1, &[21]), "in1 21");
    bench.silent(6, 1, 1, 0);
    let expected = [
        Stage::Leaving(LOG),
        Stage::Leaving(OUT),
        Stage::Leaving(LOG),
        Stage::Down(IN),
        Stage::Leaving(LOG),
    ];
    assert_eq!(stages(&bench), expected);
    assert_eq!(bench.ask(7, 1, 4, 0), "log1 4000002 20 20");
    assert_eq!(bench.ask(7, 1, 2, 0), "log1 21");
    assert_eq!(bench.ask(7, 1, 0, 0), "log1 20");
    assert_eq!(bench.ask(7, 1, 0, 0), "out1 4000002 20 20");
}

#[test]
fn enter_needs_two_places() {
    let mut bench = Bench::logged(Sketch::Nil);
    for _ in 0..8 {
        assert_eq!(bench.enter(1, &[20]), "in1 20");
    }
    assert_eq!(bench.enter(1, &[20]), "no 17");
    assert_eq!(bench.ask(7, 1, 0, 0), "log1 20");
    assert_eq!(bench.enter(1, &[20]), "no 17");
    assert_eq!(bench.enter(1, &[64]), "no 11");
    assert_eq!(bench.enter(1, &[65536]), "no 12");
    assert_eq!(bench.ask(7, 1, 1, 0), "log1 20");
    assert_eq!(bench.enter(1, &[20]), "in1 20");
}

#[test]
fn pass_needs_one_place() {
    let handler = parallel(vec![
        output(ON_OUT, PARENT, &[20]),
        output(ON_OUT, PARENT, &[21]),
    ]);
    let mut bench = Bench::logged(handler);
    bench.silent(3, 1, 0, 0);
    bench.silent(3, 1, 0, 0);
    for _ in 0..7 {
        assert_eq!(bench.enter(1, &[22]), "in1 22");
    }
    assert_eq!(bench.ask(6, 1, 0, 0), "no 17");
    assert_eq!(bench.ask(6, 1, 2, 0), "no 13");
    assert_eq!(stages(&bench)[0], Stage::Arrived(OUT));
    assert_eq!(bench.ask(7, 1, 2, 0), "log1 22");
    bench.silent(6, 1, 0, 0);
    assert_eq!(bench.ask(6, 1, 1, 0), "no 17");
    assert_eq!(bench.ask(7, 1, 15, 0), "log1 20");
}

#[test]
fn a_name_that_leaves_in_a_copy_has_left() {
    let mut bench = Bench::logged(new(9, output(ON_OUT, PARENT, &[9])));
    bench.silent(3, 1, 0, 0);
    bench.silent(6, 1, 0, 0);
    assert_eq!(bench.enter(1, &[65536]), "no 12");
    assert_eq!(bench.ask(7, 1, 1, 0), "log1 65536");
    assert_eq!(bench.enter(1, &[65536]), "in1 65536");
}

#[test]
fn what_the_handler_sends_on_log_strands() {
    let handler = parallel(vec![
        output(ON_LOG, PARENT, &[20]),
        output(ON_MID, PARENT, &[20]),
    ]);
    let mut bench = Bench::logged(handler);
    bench.silent(3, 1, 0, 0);
    assert_eq!(bench.ask(6, 1, 0, 0), "no 13");
    assert_eq!(bench.ask(7, 1, 0, 0), "no 13");
    assert_eq!(bench.state.stranded(1), [0]);
    bench.silent(3, 1, 0, 0);
    assert_eq!(bench.state.stranded(1), [0, 1]);
    assert!(bench.state.shelf.is_empty());
}

#[test]
fn there_is_one_side_and_no_copy_elsewhere() {
    let mut bench = Bench::logged(Sketch::Nil);
    assert_eq!(bench.ask(8, 1, 0, 0), "no 10");
    assert_eq!(bench.ask(8, 2, 0, 0), "no 10");
    assert_eq!(bench.enter(2, &[20]), "no 10");
    assert_eq!(bench.state.stranded(2), []);
    let mut filter = Bench::filter(Sketch::Nil);
    assert_eq!(filter.enter(1, &[20]), "in1 20");
    assert_eq!(stages(&filter), [Stage::Down(IN)]);
}

#[test]
fn the_program_prints_log1() {
    let input = "W 3\nN 1 0 0 0 0 0\nS 1 1 0 0 4000000\nS 7 1 0 0\nS 2 1 0 0";
    assert_eq!(bench(input), "ok\n0 in1 4000000\n1 log1 4000000\n2 tau\n");
}
