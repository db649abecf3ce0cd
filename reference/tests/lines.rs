//! Lines and numbers: each fault of the text, just allowed and just refused.

mod common;
use common::{bench, raw, text};

/// A sound input without steps.
const NIL: &str = "W\t1\nN\t1\t0\t0\t0\t0\t0\n";

/// The output for the sound input followed by this text.
fn after_nil(more: &str) -> String {
    raw(format!("{NIL}{more}").as_bytes())
}

/// The sound input brought to a length with zeros in its W line.
fn of_length(length: usize) -> String {
    let zeros = "0".repeat(length - NIL.len());
    NIL.replacen("W\t1", &format!("W\t{zeros}1"), 1)
}

#[test]
fn no_input_gives_line_1() {
    assert_eq!(raw(b""), "line 1\n");
}

#[test]
fn the_byte_limit() {
    assert_eq!(of_length(65_536).len(), 65_536);
    assert_eq!(raw(of_length(65_536).as_bytes()), "ok\n");
    assert_eq!(raw(of_length(65_537).as_bytes()), "line 0\n");
}

#[test]
fn too_much_input_goes_before_a_bad_line() {
    let bad = format!("X\n{}", of_length(65_536));
    assert_eq!(raw(bad.as_bytes()), "line 0\n");
    assert_eq!(raw(&vec![b'\n'; 65_537]), "line 0\n");
    assert_eq!(raw(&vec![b'\n'; 65_536]), "line 1\n");
}

#[test]
fn the_last_line_needs_its_newline() {
    assert_eq!(raw(b"W\t1"), "line 1\n");
    assert_eq!(raw(b"W\t1\nN\t1\t0\t0\t0\t0\t0"), "line 2\n");
    assert_eq!(after_nil("S\t1\t1\t0\t0\t20"), "line 3\n");
    assert_eq!(raw(b"W\t1\nN\t1\nN"), "line 2\n");
}

#[test]
fn leading_zeros_are_allowed() {
    let output = bench(
        "W 0001
         N 001 00 0 0 0 0
         S 00000000000000000001 01 00 0 0000000000000000020",
    );
    assert_eq!(output, "ok\n0 in1 20\n");
}

#[test]
fn numbers_reach_4294967295() {
    assert_eq!(after_nil("S\t4294967295\t1\t0\t0\n"), "ok\n0 no 10\n");
    assert_eq!(after_nil("S\t4294967296\t1\t0\t0\n"), "line 3\n");
    assert_eq!(after_nil("S\t42949672950\t1\t0\t0\n"), "line 3\n");
    assert_eq!(after_nil("S\t04294967295\t1\t0\t0\n"), "ok\n0 no 10\n");
    assert_eq!(raw(b"W\t4294967295\n"), "refused 1 0 0\n");
    assert_eq!(raw(b"W\t4294967296\n"), "line 1\n");
}

#[test]
fn what_is_no_number() {
    for field in [
        "", "-1", "+1", " 1", "1 ", "0x1", "a", "1\r", "1.0", "\u{661}", "1_0", "1,0",
    ] {
        let line = format!("S\t1\t1\t0\t0\t{field}\n");
        assert_eq!(after_nil(&line), "line 3\n", "{field:?}");
    }
    for byte in [0_u8, 11, 12, 13, 127, 128, 255, b'/', b':'] {
        let mut input = text("W 1\nN 1 0 0 0 0 0\nS 1 1 0 0 2").into_bytes();
        let end = input.len() - 1;
        input.insert(end, byte);
        assert_eq!(raw(&input), "line 3\n", "{byte}");
    }
}

#[test]
fn doubled_and_trailing_tabs() {
    assert_eq!(raw(b"W\t\t1\n"), "line 1\n");
    assert_eq!(raw(b"W\t1\t\n"), "line 1\n");
    assert_eq!(raw(b"\tW\t1\n"), "line 1\n");
    assert_eq!(after_nil("S\t1\t1\t0\t0\t\n"), "line 3\n");
    assert_eq!(after_nil("S\t1\t\t1\t0\t0\n"), "line 3\n");
}

#[test]
fn blank_lines_are_at_fault_and_counted() {
    assert_eq!(raw(b"\n"), "line 1\n");
    assert_eq!(raw(b"\nW\t1\n"), "line 1\n");
    assert_eq!(raw(b"W\t1\n\nN\t1\t0\t0\t0\t0\t0\n"), "line 2\n");
    assert_eq!(after_nil("\n"), "line 3\n");
    assert_eq!(after_nil("S\t1\t1\t0\t0\t20\n\n"), "line 4\n");
}

#[test]
fn a_carriage_return_is_at_fault() {
    assert_eq!(raw(b"W\t1\r\n"), "line 1\n");
}

#[test]
fn letters_stand_alone_in_upper_case() {
    for letter in ["w", "WW", "W ", "", "X", "n", "\u{feff}W"] {
        let input = format!("{letter}\t1\n");
        assert_eq!(raw(input.as_bytes()), "line 1\n", "{letter:?}");
    }
    assert_eq!(raw(b"W1\n"), "line 1\n");
    assert_eq!(raw(b"W 1\n"), "line 1\n");
}

#[test]
fn w_is_first_and_only_once() {
    assert_eq!(raw(b"N\t1\t0\t0\t0\t0\t0\n"), "line 1\n");
    assert_eq!(raw(b"S\t1\t1\t0\t0\n"), "line 1\n");
    assert_eq!(raw(b"W\t1\nW\t1\n"), "line 2\n");
    assert_eq!(after_nil("W\t1\n"), "line 3\n");
}

#[test]
fn w_takes_one_number() {
    assert_eq!(raw(b"W\n"), "line 1\n");
    assert_eq!(raw(b"W\t1\t1\n"), "line 1\n");
}

#[test]
fn letters_come_in_order() {
    assert_eq!(bench("W 1\nV 1 7\nN 1 0 0 0 0 0"), "line 3\n");
    assert_eq!(bench("W 1\nS 1 1 0 0 20\nN 1 0 0 0 0 0"), "line 3\n");
    assert_eq!(bench("W 1\nN 1 0 0 0 0 0\nS 1 1 0 0 20\nV 1 7"), "line 4\n");
    assert_eq!(bench("W 1\nN 1 0 0 0 0 0\nS 1 1 0 0 20\nW 1"), "line 4\n");
}

#[test]
fn groups_may_be_empty() {
    assert_eq!(bench("W 1"), "refused 1 1 0\n");
    assert_eq!(bench("W 1\nV 1 7"), "refused 1 1 0\n");
    assert_eq!(bench("W 1\nS 1 1 0 0"), "refused 1 1 0\n");
    assert_eq!(bench("W 1\nN 1 0 0 0 0 0"), "ok\n");
}

#[test]
fn sides_may_be_interleaved_and_2_may_come_first() {
    let output = bench(
        "W 2
         N 2 4 1 1 0 0
         N 1 4 1 1 1 0
         V 1 7
         V 2 21
         V 1 20
         S 3 1 0 0
         S 3 2 0 0
         S 6 2 0 0
         S 7 2 0 0",
    );
    assert_eq!(output, "ok\n0 tau\n1 tau\n2 tau\n3 out2 21\n");
}

#[test]
fn the_side_of_a_table_line() {
    for side in ["0", "3", "4294967295"] {
        assert_eq!(bench(&format!("W 1\nN {side} 0 0 0 0 0")), "line 2\n");
        assert_eq!(
            bench(&format!("W 1\nN 1 0 0 0 0 0\nV {side} 7")),
            "line 3\n"
        );
    }
    assert_eq!(
        bench("W 1\nN 1 0 0 0 0 0\nN 2 0 0 0 0 0"),
        "refused 1 2 0\n"
    );
    assert_eq!(bench("W 1\nN 1 0 0 0 0 0\nV 2 7"), "refused 1 2 0\n");
}

#[test]
fn a_node_line_has_side_and_five_words() {
    assert_eq!(bench("W 1\nN 1 0 0 0 0"), "line 2\n");
    assert_eq!(bench("W 1\nN 1 0 0 0 0 0 0"), "line 2\n");
    assert_eq!(bench("W 1\nN"), "line 2\n");
}

#[test]
fn a_pool_line_has_side_and_one_word() {
    assert_eq!(after_nil("V\t1\n"), "line 3\n");
    assert_eq!(after_nil("V\t1\t7\t7\n"), "line 3\n");
    assert_eq!(after_nil("V\n"), "line 3\n");
    assert_eq!(after_nil("V\t1\t7\n"), "ok\n");
}

#[test]
fn a_step_line_has_four_numbers_and_up_to_17_words() {
    assert_eq!(after_nil("S\t1\t1\t0\n"), "line 3\n");
    assert_eq!(after_nil("S\n"), "line 3\n");
    let words = |count: usize| "\t20".repeat(count);
    let step = |kind: u32, count: usize| format!("S\t{kind}\t1\t0\t0{}\n", words(count));
    assert_eq!(after_nil(&step(1, 0)), "ok\n0 no 11\n");
    assert_eq!(after_nil(&step(1, 1)), "ok\n0 in1 20\n");
    assert_eq!(after_nil(&step(1, 17)), "ok\n0 no 11\n");
    assert_eq!(after_nil(&step(1, 18)), "line 3\n");
    assert_eq!(after_nil(&step(2, 17)), "ok\n0 no 10\n");
    assert_eq!(after_nil(&step(2, 18)), "line 3\n");
    assert_eq!(after_nil(&step(9, 18)), "line 3\n");
}

#[test]
fn how_many_node_lines() {
    let nodes = |side: u32, count: usize| format!("N {side} 0 0 0 0 0\n").repeat(count);
    let input = |one: usize, two: usize| format!("W 2\n{}{}", nodes(1, one), nodes(2, two));
    assert_eq!(bench(&input(257, 0)), "refused 1 1 0\n");
    assert_eq!(bench(&input(258, 0)), "line 259\n");
    assert_eq!(bench(&input(1, 257)), "refused 1 2 0\n");
    assert_eq!(bench(&input(1, 258)), "line 260\n");
    assert_eq!(bench(&input(257, 257)), "refused 1 1 0\n");
}

#[test]
fn how_many_pool_lines() {
    let pool = |side: u32, count: usize| format!("V {side} 7\n").repeat(count);
    let input = |one: usize, two: usize| {
        let nodes = "N 1 0 0 0 0 0\nN 2 0 0 0 0 0\n";
        format!("W 2\n{nodes}{}{}", pool(1, one), pool(2, two))
    };
    assert_eq!(bench(&input(1_024, 1_024)), "ok\n");
    assert_eq!(bench(&input(1_025, 0)), "refused 1 1 0\n");
    assert_eq!(bench(&input(1_026, 0)), "line 1029\n");
    assert_eq!(bench(&input(0, 1_025)), "refused 1 2 0\n");
    assert_eq!(bench(&input(0, 1_026)), "line 1029\n");
}

#[test]
fn how_many_step_lines() {
    let steps = |count: usize| "S\t9\t1\t0\t0\n".repeat(count);
    let output = after_nil(&steps(1_024));
    assert_eq!(output.lines().count(), 1_025);
    assert!(output.ends_with("1023 no 10\n"));
    assert_eq!(after_nil(&steps(1_025)), "line 1027\n");
}

#[test]
fn the_side_of_a_step_is_any_number() {
    for side in ["0", "2", "3", "4294967295"] {
        assert_eq!(
            after_nil(&format!("S\t1\t{side}\t0\t0\t20\n")),
            "ok\n0 no 10\n"
        );
    }
}

#[test]
fn a_bad_last_line_hides_a_load_refusal() {
    assert_eq!(bench("W 4"), "refused 1 0 0\n");
    assert_eq!(bench("W 4\nX"), "line 2\n");
    assert_eq!(bench("W 1\nN 1 9 0 0 0 0\nS 1"), "line 3\n");
}

#[test]
fn the_first_bad_line_is_named() {
    assert_eq!(bench("W 1\nN 1\nV 1\nS"), "line 2\n");
    assert_eq!(
        bench("W 1\nN 1 0 0 0 0 0\nS 1 1 0 0 20\nS 1\nN"),
        "line 4\n"
    );
}

#[test]
fn numbers_are_printed_without_zeros() {
    let output = after_nil("S\t1\t1\t0\t0\t4000002\t00\t0063\n");
    assert_eq!(output, "ok\n0 in1 4000002 0 63\n");
}

#[test]
fn no_step_gives_ok_alone() {
    assert_eq!(reference::run(NIL.as_bytes()), "ok\n");
}

#[test]
fn a_printed_script_reads_back() {
    use reference::lines::{print_script, read_script};
    let input = text("W 2\nN 1 0 0 0 0 0\nN 2 0 0 0 0 0\nV 1 7\nV 2 8\nS 1 1 0 0 20\nS 4 2 1 3");
    let script = read_script(input.as_bytes()).unwrap();
    assert_eq!(print_script(&script), input);
}
