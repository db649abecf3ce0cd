//! `linked N [--from S]` compares the static library with the separate implementation on the calls of
//! N seeds, from S on, and prints how many were compared by sort and by verdict. It ends with 0 only if
//! there were calls and none differs.

#[cfg(library)]
fn main() -> std::process::ExitCode {
    use linked::library::Library;
    let Some((count, from)) = read_options() else {
        eprintln!("usage: linked N [--from S]");
        return std::process::ExitCode::from(2);
    };
    let mut told = 0;
    let tally = linked::compare_seeds(&Library, from, count, |seed, place, case, difference| {
        told += 1;
        if told <= 20 {
            println!(
                "seed {seed}, call {place}, {}, {}: {difference}",
                case.call.function(),
                case.sort
            );
        }
    });
    print!("{}", tally.print());
    for (function, told) in tally.missing() {
        println!("{function} never told: {told}");
    }
    println!(
        "linked library against the separate implementation: {} compared, {} differ",
        tally.compared, tally.different
    );
    std::process::ExitCode::from(u8::from(tally.compared == 0 || tally.different > 0))
}

#[cfg(library)]
fn read_options() -> Option<(u64, u64)> {
    let arguments: Vec<String> = std::env::args().skip(1).collect();
    let arguments: Vec<&str> = arguments.iter().map(String::as_str).collect();
    match *arguments {
        [count] => Some((count.parse().ok()?, 0)),
        [count, "--from", from] => Some((count.parse().ok()?, from.parse().ok()?)),
        _ => None,
    }
}

#[cfg(not(library))]
fn main() -> std::process::ExitCode {
    eprintln!("linked: libembed.a was missing when this was built; `rt lib` in crates/embed makes it");
    std::process::ExitCode::from(2)
}
