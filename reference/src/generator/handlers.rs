//! Random handlers: idioms that talk with the wrapper, put side by side.

use super::sketch::{
    boxed, child, input, new, output, parallel, pattern_names, repeat, tuple, Sketch, PARENT,
    WITHIN,
};
use crate::random::Random;
use crate::terms::{TUPLE_WORD, WILDCARD_WORD};

/// The channel `in`.
const IN: u32 = 0;
/// The channel `out`.
const OUT: u32 = 1;
/// The channel `mid`.
const MID: u32 = 2;

/// A handler for a side, small enough to load.
pub fn random_handler(random: &mut Random, side: u32) -> Sketch {
    loop {
        let count = random.between(1, 4);
        let parts = (0..count).map(|_| idiom(random, side)).collect();
        let handler = dress(random, parallel(parts));
        if handler.nodes() <= 256 {
            return handler;
        }
    }
}

/// A handler that does one thing often: passes much on over `mid`, or mints.
pub fn busy_handler(random: &mut Random, side: u32, shelf: bool) -> Sketch {
    let count = random.between(1, 4);
    let (listen, body) = match (shelf, side) {
        (true, 1) => (IN, vec![output(MID, PARENT, &[10]); count]),
        (true, _) => (MID, vec![output(OUT, PARENT, &[10])]),
        (false, _) => {
            let fresh = new(11, new(12, output(OUT, PARENT, &[11])));
            let news = vec![new(11, Sketch::Nil); 3 * count];
            (IN, [vec![fresh], news].concat())
        }
    };
    repeat(listen, PARENT, &[10], parallel(body))
}

/// A handler that sends on what comes by its inlet and over `mid`, also where
/// nothing ever comes over `mid` or what goes up on it is lost.
pub fn forwarder(random: &mut Random) -> Sketch {
    let mouths = random.pick(&[&[OUT][..], &[OUT, MID], &[MID, OUT], &[MID]]);
    let sends = mouths.iter().map(|&mouth| output(mouth, PARENT, &[10]));
    let body = parallel(sends.collect());
    parallel(vec![
        repeat(IN, PARENT, &[10], body.clone()),
        repeat(MID, PARENT, &[10], body),
    ])
}

/// Sometimes a handler stands under a `new`, or in a box that is relayed.
fn dress(random: &mut Random, handler: Sketch) -> Sketch {
    match random.below(12) {
        0 => new(random.pick(&[5, 9, 10]), handler),
        1 => parallel(vec![handler, Sketch::Nil]),
        2 => parallel(vec![
            boxed(9, handler),
            repeat(IN, PARENT, &[10], output(IN, child(9), &[10])),
            repeat(OUT, child(9), &[10], output(OUT, PARENT, &[10])),
        ]),
        _ => handler,
    }
}

/// The channel a side mostly listens to.
fn ear(random: &mut Random, side: u32) -> u32 {
    if side == 2 && random.percent(50) {
        MID
    } else {
        IN
    }
}

/// The channel a side mostly sends up on.
fn mouth(random: &mut Random, side: u32) -> u32 {
    match (side, random.below(10)) {
        (1, 0..=4) => MID,
        (_, 0) => MID,
        (_, 1) => 5,
        _ => OUT,
    }
}

/// One idiom for a side.
fn idiom(random: &mut Random, side: u32) -> Sketch {
    let listen = ear(random, side);
    let send = mouth(random, side);
    match random.below(22) {
        0 => copier(random, listen, send),
        1 => starter(random, send),
        2 => child_relay(random, listen, send),
        3 => minter(random, listen, send),
        4 => user(random, listen, send),
        5 => hider(random, listen, send),
        6 => deep(random, listen, send, 8),
        7 => grower(random, listen),
        8 => pair(random, listen, send),
        9 => nested(random, send),
        10 => local(random, send),
        11 => returner(random, listen),
        12 => waiting_long(random, listen, send),
        13 => siblings(random, send),
        14 => swollen(random, listen, send),
        15 => crowd(random, listen),
        16 | 17 => replier(random, listen, send),
        _ => free_form(random, listen),
    }
}

/// Copies what comes in to the outlet, once or many times in a tuple.
fn copier(random: &mut Random, listen: u32, send: u32) -> Sketch {
    let copies = random.pick(&[1, 2, 2, 3, 15]);
    let value = if copies == 1 {
        vec![10]
    } else {
        tuple(&vec![10; copies])
    };
    repeat(listen, PARENT, &[10], output(send, PARENT, &value))
}

/// Outputs that are there from the start.
fn starter(random: &mut Random, send: u32) -> Sketch {
    let count = random.pick(&[1, 1, 2, 4, 8, 16]);
    let value = closed_value(random);
    parallel((0..count).map(|_| output(send, PARENT, &value)).collect())
}

/// Sends into a child box and back.
fn child_relay(random: &mut Random, listen: u32, send: u32) -> Sketch {
    let name = random.pick(&[6, 7, 8, 63]);
    let inside = repeat(
        listen,
        PARENT,
        &[11],
        parallel(vec![
            output(12, PARENT, &[11]),
            output(13, WITHIN, &tuple(&[])),
        ]),
    );
    let relay = parallel(vec![
        repeat(listen, PARENT, &[10], output(listen, child(name), &[10])),
        boxed(name, inside),
        repeat(12, child(name), &[14], output(send, PARENT, &[14])),
    ]);
    if random.percent(40) {
        new(name, relay)
    } else if random.percent(20) {
        parallel(vec![relay, boxed(name, Sketch::Nil)])
    } else {
        relay
    }
}

/// Mints a name, sends it out and waits on it.
fn minter(random: &mut Random, listen: u32, send: u32) -> Sketch {
    let fresh = random.pick(&[5, 10, 20, 0]);
    let inside = parallel(vec![
        output(OUT, PARENT, &tuple(&[fresh, 10])),
        output(fresh, random.pick(&[WITHIN, PARENT]), &[10]),
        input(fresh, WITHIN, &[11], output(send, PARENT, &[11])),
    ]);
    let body = new(fresh, inside);
    if random.percent(50) {
        repeat(listen, PARENT, &[10], body)
    } else {
        new(10, parallel(vec![body, output(OUT, PARENT, &[10])]))
    }
}

/// Uses what comes in as channel, tag or box name, at the top or deep down.
fn user(random: &mut Random, listen: u32, send: u32) -> Sketch {
    let pattern = random_pattern(random, 3);
    let names = pattern_names(&pattern);
    let name = names.first().copied().unwrap_or(12);
    let other = names.last().copied().unwrap_or(12);
    let mut body = match random.below(5) {
        0 => output(name, random.pick(&[WITHIN, PARENT]), &[other]),
        1 => output(send, child(name), &[other]),
        2 => boxed(name, output(send, PARENT, &[other])),
        3 => input(name, WITHIN, &[13], output(send, PARENT, &[13])),
        _ => parallel(vec![
            boxed(name, repeat(listen, PARENT, &[13], Sketch::Nil)),
            output(listen, child(name), &[other]),
        ]),
    };
    if random.percent(50) {
        body = deeper(random, body);
    }
    repeat(listen, PARENT, &pattern, body)
}

/// Puts a process deeper, under things that may hide a name in it.
fn deeper(random: &mut Random, body: Sketch) -> Sketch {
    let hiding = random.pick(&[10, 11, 12, 13, 40]);
    match random.below(5) {
        0 => input(random.pick(&[IN, 5]), PARENT, &[hiding], body),
        1 => new(hiding, body),
        2 => boxed(7, body),
        3 => parallel(vec![output(OUT, PARENT, &[10]), body]),
        _ => repeat(5, WITHIN, &tuple(&[WILDCARD_WORD, hiding]), body),
    }
}

/// Binds one number twice, the inner use hiding the outer one.
fn hider(random: &mut Random, listen: u32, send: u32) -> Sketch {
    let uses = vec![
        output(send, PARENT, &[10]),
        output(10, random.pick(&[WITHIN, PARENT]), &[10]),
    ];
    let mut inner = match random.below(3) {
        0 => input(listen, PARENT, &[10], parallel(uses)),
        1 => new(10, parallel(uses)),
        _ => repeat(listen, PARENT, &tuple(&[10, 11]), parallel(uses)),
    };
    if random.percent(40) {
        inner = parallel(vec![inner, output(send, PARENT, &tuple(&[10, 10]))]);
    }
    repeat(listen, PARENT, &[10], inner)
}

/// A chain of binders with so many names in all.
pub fn deep(random: &mut Random, listen: u32, send: u32, names: usize) -> Sketch {
    let mut counts = Vec::new();
    let mut rest = names;
    while rest > 0 {
        let next = random.between(1, rest.min(3));
        counts.push(next);
        rest -= next;
    }
    let used: Vec<u32> = (0..names as u32).map(|n| 10 + n % 9).collect();
    let mut body = output(send, PARENT, &tuple(&used));
    let mut last = names;
    for count in counts.into_iter().rev() {
        let block = &used[last - count..last];
        last -= count;
        body = match (count, random.below(3)) {
            (1, 0) => new(block[0], body),
            (1, _) => input(listen, PARENT, block, body),
            (_, 0) => repeat(listen, PARENT, &tuple(block), body),
            _ => input(listen, PARENT, &tuple(block), body),
        };
    }
    body
}

/// Each message adds many particles, boxes or minted names.
fn grower(random: &mut Random, listen: u32) -> Sketch {
    let count = random.pick(&[1, 3, 5, 8, 15, 31, 32, 40, 64]);
    let one = match random.below(6) {
        0 => output(OUT, PARENT, &[10]),
        1 => input(5, WITHIN, &[11], Sketch::Nil),
        2 => boxed(7, Sketch::Nil),
        3 => new(11, Sketch::Nil),
        4 => new(11, new(12, new(13, new(14, Sketch::Nil)))),
        _ => boxed(10, output(OUT, PARENT, &[10])),
    };
    let count = count.min(120 / one.nodes());
    let parts = (0..count).map(|_| one.clone()).collect();
    repeat(listen, PARENT, &[10], parallel(parts))
}

/// Takes pairs, or other shapes, apart.
fn pair(random: &mut Random, listen: u32, send: u32) -> Sketch {
    let pattern = random_pattern(random, 8);
    let names = pattern_names(&pattern);
    let value = match names.as_slice() {
        [] => vec![12],
        [one] => vec![*one],
        more => tuple(more),
    };
    let body = output(send, PARENT, &value);
    if random.percent(60) {
        repeat(listen, PARENT, &pattern, body)
    } else {
        input(listen, PARENT, &pattern, body)
    }
}

/// Boxes in boxes that send up and down.
fn nested(random: &mut Random, send: u32) -> Sketch {
    let depth = random.between(1, 5);
    let mut body = parallel(vec![
        output(send, PARENT, &[20]),
        input(5, PARENT, &[10], output(send, PARENT, &[10])),
    ]);
    for level in 0..depth as u32 {
        let name = 6 + level % 3;
        body = parallel(vec![
            boxed(name, body),
            repeat(send, child(name), &[10], output(send, PARENT, &[10])),
            output(5, child(name), &[21]),
        ]);
    }
    body
}

/// Meetings within one box, also on a new channel.
fn local(random: &mut Random, send: u32) -> Sketch {
    let channel = random.pick(&[5, 6, 10]);
    let value = closed_value(random);
    let talk = parallel(vec![
        output(channel, WITHIN, &value),
        repeat(
            channel,
            WITHIN,
            &random_pattern(random, 3),
            parallel(vec![
                output(channel, WITHIN, &value),
                output(send, PARENT, &[channel]),
            ]),
        ),
    ]);
    if random.percent(50) {
        new(channel, talk)
    } else {
        talk
    }
}

/// Sends new names out and, when one comes back, answers on it.
fn returner(random: &mut Random, listen: u32) -> Sketch {
    let back = if random.percent(50) {
        output(10, WITHIN, &[10])
    } else {
        boxed(10, output(OUT, PARENT, &[10]))
    };
    new(
        20,
        parallel(vec![
            output(OUT, PARENT, &[20]),
            output(random.pick(&[OUT, MID]), PARENT, &tuple(&[20, 20])),
            repeat(listen, PARENT, &[10], back),
            repeat(20, WITHIN, &[11], output(OUT, PARENT, &tuple(&[11, 20]))),
        ]),
    )
}

/// Takes a name and has it at both ends of a meeting: as channel, or as a box
/// that sends up or is sent to. Or one message brings a channel to listen on,
/// and another one brings it again with what to send there.
fn replier(random: &mut Random, listen: u32, send: u32) -> Sketch {
    let answer = output(send, PARENT, &tuple(&[10, 12]));
    let from_box = input(5, child(10), &[12], answer.clone());
    let echo = input(5, PARENT, &[11], output(5, PARENT, &[11]));
    let listening = input(10, WITHIN, &[12], answer);
    let ends = match random.below(4) {
        0 => vec![output(10, WITHIN, &[10]), listening],
        1 => vec![boxed(10, output(5, PARENT, &[10])), from_box],
        2 => vec![output(5, child(10), &[10]), boxed(10, echo), from_box],
        _ => {
            let sending = output(10, WITHIN, &[11]);
            return parallel(vec![
                repeat(listen, PARENT, &[10], listening),
                repeat(listen, PARENT, &tuple(&[10, 11]), sending),
            ]);
        }
    };
    repeat(listen, PARENT, &[10], parallel(ends))
}

/// An output that grows too long only when a second input meets.
fn waiting_long(random: &mut Random, listen: u32, send: u32) -> Sketch {
    let copies = random.pick(&[2, 3, 5]);
    let long = output(send, PARENT, &tuple(&vec![10; copies]));
    let waiting = input(listen, PARENT, &[11], long);
    repeat(listen, PARENT, &[10], waiting)
}

/// Boxes of two names, one also inside the other, that send up on the same
/// channel to inputs which each listen to one of them.
fn siblings(random: &mut Random, send: u32) -> Sketch {
    let (one, two) = random.pick(&[(6, 7), (7, 6), (8, 63)]);
    let inside = |value: u32| {
        parallel(vec![
            output(5, PARENT, &[value]),
            input(5, PARENT, &[10], output(5, PARENT, &[10])),
        ])
    };
    let ear = |name: u32| input(5, child(name), &[10], output(send, PARENT, &[10]));
    let family = parallel(vec![
        boxed(
            one,
            parallel(vec![inside(20), boxed(two, inside(21)), ear(two)]),
        ),
        boxed(two, inside(22)),
        ear(one),
        ear(two),
        output(5, child(two), &[23]),
    ]);
    if random.percent(30) {
        new(two, family)
    } else {
        family
    }
}

/// A body that passes a limit and, for most values, has too long an output.
fn swollen(random: &mut Random, listen: u32, send: u32) -> Sketch {
    let one = match random.below(3) {
        0 => output(6, WITHIN, &[20]),
        1 => boxed(7, Sketch::Nil),
        _ => input(6, PARENT, &[11], Sketch::Nil),
    };
    let count = random.between(10, 33);
    let long = output(send, PARENT, &tuple(&[10; 8]));
    let mut parts = vec![one; count];
    parts.insert(random.below(count + 1), long);
    repeat(listen, PARENT, &[10], parallel(parts))
}

/// Almost as many particles as there may be, and meetings that add a few.
fn crowd(random: &mut Random, listen: u32) -> Sketch {
    let some = |count: usize| vec![output(6, WITHIN, &[20]); count];
    let mut parts = some(random.between(14, 24));
    for _ in 0..random.between(1, 3) {
        let body = parallel(some(random.between(0, 4)));
        parts.push(output(5, WITHIN, &[20]));
        parts.push(if random.percent(60) {
            input(random.pick(&[5, 5, 5, listen]), WITHIN, &[10], body)
        } else {
            repeat(5, WITHIN, &[10], body)
        });
    }
    parallel(parts)
}

/// Any process at all, under an input or active from the start.
fn free_form(random: &mut Random, listen: u32) -> Sketch {
    if random.percent(50) {
        let pattern = random_pattern(random, 3);
        let scope = pattern_names(&pattern);
        let body = any_process(random, 4, &scope);
        return Sketch::Input(random.percent(70), listen, PARENT, pattern, Box::new(body));
    }
    any_process(random, 4, &[])
}

/// Any process of so much depth with these names bound.
fn any_process(random: &mut Random, depth: usize, scope: &[u32]) -> Sketch {
    if depth == 0 || random.percent(15) {
        return if random.percent(20) {
            Sketch::Nil
        } else {
            any_output(random, scope)
        };
    }
    match random.below(10) {
        0..=3 => parallel(vec![
            any_process(random, depth - 1, scope),
            any_process(random, depth - 1, scope),
        ]),
        4 => boxed(
            any_name(random, scope),
            any_process(random, depth - 1, scope),
        ),
        5 if scope.len() < 8 => {
            let name = any_name(random, &[]);
            let inner = [scope, &[name]].concat();
            new(name, any_process(random, depth - 1, &inner))
        }
        6..=8 => any_input(random, depth, scope),
        _ => any_output(random, scope),
    }
}

/// Any output with these names bound.
fn any_output(random: &mut Random, scope: &[u32]) -> Sketch {
    let value = any_value(random, scope);
    output(any_name(random, scope), any_tag(random, scope), &value)
}

/// Any input with these names bound.
fn any_input(random: &mut Random, depth: usize, scope: &[u32]) -> Sketch {
    let pattern = random_pattern(random, (8 - scope.len()).min(3));
    let inner = [scope, &pattern_names(&pattern)].concat();
    let body = any_process(random, depth - 1, &inner);
    let (channel, tag) = (any_name(random, scope), any_tag(random, scope));
    Sketch::Input(random.percent(40), channel, tag, pattern, Box::new(body))
}

/// A name, often a bound one.
fn any_name(random: &mut Random, scope: &[u32]) -> u32 {
    if !scope.is_empty() && random.percent(40) {
        return random.pick(scope);
    }
    random.pick(&[0, 1, 1, 2, 5, 6, 7, 10, 63])
}

/// A tag, often one that leads somewhere.
fn any_tag(random: &mut Random, scope: &[u32]) -> u32 {
    match random.below(4) {
        0 => WITHIN,
        1 | 2 => PARENT,
        _ => child(any_name(random, scope)),
    }
}

/// A value over these bound names.
fn any_value(random: &mut Random, scope: &[u32]) -> Vec<u32> {
    let parts = random.pick(&[1, 1, 1, 0, 2, 2, 3, 7, 15]);
    if parts == 1 {
        return vec![any_name(random, scope)];
    }
    let names: Vec<u32> = (0..parts).map(|_| any_name(random, scope)).collect();
    tuple(&names)
}

/// A value without bound names, of 1 to 16 words.
fn closed_value(random: &mut Random) -> Vec<u32> {
    match random.below(6) {
        0 => tuple(&[]),
        1 => tuple(&[20, 21]),
        2 => tuple(&[3; 15]),
        3 => vec![TUPLE_WORD + 2, TUPLE_WORD + 1, 22, 23],
        _ => vec![random.pick(&[0, 1, 2, 6, 7, 20])],
    }
}

/// A pattern that binds at most so many names, with wildcards and tuples.
fn random_pattern(random: &mut Random, most: usize) -> Vec<u32> {
    let names: Vec<u32> = vec![10, 11, 12, 13, 14, 15, 5, 0];
    let names = &names[..most];
    let part = |at: usize| names.get(at).copied().unwrap_or(WILDCARD_WORD);
    match random.below(8) {
        0 => vec![WILDCARD_WORD],
        1 => tuple(&[]),
        2 => tuple(&[part(0), part(1)]),
        3 => tuple(&[part(0), WILDCARD_WORD, part(1)]),
        4 => vec![TUPLE_WORD + 2, part(0), TUPLE_WORD + 2, part(1), part(2)],
        5 if most == 8 => tuple(names),
        _ => vec![part(0)],
    }
}
