//! Wrong runs of a text.

use super::Text;
use linked::bench::{Bench, Separate};
use reference::lines::BYTE_LIMIT;

pub const WRONG: [(&str, Text); 8] = [
    ("the rest of out cleared", |input, out, bytes| {
        let result = Separate.text(input, out, bytes);
        if result == 0 {
            out[*bytes..].fill(0);
        }
        result
    }),
    ("a 0 behind the output", |input, out, bytes| {
        let result = Separate.text(input, out, bytes);
        if let (0, Some(byte)) = (result, out.get_mut(*bytes)) {
            *byte = 0;
        }
        result
    }),
    (
        "what fits is written where out is too short",
        |input, out, bytes| {
            let output = reference::run(input);
            let fits = out.len().min(output.len());
            out[..fits].copy_from_slice(&output.as_bytes()[..fits]);
            Separate.text(input, out, bytes)
        },
    ),
    ("a byte more is asked for", |input, out, bytes| {
        let room = out.len().saturating_sub(1);
        Separate.text(input, &mut out[..room], bytes)
    }),
    ("a byte too few is enough", |input, out, bytes| {
        let mut longer = [&out[..], &[0]].concat();
        let result = Separate.text(input, &mut longer, bytes);
        out.copy_from_slice(&longer[..out.len()]);
        result
    }),
    (
        "bytes not written where out is too short",
        |input, out, bytes| {
            let before = *bytes;
            let result = Separate.text(input, out, bytes);
            *bytes = if result == 0 { *bytes } else { before };
            result
        },
    ),
    (
        "the length needed told where out is too short",
        |input, out, bytes| {
            let result = Separate.text(input, out, bytes);
            *bytes = reference::run(input).len();
            result
        },
    ),
    ("65,536 bytes are too much", |input, out, bytes| {
        let filled = vec![b'0'; BYTE_LIMIT + 1];
        let input = if input.len() == BYTE_LIMIT {
            &filled
        } else {
            input
        };
        Separate.text(input, out, bytes)
    }),
];
