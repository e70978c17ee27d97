//! All strings over an alphabet.

use crate::comparison::Comparison;

/// Bytes that lexemes and comments are made of, and some that start none.
const TELLING: &[u8] = b"()[]{}<>:;,=->/*!_ \n\r012abxuFjLZ#\x80";

/// Every string of at most two bytes, and of at most four telling bytes, as a whole draft and in a body.
pub fn bytes(comparison: &mut Comparison) {
    let all: Vec<u8> = (0..=255).collect();
    for (bytes, most) in [(all.as_slice(), 2), (TELLING, 4)] {
        let pieces: Vec<&[u8]> = bytes.chunks(1).collect();
        each(&pieces, &mut |string| {
            let text = string.concat();
            comparison.check_short(&text);
            comparison.check_short(&[b"fn f(){", text.as_slice(), b"}"].concat());
            string.len() < most
        });
    }
}

/// Calls `visit` with strings of the pieces, from the empty one on; it answers whether to go on with longer ones.
pub fn each<'a>(pieces: &[&'a [u8]], visit: &mut impl FnMut(&[&'a [u8]]) -> bool) {
    extend(pieces, &mut Vec::new(), visit);
}

fn extend<'a>(
    pieces: &[&'a [u8]],
    string: &mut Vec<&'a [u8]>,
    visit: &mut impl FnMut(&[&'a [u8]]) -> bool,
) {
    if !visit(string) {
        return;
    }
    for piece in pieces {
        string.push(piece);
        extend(pieces, string, visit);
        string.pop();
    }
}
