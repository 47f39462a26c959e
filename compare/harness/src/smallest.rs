//! The shortest input that is found with the same property: pieces are left out, and bytes made less, as long as it stays.

/// The input with a part of it left out.
fn without(input: &[u8], at: usize, count: usize) -> Vec<u8> {
    let mut rest = input[..at].to_vec();
    rest.extend(&input[(at + count).min(input.len())..]);
    rest
}

/// What is one step smaller and has the property, if there is something.
fn smaller(input: &[u8], mut has: impl FnMut(&[u8]) -> bool) -> Option<Vec<u8>> {
    let mut count = input.len();
    while count > 0 {
        for at in (0..input.len()).rev().step_by(count.div_ceil(2)) {
            let tried = without(input, at, count);
            if has(&tried) {
                return Some(tried);
            }
        }
        count /= 2;
    }
    for at in 0..input.len() {
        for byte in [0, 1, 2, input[at] / 2] {
            if byte < input[at] {
                let mut tried = input.to_vec();
                tried[at] = byte;
                if has(&tried) {
                    return Some(tried);
                }
            }
        }
    }
    None
}

pub fn smallest(input: &[u8], mut has: impl FnMut(&[u8]) -> bool) -> Vec<u8> {
    let mut least = input.to_vec();
    while let Some(tried) = smaller(&least, &mut has) {
        least = tried;
    }
    least
}
