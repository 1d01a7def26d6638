//! What is wrong with a pass list, word by word from the contract, slow, and apart from the stand-in that reads lists (`VoltaBracket::parse_passes`).

/// One digit or more; the first is not 0 unless it is the only one.
fn is_number(text: &str) -> bool {
    text == "0" || !text.is_empty() && !text.starts_with('0') && text.bytes().all(|byte| byte.is_ascii_digit())
}

/// The number from 1 to 32 that is written so, whatever its length in digits.
fn pass(number: &str) -> Option<u8> {
    (1..=32).find(|pass: &u8| pass.to_string() == number)
}

/// Three tests of the whole run of digits, commas and hyphens behind a `[`; the first that fails gives the refusal.
///
/// 14: its pieces between commas are numbers, or two numbers with one hyphen between. 17: each number is one from 1 to 32.
/// 18: the numbers rise strictly in the order written, both ends of a range among them.
pub fn fault(run: &str) -> Option<u32> {
    let pieces: Vec<Vec<&str>> = run.split(',').map(|piece| piece.split('-').collect()).collect();
    if !pieces.iter().all(|numbers| numbers.len() <= 2 && numbers.iter().all(|number| is_number(number))) {
        return Some(14);
    }
    let Some(passes) = pieces.concat().into_iter().map(pass).collect::<Option<Vec<u8>>>() else {
        return Some(17);
    };
    if !passes.windows(2).all(|pair| pair[0] < pair[1]) {
        return Some(18);
    }
    None
}
