//! A trace as a file has it.

use vigbuso::Trace;

/// A file of digits and white space alone is text: were it words, its first would name a class that is not there.
pub fn trace(bytes: &[u8]) -> Result<Trace, String> {
    if bytes.iter().all(|byte| byte.is_ascii_digit() || byte.is_ascii_whitespace()) {
        numbers(&String::from_utf8_lossy(bytes))
    } else {
        words(bytes)
    }
}

fn numbers(text: &str) -> Result<Trace, String> {
    let number = |(line, text): (usize, &str)| {
        text.trim().parse().map_err(|_| format!("line {}: `{}` is no word of 32 bits", line + 1, text.trim()))
    };
    let lines = text.lines().enumerate().filter(|(_, line)| !line.trim().is_empty());
    lines.map(number).collect::<Result<Vec<u32>, String>>().map(Trace::from)
}

fn words(bytes: &[u8]) -> Result<Trace, String> {
    let words = bytes.chunks_exact(size_of::<u32>());
    if !words.remainder().is_empty() {
        return Err(format!("{} bytes are no whole words of 32 bits", bytes.len()));
    }
    Ok(words.map(|word| u32::from_le_bytes(word.try_into().expect("four bytes"))).collect::<Vec<u32>>().into())
}
