// How long the proved reader takes, beside a plain Rust reader of the same rules.
mod plain;

use std::time::Instant;

#[repr(C)]
struct Answer {
    refusal: u8,
    html: bool,
    place: usize,
    length: usize,
}

extern "C" {
    fn fisnaok_read_1252(bytes: *const u8, bytes_len: usize, result: *mut u8, result_len: usize) -> Answer;
}

fn proved(bytes: &[u8], result: &mut [u8]) -> Result<(bool, usize), plain::Refusal> {
    let answer = unsafe { fisnaok_read_1252(bytes.as_ptr(), bytes.len(), result.as_mut_ptr(), result.len()) };
    match answer.refusal {
        0 => Ok((answer.html, answer.length)),
        number => Err((number, answer.place)),
    }
}

// A record of a length, from a piece said again and again.
fn record(piece: &str, length: usize) -> Vec<u8> {
    let mut bytes = b"{\\rtf1\\ansi\\ansicpg1252\\fromhtml1 ".to_vec();
    while bytes.len() + piece.len() < length {
        bytes.extend_from_slice(piece.as_bytes());
    }
    bytes.resize(length - 1, b'x');
    bytes.push(b'}');
    bytes
}

// The least microseconds of a reading, over many.
fn least(read: fn(&[u8], &mut [u8]) -> Result<(bool, usize), plain::Refusal>, bytes: &[u8], result: &mut [u8]) -> f64 {
    let mut least = f64::MAX;
    for _ in 0..500 {
        let start = Instant::now();
        let told = read(std::hint::black_box(bytes), result);
        least = least.min(start.elapsed().as_secs_f64() * 1e6);
        std::hint::black_box(told).ok();
    }
    least
}

fn main() {
    let pieces = [
        ("letters", "The quick brown fox. "),
        ("tag groups", "{\\*\\htmltag <p>}word{\\*\\htmltag </p>}"),
        ("units", "\\u8364?\\u-10179?\\u-8704?"),
        ("bytes", "\\'e9\\'80"),
        ("words", "\\par\\b0\\fs24 x\\endash "),
        ("short words", "\\b"),
        ("groups", "{}"),
        ("text in turn", "a{}"),
        ("symbols", "\\~"),
        ("suppressed", "{\\htmlrtf \\b x\\htmlrtf0 y}"),
    ];
    let mut one = vec![0; 98_304];
    let mut other = vec![0; 98_304];
    for (name, piece) in pieces {
        for length in [1_024, 8_192, 32_768] {
            let bytes = record(piece, length);
            let told = proved(&bytes, &mut one);
            assert_eq!(told, plain::read(&bytes, &mut other), "{name} of {length}");
            assert!(one == other, "{name} of {length}: the contents differ");
            assert!(told.is_ok(), "{name} of {length}: refused {told:?}");
            let ours = least(proved, &bytes, &mut one);
            let plain = least(plain::read, &bytes, &mut other);
            println!("{name:12} {length:6} bytes: proved {ours:8.1} us, plain {plain:8.1} us, ratio {:.2}", ours / plain);
        }
    }
}
