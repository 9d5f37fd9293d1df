// The proved `crc32` against a plain Rust one, byte by byte over the same table of 256 entries. Both are calls that are
// not inlined; rounds of the two take turns, and the fastest and the middle round of each are told.
use std::hint::black_box;
use std::time::Instant;

unsafe extern "C" {
    // The proved checksum: a slice crosses as a pointer and a length.
    fn record_crc32(bytes: *const u8, length: usize) -> u32;
}

fn proved(bytes: &[u8]) -> u32 {
    // The function only reads the bytes of the slice.
    unsafe { record_crc32(bytes.as_ptr(), bytes.len()) }
}

const fn table() -> [u32; 256] {
    let mut table = [0; 256];
    let mut byte = 0;
    while byte < 256 {
        let mut register = byte as u32;
        let mut bit = 0;
        while bit < 8 {
            register = if register & 1 == 1 { (register >> 1) ^ 0xedb8_8320 } else { register >> 1 };
            bit += 1;
        }
        table[byte] = register;
        byte += 1;
    }
    table
}

static TABLE: [u32; 256] = table();

#[inline(never)]
fn plain(bytes: &[u8]) -> u32 {
    let mut register = u32::MAX;
    for byte in bytes {
        register = (register >> 8) ^ TABLE[((register ^ u32::from(*byte)) & 0xff) as usize];
    }
    !register
}

// Bytes per second, in millions, of so many calls.
fn speed(checksum: impl Fn(&[u8]) -> u32, bytes: &[u8], calls: usize) -> f64 {
    let start = Instant::now();
    for _ in 0..calls {
        black_box(checksum(black_box(bytes)));
    }
    (bytes.len() * calls) as f64 / start.elapsed().as_secs_f64() / 1e6
}

const ROUNDS: usize = 101;

// The ratio of the middle rounds at one size.
fn compare(name: &str, bytes: &[u8], calls: usize) -> f64 {
    assert_eq!(proved(bytes), plain(bytes));
    let mut ours = Vec::new();
    let mut theirs = Vec::new();
    for _ in 0..ROUNDS {
        ours.push(speed(proved, bytes, calls));
        theirs.push(speed(plain, bytes, calls));
    }
    ours.sort_by(f64::total_cmp);
    theirs.sort_by(f64::total_cmp);
    let middle = ROUNDS / 2;
    let last = ROUNDS - 1;
    let ratio = ours[middle] / theirs[middle];
    println!(
        "{name:>8}: proved {:.0} MB/s (best {:.0}), plain Rust {:.0} MB/s (best {:.0}), ratio {ratio:.2} (best {:.2})",
        ours[middle],
        ours[last],
        theirs[middle],
        theirs[last],
        ours[last] / theirs[last]
    );
    ratio
}

fn main() {
    assert_eq!(proved(b"123456789"), 0xcbf4_3926);
    assert_eq!(proved(b""), 0);
    let mut bytes = vec![0; 1 << 20];
    let mut state = 1u32;
    for byte in &mut bytes {
        state = state.wrapping_mul(1_664_525).wrapping_add(1_013_904_223);
        *byte = (state >> 24) as u8;
    }
    let short = compare("28 bytes", &bytes[..28], 100_000);
    let long = compare("1 MiB", &bytes, 4);
    if short.min(long) < 0.9 {
        println!("below 0.9 of plain Rust");
        std::process::exit(1);
    }
}
