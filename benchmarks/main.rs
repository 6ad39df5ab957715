// Compares the proved code with plain Rust that does the same work: the sum of 64 KiB, and the walk of a full block with all
// its sums. Both are timed in one run, turn by turn, and the best turn of each counts. Results must agree.
use std::hint::black_box;
use std::time::Instant;

unsafe extern "C" {
    fn mutsindry_sum(bytes: *const u8, len: usize) -> u32;
    fn mutsindry_items(bytes: *const u8, len: usize) -> usize;
}

fn proved_sum(bytes: &[u8]) -> u32 {
    unsafe { mutsindry_sum(bytes.as_ptr(), bytes.len()) }
}

fn proved_items(bytes: &[u8]) -> usize {
    unsafe { mutsindry_items(bytes.as_ptr(), bytes.len()) }
}

const TABLE: [u32; 256] = {
    let mut table = [0; 256];
    let mut i = 0;
    while i < 256 {
        let mut c = i as u32;
        let mut k = 0;
        while k < 8 {
            c = if c & 1 == 1 { (c >> 1) ^ 0xedb8_8320 } else { c >> 1 };
            k += 1;
        }
        table[i] = c;
        i += 1;
    }
    table
};

fn plain_sum(bytes: &[u8]) -> u32 {
    bytes.iter().fold(0, |c, b| TABLE[((c ^ *b as u32) & 0xff) as usize] ^ (c >> 8))
}

fn word(bytes: &[u8], at: usize) -> u32 {
    u32::from_le_bytes(bytes[at..at + 4].try_into().unwrap())
}

// An item as plain Rust would hand it out.
#[allow(dead_code)]
enum Item<'a> {
    Zero,
    Other { kind: u16, length: usize },
    Entry { bytes: &'a [u8], pino: u32, version: u32, ino: u32, dtype: u8, name: &'a [u8] },
    Content { bytes: &'a [u8], ino: u32, version: u32, isize: u32, offset: u32, payload: &'a [u8] },
}

fn readable_to(readable: &[bool], at: usize, n: usize) -> bool {
    readable.get(at / 4..(at + n).div_ceil(4)).is_some_and(|flags| flags.iter().all(|flag| *flag))
}

fn plain_item<'a>(rest: &'a [u8], readable: &[bool], at: usize) -> Option<(Item<'a>, usize)> {
    if rest.len() < 4 || !readable_to(readable, at, 4) {
        return None;
    }
    if word(rest, 0) == 0 {
        return Some((Item::Zero, 4));
    }
    if rest.len() < 12 || !readable_to(readable, at, 12) {
        return None;
    }
    let [0x85, 0x19, k0, k1, ..] = *rest else { return None };
    let kind = u16::from_le_bytes([k0, k1]);
    let length = word(rest, 4) as usize;
    let size = (length + 3) / 4 * 4;
    if word(rest, 8) != plain_sum(&rest[..8]) || length < 12 || size > rest.len() {
        return None;
    }
    if kind != 0xe001 && kind != 0xe002 {
        return Some((Item::Other { kind, length }, size));
    }
    if !readable_to(readable, at, length) {
        return None;
    }
    let bytes = &rest[..length];
    let item = if kind == 0xe001 {
        if length < 40 || length < 40 + bytes[28] as usize {
            return None;
        }
        let name = &bytes[40..40 + bytes[28] as usize];
        if word(bytes, 32) != plain_sum(&bytes[..32]) || word(bytes, 36) != plain_sum(name) {
            return None;
        }
        Item::Entry { bytes, pino: word(bytes, 12), version: word(bytes, 16), ino: word(bytes, 20), dtype: bytes[29], name }
    } else {
        if length < 68 || length < 68 + word(bytes, 48) as usize {
            return None;
        }
        let payload = &bytes[68..68 + word(bytes, 48) as usize];
        if word(bytes, 60) != plain_sum(payload) || word(bytes, 64) != plain_sum(&bytes[..60]) {
            return None;
        }
        Item::Content { bytes, ino: word(bytes, 12), version: word(bytes, 16), isize: word(bytes, 28), offset: word(bytes, 44), payload }
    };
    Some((item, size))
}

const MARKER: [u8; 12] = [0x85, 0x19, 3, 0x20, 12, 0, 0, 0, 0xb1, 0xb0, 0x1e, 0xe4];

fn plain_items(block: &[u8], readable: &[bool]) -> usize {
    let mut at = if block.starts_with(&MARKER) && readable_to(readable, 0, 12) { 0 } else { block.len() };
    let mut count = 0;
    while let Some((item, size)) = plain_item(&block[at..], readable, at) {
        black_box(&item);
        count += 1;
        at += size;
    }
    count
}

// A content with its sums, padded.
fn content(version: u32, payload: &[u8]) -> Vec<u8> {
    let mut node = vec![0x85, 0x19, 0x02, 0xe0];
    node.extend((68 + payload.len() as u32).to_le_bytes());
    node.extend(plain_sum(&node[..8]).to_le_bytes());
    for field in [2, version, 33188, 0, 65536, 0, 0, 0, 0, payload.len() as u32, payload.len() as u32, 0] {
        node.extend(u32::to_le_bytes(field));
    }
    let fixed = plain_sum(&node[..60]);
    node.extend(plain_sum(payload).to_le_bytes());
    node.extend(fixed.to_le_bytes());
    node.extend(payload);
    node.resize(node.len().div_ceil(4) * 4, 0);
    node
}

// A block filled to its end with contents of n bytes of data.
fn full_block(n: usize) -> Vec<u8> {
    let mut block = MARKER.to_vec();
    for version in 1.. {
        let payload: Vec<u8> = (0..n).map(|i| (i * 7 + version as usize) as u8).collect();
        let node = content(version, &payload);
        if block.len() + node.len() > 4096 {
            break;
        }
        block.extend(node);
    }
    block.resize(4096, 0xff);
    block
}

// The best time of a call, in nanoseconds, of so many turns of both.
fn best(turns: usize, mut proved: impl FnMut(), mut plain: impl FnMut()) -> (u128, u128) {
    let mut times = (u128::MAX, u128::MAX);
    for _ in 0..turns {
        let start = Instant::now();
        proved();
        times.0 = times.0.min(start.elapsed().as_nanos());
        let start = Instant::now();
        plain();
        times.1 = times.1.min(start.elapsed().as_nanos());
    }
    times
}

fn report(what: &str, (proved, plain): (u128, u128)) {
    println!("{what}: proved {proved} ns, plain Rust {plain} ns, ratio {:.2}", proved as f64 / plain as f64);
}

fn main() {
    let bytes: Vec<u8> = (0..65536u32).map(|i| (i.wrapping_mul(2654435761) >> 24) as u8).collect();
    assert_eq!(proved_sum(&bytes), plain_sum(&bytes));
    report("sum of 65,536 bytes", best(400, || { black_box(proved_sum(black_box(&bytes))); }, || { black_box(plain_sum(black_box(&bytes))); }));
    let readable = vec![true; 1024];
    for n in [4, 64, 512] {
        let block = full_block(n);
        let items = plain_items(&block, &readable);
        assert_eq!(proved_items(&block), items);
        report(
            &format!("walk of a full block, {items} items, contents of {n} bytes"),
            best(4000, || { black_box(proved_items(black_box(&block))); }, || { black_box(plain_items(black_box(&block), black_box(&readable))); }),
        );
    }
}
