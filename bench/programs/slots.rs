//! The same work on the same pages as `slots.rattle`, in plain Rust.

const FILLS: u32 = 10_000;

const ROUNDS: u32 = 30_000;

const ENTRIES: u64 = 100;

const BODY: [u8; 24] = [7; 24];

const HEADER_LEN: usize = 8;

const LENGTHS_LEN: usize = 4;

type Page = [u8; 4096];

// Keys in no order.
fn key_of(number: u64) -> [u8; 8] {
    number.wrapping_mul(0x9E37_79B9_7F4A_7C15).to_be_bytes()
}

fn number_at(page: &Page, at: usize) -> usize {
    usize::from(u16::from_be_bytes([page[at], page[at + 1]]))
}

fn count(page: &Page) -> usize {
    number_at(page, 2)
}

fn clear(page: &mut Page) {
    page[..HEADER_LEN].copy_from_slice(&[0x44, 0, 0, 0, 0xFF, 0xFF, 0xFF, 0xFF]);
}

// The entries of a page, each its key and its body.
fn entries(page: &Page) -> impl Iterator<Item = (&[u8], &[u8])> {
    let mut at = HEADER_LEN;
    (0..count(page)).map(move |_| {
        let key = at + LENGTHS_LEN;
        let body = key + number_at(page, at);
        let end = body + number_at(page, at + 2);
        at = end;
        (&page[key..body], &page[body..end])
    })
}

fn find(page: &Page, key: &[u8]) -> Option<usize> {
    entries(page).position(|(found, _)| found == key)
}

// Where the entry at a place begins, and where the last one ends.
fn offsets(page: &Page, place: usize) -> (usize, usize) {
    let mut lens = entries(page).map(|(key, body)| LENGTHS_LEN + key.len() + body.len());
    let start = HEADER_LEN + lens.by_ref().take(place).sum::<usize>();
    (start, start + lens.sum::<usize>())
}

fn add(page: &mut Page, place: usize, key: &[u8], body: &[u8]) -> bool {
    let count = count(page);
    let (at, end) = offsets(page, place);
    let len = LENGTHS_LEN + key.len() + body.len();
    if len > page.len() - end {
        return false;
    }
    page.copy_within(at..end, at + len);
    let (key_at, body_at) = (at + LENGTHS_LEN, at + LENGTHS_LEN + key.len());
    page[at..at + 2].copy_from_slice(&(key.len() as u16).to_be_bytes());
    page[at + 2..key_at].copy_from_slice(&(body.len() as u16).to_be_bytes());
    page[key_at..body_at].copy_from_slice(key);
    page[body_at..at + len].copy_from_slice(body);
    page[2..4].copy_from_slice(&(count as u16 + 1).to_be_bytes());
    true
}

fn fill(page: &mut Page) -> u64 {
    clear(page);
    let mut added = 0;
    for number in 0..ENTRIES {
        let key = key_of(number);
        if find(page, &key).is_none() && add(page, count(page), &key, &BODY) {
            added += 1;
        }
    }
    added
}

fn found(page: &Page) -> u64 {
    (0..ENTRIES).filter(|number| find(page, &key_of(*number)).is_some()).count() as u64
}

fn main() {
    let is_add = std::env::args().nth(1).is_some_and(|word| word == "add");
    let (fills, rounds) = if is_add { (FILLS, 0) } else { (1, ROUNDS) };
    let mut page = [0; 4096];
    let added: u64 = (0..fills).map(|_| fill(&mut page)).sum();
    let found: u64 = (0..rounds).map(|_| found(std::hint::black_box(&page))).sum();
    println!("{}", added + found);
}
