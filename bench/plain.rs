// The same events read by plain Rust loops, for comparison with the proved sources.
#![allow(dead_code)]
use std::hint::black_box;
use std::time::Instant;

const COMMENT: u8 = 80;
const WHITESPACE: u8 = 81;
const NEWLINE: u8 = 82;

#[derive(Clone, Copy)]
enum Event {
    Error(u16, u32, u32),
    Begin(u8, u32, u32),
    End(u8, u32, u32),
    Token(u8, u32, u32),
}

fn two(b: &[u8]) -> u16 {
    u16::from_be_bytes([b[0], b[1]])
}

fn four(b: &[u8]) -> u32 {
    u32::from_be_bytes([b[0], b[1], b[2], b[3]])
}

// The next event and the bytes behind it; none at the end or a fault.
#[inline]
fn next(bytes: &[u8]) -> Option<(Event, &[u8])> {
    if bytes.len() < 3 || bytes[0] > 4 || bytes[0] == 0 || two(&bytes[1..]) != 10 || bytes.len() < 13 {
        return None;
    }
    let (number, start, end) = (two(&bytes[3..]), four(&bytes[5..]), four(&bytes[9..]));
    if bytes[0] != 4 && number > 126 {
        return None;
    }
    let event = match bytes[0] {
        1 => Event::Begin(number as u8, start, end),
        2 => Event::End(number as u8, start, end),
        3 => Event::Token(number as u8, start, end),
        _ => Event::Error(number, start, end),
    };
    Some((event, &bytes[13..]))
}

fn mixed(sum: u64, event: Event) -> u64 {
    let (start, end, trivia) = match event {
        Event::Token(kind, start, end) => (start, end, matches!(kind, COMMENT | WHITESPACE | NEWLINE)),
        Event::Error(_, start, end) | Event::Begin(_, start, end) | Event::End(_, start, end) => (start, end, false),
    };
    let step = if trivia { 7 } else { 31 };
    sum.wrapping_mul(step).wrapping_add(start as u64 ^ end as u64)
}

fn main() {
    let args: Vec<String> = std::env::args().collect();
    let bytes = std::fs::read(&args[1]).unwrap();
    let rounds: u32 = args[2].parse().unwrap();
    let mut events = Vec::new();
    let mut rest = &bytes[..];
    while let Some((event, behind)) = next(rest) {
        events.push(event);
        rest = behind;
    }
    let clock = Instant::now();
    let mut sum = 0;
    for _ in 0..rounds {
        let mut rest = black_box(&bytes[..]);
        while let Some((event, behind)) = next(rest) {
            sum = mixed(sum, event);
            rest = behind;
        }
    }
    let packed = clock.elapsed().as_nanos();
    let clock = Instant::now();
    let mut row_sum = 0;
    for _ in 0..rounds {
        for event in black_box(&events[..]) {
            row_sum = mixed(row_sum, *event);
        }
    }
    let row = clock.elapsed().as_nanos();
    println!("plain packed {packed} row {row} sums {sum} {row_sum} events {}", events.len());
}
