//! Times of drawing expressions, product and reference by turns. Not a test: nothing fails by being slow.
//!
//! The product is called as C programs call it, in the library that `bindings/library capi` writes. It is compared with `positions`,
//! the product's algorithm in safe Rust, whose pool is put into the same memory. `at once` is that with arcs stored as their
//! targets are found, `derived` the reference's own way, by derivatives. All texts are first drawn by all four, and they must
//! leave the same.

use std::hint::black_box;
use std::time::Duration;

use reference_checker::expression::{expression, Pool, LONGEST_TEXT};
use reference_checker::positions::{pool_at_once, pool_of};
use reference_checker::read::{Refusal, POOL_STATES};
use swarmbanner_bench::{report, time_by_turns};

extern "C" {
    fn swarmbanner_expression(
        text: *const u8,
        text_length: usize,
        pool: *mut u8,
        pool_length: usize,
        reply: *mut usize,
        reply_length: usize,
    ) -> usize;
}

const REFUSED: usize = 4;
const DRAWN: usize = 15;

/// Bytes of a pool: its final marks, and then its arcs.
const POOL: usize = 4_191;

/// The number of states, or why there are none.
type Drawn = Result<usize, Refusal>;

/// The product, by its C function.
fn by_product(text: &[u8], pool: &mut [u8; POOL]) -> Drawn {
    let text = black_box(text);
    let mut reply = [0; 4];
    // SAFETY: each pointer and length are of one slice; those that are written to are borrowed by this call alone.
    let kind = unsafe {
        swarmbanner_expression(
            text.as_ptr(),
            text.len(),
            pool.as_mut_ptr(),
            pool.len(),
            reply.as_mut_ptr(),
            reply.len(),
        )
    };
    match kind {
        DRAWN => Ok(reply[1]),
        REFUSED => Err(Refusal { number: reply[0] as u8, place: reply[1] }),
        _ => panic!("a reply of kind {kind}"),
    }
}

/// The product's algorithm.
fn by_positions(text: &[u8], pool: &mut [u8; POOL]) -> Drawn {
    pool_of(black_box(text)).map(|drawn| put(&drawn, pool))
}

fn at_once(text: &[u8], pool: &mut [u8; POOL]) -> Drawn {
    pool_at_once(black_box(text)).map(|drawn| put(&drawn, pool))
}

fn by_derivatives(text: &[u8], pool: &mut [u8; POOL]) -> Drawn {
    expression(black_box(text)).map(|states| put(&Pool::of(&states), pool))
}

fn put(drawn: &Pool, pool: &mut [u8; POOL]) -> usize {
    let (marks, arcs) = pool.split_at_mut(POOL_STATES);
    marks.copy_from_slice(&drawn.finals.map(u8::from));
    arcs.copy_from_slice(&drawn.arcs);
    drawn.state_count
}

/// What the pools hold at first.
const BYTE: u8 = 9;

fn time_drawing(name: &str, text: &[u8]) {
    let mut pools = [[BYTE; POOL]; 4];
    let [reference, once, derived, product] = &mut pools;
    let reply = by_positions(text, reference);
    assert_eq!(at_once(text, once), reply, "the two forms of positions reply otherwise to {name}");
    assert_eq!(by_derivatives(text, derived), reply, "the reference's two ways reply otherwise to {name}");
    assert_eq!(by_product(text, product), reply, "product and reference reply otherwise to {name}");
    assert!(reference == once && reference == derived && reference == product, "something else is left of {name}");

    let times = time_by_turns([
        &mut || {
            let _ = black_box(by_positions(text, reference));
        },
        &mut || {
            let _ = black_box(at_once(text, once));
        },
        &mut || {
            let _ = black_box(by_derivatives(text, derived));
        },
        &mut || {
            let _ = black_box(by_product(text, product));
        },
    ]);
    let found = reply.map_or_else(|refusal| refusal.to_string(), |states| format!("drew {states}"));
    for (subject, times) in ["reference", "at once", "derived", "product"].iter().zip(&times) {
        report("draw", name, subject, times, &found);
    }
    let [by_reference, _, _, by_product] = times;
    let ratio = |product: Duration, reference: Duration| product.as_secs_f64() / reference.as_secs_f64();
    let medians = ratio(by_product.median, by_reference.median);
    let fastest = ratio(by_product.fastest, by_reference.fastest);
    println!("{:<6} {name:<28} {:<10} {medians:>12.2}    ({fastest:.2} fastest)", "draw", "ratio");
}

/// Of 121 states and 17 occurrences; each message of its own that follows it is one more of both.
const LARGE: &str = "(0|1)*1(0|1)(0|1)1(0|1)(0|1)0*1 1(0|1)*";

/// As long as can be, with as many occurrences and states as there can be: the last state stands for ten occurrences.
fn fullest() -> Vec<u8> {
    let mut text = format!("{LARGE} 2 2 2 2 2 (2|2|2|2|2|2|2|2|2|2)");
    text.push_str(&" ".repeat(LONGEST_TEXT - text.len()));
    text.into_bytes()
}

/// The same with one number more, and as long.
fn one_too_many() -> Vec<u8> {
    let mut text = format!("{LARGE} 2 2 2 2 2 2 (2|2|2|2|2|2|2|2|2)");
    text.push_str(&" ".repeat(LONGEST_TEXT - text.len()));
    text.into_bytes()
}

/// Groups in groups with a fault at the end.
fn unclosed() -> Vec<u8> {
    let mut text = b"(((0|1)*2|3)*4)* ".repeat(LONGEST_TEXT / 17);
    text.resize(LONGEST_TEXT - 1, b' ');
    text.push(b'(');
    text
}

fn main() {
    time_drawing("(0|1)* 2", b"(0|1)* 2");
    time_drawing("the empty text", b"");
    time_drawing("32 numbers side by side", "31 ".repeat(32).trim_end().as_bytes());
    time_drawing("256 bytes, 127 states", &fullest());
    time_drawing("256 bytes, 128 states", &one_too_many());
    time_drawing("256 bytes, not closed", &unclosed());
}
