//! Times of writing, product and reference by turns. Not a test: nothing fails by being slow.
//!
//! The product is called as C programs call it, in the library that `bindings/library capi` writes. It is compared with `spelling`,
//! the product's algorithm in safe Rust: the tables are spelled out, read back with `order`, the product's test of queue order,
//! compared, and copied to the buffer. The third, `direct`, is the reference's own way, which asks each entry instead of
//! reading back, with the same test of queue order. All tables are first written by all three, and they must leave the same.

use std::hint::black_box;
use std::time::Duration;

use reference_checker::flat::{Flat, SPACE};
use reference_checker::generate::document::{hex, samples, R};
use reference_checker::generate::large::longest;
use reference_checker::generate::plan::Plan;
use reference_checker::random::Random;
use reference_checker::read::{read, Refusal};
use reference_checker::write::write_asking;
use swarmbanner_bench::order::in_queue_order;
use swarmbanner_bench::spelling::write_read_back;
use swarmbanner_bench::{report, time_by_turns};

extern "C" {
    fn swarmbanner_write(
        tables: *const u8,
        tables_length: usize,
        buffer: *mut u8,
        buffer_length: usize,
        reply: *mut usize,
        reply_length: usize,
    ) -> usize;
}

const REFUSED: usize = 4;
const WRITTEN: usize = 14;

/// The product, by its C function.
fn by_product(flat: &Flat, buffer: &mut [u8]) -> Result<usize, Refusal> {
    let tables = black_box(&flat.0);
    let mut reply = [0; 4];
    // SAFETY: each pointer and length are of one slice; those that are written to are borrowed by this call alone.
    let kind = unsafe {
        swarmbanner_write(
            tables.as_ptr(),
            tables.len(),
            buffer.as_mut_ptr(),
            buffer.len(),
            reply.as_mut_ptr(),
            reply.len(),
        )
    };
    match kind {
        WRITTEN => Ok(reply[0]),
        REFUSED => Err(Refusal { number: reply[0] as u8, place: reply[1] }),
        _ => panic!("a reply of kind {kind}"),
    }
}

/// The product's algorithm.
fn by_reading_back(flat: &Flat, buffer: &mut [u8]) -> Result<usize, Refusal> {
    write_read_back(black_box(&flat.0), buffer)
}

/// Entry by entry.
fn directly(flat: &Flat, buffer: &mut [u8]) -> Result<usize, Refusal> {
    let flat = black_box(flat);
    write_asking(flat, flat.product(), buffer, in_queue_order)
}

/// A buffer that is longer than any file.
const BUFFER: usize = 12_000;
/// What the buffers hold at first.
const BYTE: u8 = 9;

fn time_writing(name: &str, flat: &Flat) {
    let mut buffers = [(); 3].map(|()| vec![BYTE; BUFFER]);
    let [reference, direct, product] = &mut buffers;
    let reply = by_reading_back(flat, reference);
    assert_eq!(directly(flat, direct), reply, "the reference's two ways reply otherwise to {name}");
    assert_eq!(by_product(flat, product), reply, "product and reference reply otherwise to {name}");
    assert!(reference == direct && reference == product, "something else is left of {name}");

    let times = time_by_turns([
        &mut || {
            let _ = black_box(by_reading_back(flat, reference));
        },
        &mut || {
            let _ = black_box(directly(flat, direct));
        },
        &mut || {
            let _ = black_box(by_product(flat, product));
        },
    ]);
    let found = reply.map_or_else(|refusal| refusal.to_string(), |length| format!("wrote {length}"));
    for (subject, times) in ["reference", "direct", "product"].iter().zip(&times) {
        report("write", name, subject, times, &found);
    }
    let [by_reference, _, by_product] = times;
    let ratio = |product: Duration, reference: Duration| product.as_secs_f64() / reference.as_secs_f64();
    let medians = ratio(by_product.median, by_reference.median);
    let fastest = ratio(by_product.fastest, by_reference.fastest);
    println!("{:<6} {name:<28} {:<10} {medians:>12.2}    ({fastest:.2} fastest)", "write", "ratio");
}

fn tables_of(file: &[u8]) -> Flat {
    Flat::of(&read(file).expect("the file is read"))
}

/// With the root of the last bad entry of all not 0: what is compared last. The list must end before it.
fn with_last_entry(mut flat: Flat) -> Flat {
    flat.0[SPACE - 1] = 1;
    flat
}

/// The longest file but for its last bad entry.
fn nearly_longest() -> Plan {
    let mut plan = longest(&mut Random::new(1));
    plan.bad.pop();
    plan
}

fn main() {
    let sample = samples().into_iter().find(|sample| sample.name == "alternating-bit").expect("it is a sample");
    let r = tables_of(&hex(R));
    time_writing("R", &r);
    time_writing(sample.name, &tables_of(&sample.bytes));
    time_writing("the longest file", &tables_of(&longest(&mut Random::new(1)).bytes()));
    time_writing("R, last entry not 0", &with_last_entry(r));
    let nearly_longest = tables_of(&nearly_longest().bytes());
    time_writing("a long file, last not 0", &with_last_entry(nearly_longest));
}
