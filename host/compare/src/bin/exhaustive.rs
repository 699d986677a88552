//! Every f32: the root, the size and finiteness against the hardware, sine and cosine against document 01 and the true value. And every profile word of an image.

use compare::joint::bytes::{put, ANSWER, IMAGE, PROFILE, SETUP, TICK};
use compare::joint::model::Flight;
use compare::numbers;
use compare::println;
use compare::threads;
use std::sync::atomic::{AtomicU64, Ordering};

fn report(name: &str, found: numbers::Found) -> bool {
    print!("{name}: {} patterns", found.cases);
    if found.distance > 0.0 {
        print!(", worst distance {:.3e} at {:08x}", found.distance, found.at.to_bits());
    }
    if found.ulps > 0.0 {
        print!(", worst {:.3} units in the last place at {:08x} (where the value is at least 1e-3)", found.ulps, found.ulps_at.to_bits());
    }
    match &found.wrong {
        None => println!(", none wrong"),
        Some(text) => println!(", WRONG: {text}"),
    }
    found.wrong.is_none()
}

/// For the record: docs/DIFFERENCES.md has what this prints.
fn beside(name: &str, found: numbers::Apart) {
    println!(
        "{name}, ours beside the published: {} of {} answers differ, {} by more than one unit",
        found.differ, found.cases, found.further
    );
    println!(
        "  at most {} units, at {:08x}; at most {:.3e}, at {:08x}",
        found.units,
        found.at.to_bits(),
        found.distance,
        found.distance_at.to_bits()
    );
}

/// Of all values of word 95 of a good image, a tick is told to take 0 and 1, and to refuse the others with 4.
fn profiles() -> bool {
    let (taken, wrong) = (AtomicU64::new(0), AtomicU64::new(0));
    threads::each(1 << 16, |high| {
        let mut image = [0; IMAGE];
        Flight::set_up(&[0; SETUP]).write(&mut image);
        let (mut own, mut off) = (0, 0);
        for low in 0..1 << 16 {
            let profile = (high as u32) << 16 | low;
            put(&mut image, PROFILE, profile);
            let number = archives::tick_refusal(&image, TICK, ANSWER);
            own += u64::from(number == 0);
            off += u64::from(number != if profile < 2 { 0 } else { 4 });
        }
        taken.fetch_add(own, Ordering::Relaxed);
        wrong.fetch_add(off, Ordering::Relaxed);
        false
    });
    let (taken, wrong) = (taken.into_inner(), wrong.into_inner());
    println!("word 95 of an image, every value: {taken} taken, {wrong} wrong");
    (taken, wrong) == (2, 0)
}

fn main() {
    let mut good = report("root, size, finiteness against the hardware", numbers::hardware(1));
    good &= report("sine and cosine up to 8192 against the true value, for the record", numbers::angles(1));
    good &= report("sine and cosine beyond 8192", numbers::far(1));
    good &= report("sine and cosine up to 8192 against document 01", numbers::document(1));
    report("the published kernels up to 128, for the record", numbers::published(7));
    beside("sine", numbers::apart(1, archives::sinf, relay_math_published::sinf));
    beside("cosine", numbers::apart(1, archives::cosf, relay_math_published::cosf));
    good &= profiles();
    let numbers::Checksum { cases, sum } = numbers::checksum();
    println!(
        "sine and cosine up to 128: checksum {sum:016x} over {cases} sizes of either sign, {:016x} before request Five",
        numbers::EARLIER_SUM
    );
    good &= sum == numbers::EARLIER_SUM;
    if !good {
        std::process::exit(1);
    }
}
