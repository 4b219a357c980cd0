//! The stack that a call uses: the stack below is painted, and afterwards looked
//! at for where the paint is gone.

use std::hint::black_box;
use std::ptr;
use std::sync::Mutex;
use std::thread;

use cases::{Draft, Pooling, Random};

use crate::dates::GIVEN;
use crate::inputs;

/// How much of the stack is painted: far more than a call uses.
const AREA: usize = 64 * 1024;

const PAINT: u8 = 0xA7;

/// The stack of one call, in bytes.
pub struct Stack {
    /// What was called.
    pub name: &'static str,
    /// The library.
    pub library: usize,
    /// The second implementation.
    pub reference: usize,
}

/// The rows of the table.
pub fn rows(random: &mut Random) -> Vec<Stack> {
    let sheet = inputs::accepted(random)[0];
    let mut rows = vec![Stack {
        name: "check, an accepted sheet",
        library: used(&|| keep(GIVEN.check(black_box(&sheet)))),
        reference: used(&|| keep(GIVEN.check_by_second(black_box(&sheet)))),
    }];
    let drafts = [
        ("complete, nothing blank", inputs::full(random)[0]),
        ("complete, count 97", inputs::count_97(random)[0]),
        (
            "complete, hopeless, 1,056 fillings",
            inputs::hopeless(random)[0],
        ),
    ];
    rows.extend(drafts.map(|(name, draft)| completion(name, &draft)));
    rows.push(pooling(&inputs::registers(random, 500, 500)[0]));
    let payments = &inputs::payments(random)[0];
    rows.push(Stack {
        name: "leave, 64 payments",
        library: used(&|| keep(kieselbrot::leave(payments.balance, &payments.library))),
        reference: used(&|| keep(reference::leave(payments.balance, &payments.reference))),
    });
    rows
}

fn completion(name: &'static str, draft: &Draft) -> Stack {
    Stack {
        name,
        library: writing(390, &|sheet| GIVEN.complete(draft, sheet).is_ok()),
        reference: writing(390, &|sheet| GIVEN.complete_by_second(draft, sheet).is_ok()),
    }
}

fn pooling(input: &Pooling) -> Stack {
    let (register, amount) = (&input.register, input.amount);
    Stack {
        name: "pool, 500 lines of 500 INNs",
        library: writing(10_000, &|output| {
            kieselbrot::pool(register, amount, output).is_ok()
        }),
        reference: writing(10_000, &|output| {
            reference::pool(register, amount, output).is_ok()
        }),
    }
}

/// The stack of a call that is lent a buffer of so many bytes, which lies elsewhere.
fn writing(size: usize, call: &(dyn Fn(&mut [u8]) -> bool + Sync)) -> usize {
    let lent = Mutex::new(vec![0; size]);
    used(&|| {
        if let Ok(mut buffer) = lent.lock() {
            keep(call(black_box(&mut buffer)));
        }
    })
}

/// Keeps the compiler from leaving out what nobody looks at.
fn keep<T>(answer: T) {
    black_box(answer);
}

/// How deep a call goes, on a thread of its own, beyond a call that does nothing.
fn used(call: &(dyn Fn() + Sync)) -> usize {
    let nothing = || {
        black_box(());
    };
    depth(call).saturating_sub(depth(&nothing))
}

fn depth(call: &(dyn Fn() + Sync)) -> usize {
    thread::scope(|scope| {
        let measured = scope.spawn(move || {
            // Once before, so that whatever a first call sets up is set up.
            call();
            let start = paint();
            call();
            unpainted(start)
        });
        measured.join().unwrap_or_default()
    })
}

/// Paints the stack below the caller, and tells where the paint begins.
#[inline(never)]
fn paint() -> usize {
    let mut area = [0; AREA];
    black_box(&mut area).fill(PAINT);
    black_box(&area).as_ptr().expose_provenance()
}

/// How much of the paint below the caller is gone, from its upper end.
#[inline(never)]
fn unpainted(start: usize) -> usize {
    let start = ptr::with_exposed_provenance::<u8>(start);
    // SAFETY: the places are on this thread's stack, touched before and so mapped;
    // nothing is held there by now but what calls have left, and any byte is a
    // `u8`. The reads are volatile.
    let byte = |place| unsafe { start.add(place).read_volatile() };
    AREA - (0..AREA)
        .find(|&place| byte(place) != PAINT)
        .unwrap_or(AREA)
}
