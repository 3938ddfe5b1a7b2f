//! How deep a call goes into the stack: a stretch of it is painted, and what the call leaves of the paint is counted.

use std::hint::black_box;
use std::ptr;
use std::thread;

/// The bytes of a stack on which a call is watched.
const STACK: usize = 1 << 20;
/// The bytes below the call's frame that are painted.
const PAINTED: usize = 1 << 18;
/// The bytes by which the call's frame lies deeper than those that count the paint.
const APART: usize = 1 << 10;

/// Two paints: what is not overwritten in the one by chance is in the other.
pub const PAINTS: [u8; 2] = [0xA5, 0x5A];

/// The painted bytes that a call leaves, on a stack of its own. One that leaves fewer than another by some bytes needs as
/// many more.
pub fn left(paint: u8, call: &mut (dyn FnMut() + Send)) -> usize {
    let left = thread::scope(|scope| {
        let watch = move || watch(paint, call);
        let thread = thread::Builder::new().stack_size(STACK).spawn_scoped(scope, watch);
        thread.expect("a thread is started").join().expect("a call returns")
    });
    assert_ne!(left, 0, "a call needs less than what is painted");
    left
}

/// The painted bytes that a call leaves below this frame.
#[inline(never)]
fn watch(paint: u8, call: &mut dyn FnMut()) -> usize {
    let start = painted(paint);
    run(call);
    count(start, paint)
}

/// The address of the bytes below the caller's frame, painted.
#[inline(never)]
fn painted(paint: u8) -> usize {
    let mut bytes = [paint; PAINTED];
    black_box(&mut bytes).as_mut_ptr().expose_provenance()
}

/// The call, from a frame apart from those that count.
#[inline(never)]
fn run(call: &mut dyn FnMut()) {
    let mut apart = [0_u8; APART];
    black_box(&mut apart);
    call();
    black_box(&mut apart);
}

/// The painted bytes from an address on.
#[inline(never)]
fn count(start: usize, paint: u8) -> usize {
    let mut count = 0;
    // Safe: the bytes are of this thread's stack, below every frame but those of this count, and nothing writes them.
    while count < PAINTED && unsafe { ptr::with_exposed_provenance::<u8>(start + count).read_volatile() } == paint {
        count += 1;
    }
    count
}

#[cfg(test)]
mod tests {
    use super::{black_box, left, PAINTS};

    /// What the frames of a call need beside its arrays, at the most.
    const FRAMES: usize = 512;

    #[inline(never)]
    fn nothing() {}

    /// Writes a byte throughout an array of its frame.
    #[inline(never)]
    fn write<const SIZE: usize>(byte: u8) {
        let mut bytes = [byte; SIZE];
        black_box(&mut bytes);
    }

    /// Has nothing but a byte at the lowest places of its frame.
    #[inline(never)]
    fn hold(byte: u8) {
        black_box([byte; 64]);
    }

    /// What a call needs beyond one that does nothing.
    fn need(paint: u8, call: fn()) -> usize {
        let empty = left(paint, &mut || black_box(nothing as fn())());
        empty - left(paint, &mut || black_box(call)())
    }

    fn assert_about(found: usize, size: usize) {
        assert!((size..size + FRAMES).contains(&found), "{found} bytes for an array of {size}");
    }

    #[test]
    fn an_array_is_found_at_its_size() {
        for paint in PAINTS {
            assert_eq!(need(paint, nothing), 0);
            assert_about(need(paint, || write::<1_024>(0)), 1_024);
            assert_about(need(paint, || write::<8_192>(0)), 8_192);
            assert_about(need(paint, || write::<100_000>(0)), 100_000);
        }
    }

    #[test]
    fn the_deeper_of_two_calls_counts() {
        let both = || {
            write::<8_192>(0);
            write::<1_024>(0);
        };
        assert_about(need(PAINTS[0], both), 8_192);
    }

    #[test]
    fn what_one_paint_hides_the_other_shows() {
        for call in [|| hold(PAINTS[0]), || hold(PAINTS[1])] {
            let most = PAINTS.map(|paint| need(paint, call)).into_iter().max();
            assert_about(most.unwrap(), 64);
        }
    }

    #[test]
    #[should_panic(expected = "a call needs less than what is painted")]
    fn a_call_that_passes_the_paint_is_no_number() {
        need(PAINTS[0], || write::<300_000>(0));
    }
}
