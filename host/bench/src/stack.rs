//! How far down the stack a call writes: the stack below it is painted, the call is made, and the paint is looked at.

/// What is painted.
#[cfg(any(target_arch = "x86_64", target_arch = "aarch64"))]
const BELOW: usize = 256 * 1024;

/// What each of the core's calls may take, on any thread.
pub const BAR: usize = 1536;

/// The stack that a thread needs for it.
pub const LEAST: usize = 1024 * 1024;

/// The bytes of stack that `call` wrote; on x86-64 its return address is among them, on aarch64 that is in a register.
pub fn depth(call: &mut dyn FnMut()) -> Option<usize> {
    // a byte may be written as it was painted: two colours, and the deeper of them
    Some(below(call, 0x5a)?.max(below(call, 0xa5)?))
}

#[cfg(target_arch = "x86_64")]
#[inline(never)]
fn below(call: &mut dyn FnMut(), paint: u8) -> Option<usize> {
    use std::arch::asm;
    let (low, left): (*const u8, usize);
    // SAFETY: what lies below the stack pointer is free (asm without `nostack` may push, so there is no red zone to heed), and
    // the thread has more than `BELOW` of it.
    unsafe {
        asm!("lea {low}, [rsp - {n}]", "mov rdi, {low}", "mov rcx, {n}", "cld", "rep stosb",
            low = out(reg) low, n = const BELOW, in("al") paint, out("rdi") _, out("rcx") _);
    }
    call();
    // SAFETY: as above; it only reads. The call wrote its return address at least, so there is a byte to stop at.
    unsafe {
        asm!("mov rdi, {low}", "mov rcx, {n}", "cld", "repe scasb", "inc rcx",
            low = in(reg) low, n = const BELOW, in("al") paint, out("rdi") _, out("rcx") left);
    }
    Some(left)
}

#[cfg(target_arch = "aarch64")]
#[inline(never)]
fn below(call: &mut dyn FnMut(), paint: u8) -> Option<usize> {
    use std::arch::asm;
    let paint = u64::from_le_bytes([paint; 8]);
    let (low, above, seen): (*const u8, usize, u64);
    // SAFETY: as on x86-64. The stack pointer is a multiple of 16, so the last store ends at it.
    unsafe {
        asm!("sub {low}, sp, {n}", "mov {at}, {low}", "2:", "stp {paint}, {paint}, [{at}], 16", "cmp sp, {at}", "b.ne 2b",
            low = out(reg) low, at = out(reg) _, n = const BELOW, paint = in(reg) paint);
    }
    call();
    // SAFETY: as above; it only reads. A call need not write here at all: it ends at the stack pointer too.
    unsafe {
        asm!("2:", "ldr {seen}, [{at}], 8", "cmp {seen}, {paint}", "b.ne 3f", "cmp sp, {at}", "b.ne 2b", "3:", "sub {above}, sp, {at}",
            at = inout(reg) low => _, seen = out(reg) seen, above = out(reg) above, paint = in(reg) paint);
    }
    // of the last eight bytes looked at, those from the first that is no paint: none where all are
    Some(above + 8 - (seen ^ paint).trailing_zeros() as usize / 8)
}

#[cfg(not(any(target_arch = "x86_64", target_arch = "aarch64")))]
fn below(_: &mut dyn FnMut(), _: u8) -> Option<usize> {
    None
}

#[cfg(all(test, any(target_arch = "x86_64", target_arch = "aarch64")))]
mod tests {
    use super::*;
    use std::arch::asm;
    use std::hint::black_box;

    /// What a call writes that does nothing.
    const NOTHING: usize = if cfg!(target_arch = "x86_64") { 8 } else { 0 };

    #[inline(never)]
    fn takes<const N: usize, const BYTE: u8>() {
        black_box(&mut [BYTE; N]);
    }

    #[test]
    fn a_call_that_takes_more_is_seen_to() {
        let within = |depth: Option<usize>, least: usize| depth.is_some_and(|depth| depth >= least && depth < least + 256);
        assert!(within(depth(&mut || ()), NOTHING));
        assert!(within(depth(&mut takes::<1000, 1>), 1000));
        assert!(within(depth(&mut takes::<5000, 1>), 5000));
        // as it was painted
        assert!(within(depth(&mut takes::<5000, 0x5a>), 5000));
        assert!(within(depth(&mut takes::<5000, 0xa5>), 5000));
    }

    /// Writes one byte, so far below the stack pointer.
    #[inline(never)]
    fn writes(below: usize) {
        // SAFETY: it is free there, as above.
        #[cfg(target_arch = "x86_64")]
        unsafe {
            asm!("neg {at}", "mov byte ptr [rsp + {at}], 0", at = inout(reg) below => _);
        }
        // SAFETY: alike.
        #[cfg(target_arch = "aarch64")]
        unsafe {
            asm!("sub {at}, sp, {at}", "strb wzr, [{at}]", at = inout(reg) below => _);
        }
    }

    #[test]
    fn to_the_byte() {
        let [first, rest @ ..] = std::array::from_fn::<_, 40, _>(|k| depth(&mut || writes(black_box(1000 + k))).expect("measured here"));
        assert!(first >= 1000);
        assert!(rest.into_iter().eq(first + 1..first + 40), "{first}, {rest:?}");
    }
}
