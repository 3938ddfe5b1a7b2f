//! The proved library, through its C functions. Every `unsafe` of this package is in this file, but the one of
//! stack/depth.rs, which reads what a call leaves on the stack.
//!
//! Without the static libraries (build.rs finds them) nothing is linked, and `linked` and `empty` answer `None`.

#[cfg(linked)]
mod linked_library {
    use crate::calls::{Calls, Entry};
    use std::ptr::read_volatile;

    /// Declares the C functions, functions of the same types that do nothing, and the calls over either. The arguments
    /// are numbers, slices that the call reads, numbers, slices that it may write, slices that it reads, and numbers; to
    /// C a slice is its address and its length.
    macro_rules! calls {
        ($($c:ident as $call:ident(
            $($first:ident: $f:ty),*;
            $($seen:ident: $s:ty),*;
            $($given:ident: $g:ty),*;
            $($lent:ident: $l:ty),*;
            $($read:ident: $r:ty),*;
            $($last:ident: $t:ty),*
        );)*) => {
            mod c {
                use super::Entry;

                extern "C" {
                    $(pub fn $c(
                        $($first: $f,)*
                        $($seen: *const $s, _: usize,)*
                        $($given: $g,)*
                        $($lent: *mut $l, _: usize,)*
                        $($read: *const $r, _: usize,)*
                        $($last: $t,)*
                    ) -> u64;)*
                }
            }

            mod empty {
                use super::Entry;

                $(pub extern "C" fn $c(
                    $(_: $f,)*
                    $(_: *const $s, _: usize,)*
                    $(_: $g,)*
                    $(_: *mut $l, _: usize,)*
                    $(_: *const $r, _: usize,)*
                    $(_: $t,)*
                ) -> u64 {
                    0
                })*
            }

            impl<const EMPTY: bool> Calls for Functions<EMPTY> {
                fn name(&self) -> &'static str {
                    if EMPTY { "empty" } else { "library" }
                }

                $(fn $call(
                    &self,
                    $($first: $f,)*
                    $($seen: &[$s],)*
                    $($given: $g,)*
                    $($lent: &mut [$l],)*
                    $($read: &[$r],)*
                    $($last: $t,)*
                ) -> u64 {
                    type Function = unsafe extern "C" fn(
                        $($f,)*
                        $(*const $s, usize,)*
                        $($g,)*
                        $(*mut $l, usize,)*
                        $(*const $r, usize,)*
                        $($t,)*
                    ) -> u64;
                    const NOTHING: Function = empty::$c;
                    unsafe {
                        let function: Function = if EMPTY { read_volatile(&NOTHING) } else { c::$c };
                        function(
                            $($first,)*
                            $($seen.as_ptr(), $seen.len(),)*
                            $($given,)*
                            $($lent.as_mut_ptr(), $lent.len(),)*
                            $($read.as_ptr(), $read.len(),)*
                            $($last,)*
                        )
                    }
                })*
            }
        };
    }

    /// The library as linked, or functions that do nothing; the address of these is read at each call, so that none is
    /// left out. Safe: each function is proved to touch nothing beyond the slices that it is lent, and slices of Rust are
    /// disjoint and of the stated lengths.
    pub struct Functions<const EMPTY: bool>;

    calls! {
        fj_clear as clear(n: u64; ; ; edges: u8, figures: u8, marks: u8; ;);
        fj_add as add(n: u64; ; ; edges: u8, figures: u8, marks: u8; ; a: u64, b: u64);
        fj_remove as remove(n: u64; ; ; edges: u8, figures: u8, marks: u8; ; a: u64, b: u64);
        fj_score as score(n: u64; edges: u8; node: u64; ; ;);
        fj_port_preview_add as preview_add(
            ; edges: u8, figures: u64, marks: u8; ; changes: i64; ; a: u64, b: u64
        );
        fj_port_preview_remove as preview_remove(
            ; edges: u8, figures: u64, marks: u8; ; changes: i64; ; a: u64, b: u64
        );
        fj_port_load as load(; ; ; edges: u8, figures: u64, marks: u8; snapshot: u8;);
        fj_port_write as write(; ; ; edges: u8, figures: u64, marks: u8, snapshot: u8; ;);
        fj_port_schedule_write as schedule_write(; schedule: u8; minute: u16; snapshot: u8; ;);
        fj_port_schedule_next as schedule_next(; schedule: u8; minute: u16; ; ;);
        fj_port_schedule_load as schedule_load(
            ; ; ; edges: u8, figures: u64, marks: u8; schedule: u8; minute: u16
        );
        fj_port_survey_write as survey_write(; survey: u8; n: u64, threshold: u64; snapshot: u8; ;);
        fj_port_survey_position as survey_position(; survey: u8; n: u64, a: u64, b: u64; ; ;);
        fj_port_reconcile as reconcile(; ; ; edges: u8, figures: u64, marks: u8; theirs: u8, base: u8;);
        fj_port_reconcile_pinned as reconcile_pinned(
            ; ; ; edges: u8, figures: u64, marks: u8; pins: u8, theirs: u8, their_pins: u8, base: u8;
        );
        fj_port_conflict as conflict(; edges: u8; n: u64; ; pins: u8, theirs: u8, their_pins: u8, base: u8;);
        fj_port_nearest as nearest(; edges: u8; n: u64, node: u64; ; listed: u64; hops: u8);
        fj_port_list as list(; ; ; edges: u8, figures: u64, marks: u8, entries: u64, scratch: u8; ;);
        fj_port_list_entries as list_entries(
            ; ; ; edges: u8, figures: u64, marks: u8, entries: Entry, scratch: u8; ;
        );
    }
}

/// The linked library, where there is one.
pub fn linked() -> Option<&'static dyn crate::calls::Calls> {
    #[cfg(linked)]
    return Some(&linked_library::Functions::<false>);
    #[cfg(not(linked))]
    None
}

/// Calls that are reached as those of the linked library are, and do nothing.
pub fn empty() -> Option<&'static dyn crate::calls::Calls> {
    #[cfg(linked)]
    return Some(&linked_library::Functions::<true>);
    #[cfg(not(linked))]
    None
}
