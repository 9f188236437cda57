//! The archive's calls in the form of the reference's: slices in, five numbers out.
//!
//! The functions of the archive are called as they are, with nothing of the Rust binding between.

pub mod books;
pub mod terms;
pub mod timing;

pub use reference::Reply;

/// What stands in a reply before the archive writes it.
const UNWRITTEN: Reply = [u64::MAX; 5];

/// The pointer of a slice; null where there is nothing to point to, which the header allows.
fn pointer(slice: &[u8]) -> *const u8 {
    if slice.is_empty() {
        std::ptr::null()
    } else {
        slice.as_ptr()
    }
}

/// The same of a slice that is lent.
fn lent<T>(slice: &mut [T]) -> *mut T {
    if slice.is_empty() {
        std::ptr::null_mut()
    } else {
        slice.as_mut_ptr()
    }
}

/// The seven calls of an archive, by its names for them.
macro_rules! calls {
    ($check_vocabulary:ident, $check_term:ident, $match_pattern:ident, $part:ident, $list:ident, $fill:ident, $list_book:ident) => {
        use super::{lent, pointer, Reply, UNWRITTEN};

        extern "C" {
            fn $check_vocabulary(v: *const u8, v_length: usize, reply: *mut u64);
            fn $check_term(
                v: *const u8,
                v_length: usize,
                t: *const u8,
                t_length: usize,
                reply: *mut u64,
            );
            fn $match_pattern(
                v: *const u8,
                v_length: usize,
                p: *const u8,
                p_length: usize,
                s: *const u8,
                s_length: usize,
                table: *mut u16,
                table_length: usize,
                reply: *mut u64,
            );
            fn $part(
                v: *const u8,
                v_length: usize,
                p: *const u8,
                p_length: usize,
                s: *const u8,
                s_length: usize,
                name: u64,
                reply: *mut u64,
            );
            fn $list(
                v: *const u8,
                v_length: usize,
                p: *const u8,
                p_length: usize,
                out: *mut u8,
                out_length: usize,
                reply: *mut u64,
            );
            fn $fill(
                v: *const u8,
                v_length: usize,
                p: *const u8,
                p_length: usize,
                f: *const u8,
                f_length: usize,
                out: *mut u8,
                out_length: usize,
                reply: *mut u64,
            );
            fn $list_book(
                v: *const u8,
                v_length: usize,
                b: *const u8,
                b_length: usize,
                out: *mut u8,
                out_length: usize,
                reply: *mut u64,
            );
        }

        // SAFETY, for all seven: pointers and lengths are those of slices that live through the call, or
        // null and 0, and what is written is borrowed for the call alone.

        pub fn check_vocabulary(v: &[u8]) -> Reply {
            let mut reply = UNWRITTEN;
            unsafe { $check_vocabulary(pointer(v), v.len(), reply.as_mut_ptr()) };
            reply
        }

        pub fn check_term(v: &[u8], t: &[u8]) -> Reply {
            let mut reply = UNWRITTEN;
            unsafe { $check_term(pointer(v), v.len(), pointer(t), t.len(), reply.as_mut_ptr()) };
            reply
        }

        pub fn match_pattern(v: &[u8], p: &[u8], s: &[u8], table: &mut [u16]) -> Reply {
            let mut reply = UNWRITTEN;
            unsafe {
                $match_pattern(
                    pointer(v),
                    v.len(),
                    pointer(p),
                    p.len(),
                    pointer(s),
                    s.len(),
                    lent(table),
                    table.len(),
                    reply.as_mut_ptr(),
                )
            };
            reply
        }

        pub fn part(v: &[u8], p: &[u8], s: &[u8], name: u64) -> Reply {
            let mut reply = UNWRITTEN;
            unsafe {
                $part(
                    pointer(v),
                    v.len(),
                    pointer(p),
                    p.len(),
                    pointer(s),
                    s.len(),
                    name,
                    reply.as_mut_ptr(),
                )
            };
            reply
        }

        pub fn list(v: &[u8], p: &[u8], out: &mut [u8]) -> Reply {
            let mut reply = UNWRITTEN;
            unsafe {
                $list(
                    pointer(v),
                    v.len(),
                    pointer(p),
                    p.len(),
                    lent(out),
                    out.len(),
                    reply.as_mut_ptr(),
                )
            };
            reply
        }

        pub fn fill(v: &[u8], p: &[u8], f: &[u8], out: &mut [u8]) -> Reply {
            let mut reply = UNWRITTEN;
            unsafe {
                $fill(
                    pointer(v),
                    v.len(),
                    pointer(p),
                    p.len(),
                    pointer(f),
                    f.len(),
                    lent(out),
                    out.len(),
                    reply.as_mut_ptr(),
                )
            };
            reply
        }

        pub fn list_book(v: &[u8], b: &[u8], out: &mut [u8]) -> Reply {
            let mut reply = UNWRITTEN;
            unsafe {
                $list_book(
                    pointer(v),
                    v.len(),
                    pointer(b),
                    b.len(),
                    lent(out),
                    out.len(),
                    reply.as_mut_ptr(),
                )
            };
            reply
        }
    };
}

pub mod archive {
    calls!(
        pheasantry_check_vocabulary,
        pheasantry_check_term,
        pheasantry_match,
        pheasantry_part,
        pheasantry_list,
        pheasantry_fill,
        pheasantry_list_book
    );
}

/// An older archive, which `build.rs` links under these names.
#[cfg(feature = "before")]
pub mod before {
    calls!(
        before_check_vocabulary,
        before_check_term,
        before_match,
        before_part,
        before_list,
        before_fill,
        before_list_book
    );
}

/// The entries of a listing in the order of their bytes, if it is just so many whole patterns.
pub fn sorted_entries(mut listing: &[u8], entries: u64) -> Option<Vec<&[u8]>> {
    let mut all = Vec::new();
    for _ in 0..entries {
        let (mut at, mut due) = (1, 1);
        while due > 0 {
            due -= 1;
            if *listing.get(at)? < 128 {
                due += listing.get(at + 1)?.count_ones();
                at += 1;
            }
            at += 1;
        }
        let (entry, behind) = listing.split_at(at);
        all.push(entry);
        listing = behind;
    }
    all.sort_unstable();
    listing.is_empty().then_some(all)
}
