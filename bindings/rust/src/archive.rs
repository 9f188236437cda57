//! The functions of `libpheasantry.a`, as `include/pheasantry.h` declares them.

/// The numbers in which every function answers.
pub(crate) type Reply = [u64; 5];

extern "C" {
    pub(crate) fn pheasantry_check_vocabulary(
        vocabulary: *const u8,
        vocabulary_length: usize,
        reply: &mut Reply,
    );
    pub(crate) fn pheasantry_check_term(
        vocabulary: *const u8,
        vocabulary_length: usize,
        term: *const u8,
        term_length: usize,
        reply: &mut Reply,
    );
    pub(crate) fn pheasantry_match(
        vocabulary: *const u8,
        vocabulary_length: usize,
        pattern: *const u8,
        pattern_length: usize,
        situation: *const u8,
        situation_length: usize,
        table: *mut u16,
        table_length: usize,
        reply: &mut Reply,
    );
    pub(crate) fn pheasantry_part(
        vocabulary: *const u8,
        vocabulary_length: usize,
        pattern: *const u8,
        pattern_length: usize,
        situation: *const u8,
        situation_length: usize,
        name: u64,
        reply: &mut Reply,
    );
    pub(crate) fn pheasantry_list(
        vocabulary: *const u8,
        vocabulary_length: usize,
        pattern: *const u8,
        pattern_length: usize,
        out: *mut u8,
        out_length: usize,
        reply: &mut Reply,
    );
    pub(crate) fn pheasantry_fill(
        vocabulary: *const u8,
        vocabulary_length: usize,
        pattern: *const u8,
        pattern_length: usize,
        filling: *const u8,
        filling_length: usize,
        out: *mut u8,
        out_length: usize,
        reply: &mut Reply,
    );
    pub(crate) fn pheasantry_list_book(
        vocabulary: *const u8,
        vocabulary_length: usize,
        book: *const u8,
        book_length: usize,
        out: *mut u8,
        out_length: usize,
        reply: &mut Reply,
    );
}

#[cfg(test)]
mod tests {
    #[test]
    fn a_reply_is_as_long_as_the_header_says() {
        let length = super::Reply::default().len();
        let line = format!("#define PHEASANTRY_REPLY_LENGTH {length}\n");
        assert!(include_str!("../../../include/pheasantry.h").contains(&line));
    }
}
