//! Safe functions over `libgraph_name.a`, one for each function of `include/graph_name.h`, with the same parameters in the same order.
//!
//! A slice takes the place of a pointer and a length, and `&mut u64` that of a pointer to a number. The library asks nothing else of its
//! arguments: any bytes, lengths and numbers may come. The result is one of the numbers in [`number`], 0 for done. A number behind a
//! `&mut u64` is written on 0 only, except `line`, `start`, `length` and `offset` of the two readings, which are always written, and are 0 on
//! 0. `docs/FORMAT.md` has the formats byte for byte; `examples/example.rs` uses the functions.

/// The numbers that the functions give. Where several hold, 15 of any record comes before 16 of any, then 18, then 29, 19, 20 and 21 in this
/// order, then 1 to 14 in the order of the text, then 17.
pub mod number {
    /// Done.
    pub const DONE: u32 = 0;
    /// A line of fewer than two fields, which tabs separate.
    pub const SHORT_LINE: u32 = 1;
    /// A line's first field is neither `H` nor three bytes of which the first is `@`.
    pub const UNKNOWN_FIRST_FIELD: u32 = 2;
    /// A field of an `H` line under 5 bytes, or whose third or fifth byte is no colon.
    pub const BAD_TYPED_FIELD: u32 = 3;
    /// A value of `SG` of type Z is not two non-empty parts round one comma.
    pub const BAD_SUBGRAPH_FIELD: u32 = 4;
    /// A value of `TL` of type Z is not two non-empty parts round one comma.
    pub const BAD_TRANSLATION_FIELD: u32 = 5;
    /// An `@RN` line without exactly one further field, non-empty.
    pub const BAD_NAME_LINE: u32 = 6;
    /// An `@SG` line without exactly two further fields, both non-empty.
    pub const BAD_SUBGRAPH_LINE: u32 = 7;
    /// An `@TL` line without exactly two further fields, both non-empty.
    pub const BAD_TRANSLATION_LINE: u32 = 8;
    /// A relation of the subgraph tag is not two non-empty parts round one comma.
    pub const BAD_SUBGRAPH_RELATION: u32 = 9;
    /// A relation of the translation tag is not two non-empty parts round one comma.
    pub const BAD_TRANSLATION_RELATION: u32 = 10;
    /// A name of over [`MAX_NAME_BYTES`](crate::MAX_NAME_BYTES).
    pub const LONG_NAME: u32 = 11;
    /// Over [`MAX_NAMES`](crate::MAX_NAMES) distinct names.
    pub const NAMES_FULL: u32 = 12;
    /// Over [`MAX_PAIRS`](crate::MAX_PAIRS) pairs of either kind.
    pub const PAIRS_FULL: u32 = 13;
    /// Distinct names of over [`MAX_BODIES_BYTES`](crate::MAX_BODIES_BYTES) together.
    pub const BODIES_FULL: u32 = 14;
    /// A record buffer is not of [`RECORD_BYTES`](crate::RECORD_BYTES).
    pub const WRONG_BUFFER: u32 = 15;
    /// A record buffer breaks the layout.
    pub const NOT_A_RECORD: u32 = 16;
    /// An output is shorter than the result.
    pub const OUTPUT_SHORT: u32 = 17;
    /// A desc of over [`MAX_DESC_BYTES`](crate::MAX_DESC_BYTES).
    pub const LONG_DESC: u32 = 18;
    /// A tag's key of over [`MAX_KEY_BYTES`](crate::MAX_KEY_BYTES), or with a byte above 127.
    pub const BAD_KEY: u32 = 19;
    /// A tag's value of over [`MAX_VALUE_BYTES`](crate::MAX_VALUE_BYTES).
    pub const LONG_VALUE: u32 = 20;
    /// Over [`MAX_TAGS`](crate::MAX_TAGS) tags.
    pub const TAGS_FULL: u32 = 21;
    /// A tag list is not of [`TAGS_BYTES`](crate::TAGS_BYTES), or breaks the layout.
    pub const NOT_A_TAG_LIST: u32 = 29;
}

/// The kind of the step that leaves a name, in a path's bytes.
pub mod kind {
    /// A subgraph step.
    pub const SUBGRAPH: u16 = 0;
    /// A translation step.
    pub const TRANSLATION: u16 = 1;
    /// The last name, which no step leaves.
    pub const LAST: u16 = 2;
}

/// The length of a record, in bytes.
pub const RECORD_BYTES: usize = 32768;
/// The longest name, and so the longest value of the pggname tag, in bytes.
pub const MAX_NAME_BYTES: usize = 256;
/// The most distinct names of a record.
pub const MAX_NAMES: usize = 512;
/// The most pairs of each kind.
pub const MAX_PAIRS: usize = 1024;
/// The most bytes of all distinct names of a record together.
pub const MAX_BODIES_BYTES: usize = 22520;
/// The longest desc of a description, in bytes.
pub const MAX_DESC_BYTES: usize = 4096;

/// The length of a tag list, in bytes.
pub const TAGS_BYTES: usize = 264452;
/// The most tags of a tag list.
pub const MAX_TAGS: usize = 32;
/// The longest key of a tag, in bytes.
pub const MAX_KEY_BYTES: usize = 64;
/// The longest value of a tag, and so the most that [`tags_remove`] writes, in bytes.
pub const MAX_VALUE_BYTES: usize = 8192;

/// The longest path, in bytes: an output of this length always holds one. (An output of any of the largest lengths is never refused with 17;
/// `docs/FORMAT.md` has the sums.)
pub const MAX_PATH_BYTES: usize = 49134;
/// The longest GFA header lines of a record, in bytes.
pub const MAX_GFA_BYTES: usize = 1067272;
/// The longest GAF header lines of a record, in bytes.
pub const MAX_GAF_BYTES: usize = 1061125;
/// The longest value of the subgraph tag, and of the translation tag, in bytes.
pub const MAX_RELATIONS_TAG_BYTES: usize = 526335;
/// The most bytes of an error message beyond the part that it quotes.
pub const MAX_MESSAGE_WORDS: usize = 68;
/// The longest description, in bytes.
pub const MAX_DESCRIPTION_BYTES: usize = 96216;

/// The functions of the library.
mod library {
    #[link(name = "graph_name", kind = "static")]
    extern "C" {
        pub fn graph_name_new(name: *const u8, name_len: usize, record: *mut u8, record_len: usize) -> u32;
        pub fn graph_name_from_header_lines(
            text: *const u8, text_len: usize, record: *mut u8, record_len: usize,
            line: *mut u64, start: *mut u64, length: *mut u64, offset: *mut u64,
        ) -> u32;
        pub fn graph_name_from_tags(
            has_name: u32, name: *const u8, name_len: usize, has_subgraph: u32, subgraph: *const u8, subgraph_len: usize,
            has_translation: u32, translation: *const u8, translation_len: usize, record: *mut u8, record_len: usize,
            line: *mut u64, start: *mut u64, length: *mut u64, offset: *mut u64,
        ) -> u32;
        pub fn graph_name_error_message(
            number: u32, line: u64, part: *const u8, part_len: usize, out: *mut u8, out_len: usize, written: *mut u64,
        ) -> u32;
        pub fn graph_name_counts(
            record: *const u8, record_len: usize, names: *mut u64, subgraph: *mut u64, translation: *mut u64,
        ) -> u32;
        pub fn graph_name_name(
            record: *const u8, record_len: usize, present: *mut u64, start: *mut u64, length: *mut u64,
        ) -> u32;
        pub fn graph_name_name_at(
            record: *const u8, record_len: usize, place: u64, present: *mut u64, start: *mut u64, length: *mut u64,
        ) -> u32;
        pub fn graph_name_subgraph_at(
            record: *const u8, record_len: usize, place: u64, present: *mut u64,
            from_start: *mut u64, from_length: *mut u64, to_start: *mut u64, to_length: *mut u64,
        ) -> u32;
        pub fn graph_name_translation_at(
            record: *const u8, record_len: usize, place: u64, present: *mut u64,
            from_start: *mut u64, from_length: *mut u64, to_start: *mut u64, to_length: *mut u64,
        ) -> u32;
        pub fn graph_name_add_subgraph(
            record: *mut u8, record_len: usize, from: *const u8, from_len: usize, to: *const u8, to_len: usize,
        ) -> u32;
        pub fn graph_name_add_translation(
            record: *mut u8, record_len: usize, from: *const u8, from_len: usize, to: *const u8, to_len: usize,
        ) -> u32;
        pub fn graph_name_make_subgraph_of(record: *mut u8, record_len: usize, parent: *const u8, parent_len: usize) -> u32;
        pub fn graph_name_add_translation_to(record: *mut u8, record_len: usize, parent: *const u8, parent_len: usize) -> u32;
        pub fn graph_name_add_relationships(record: *mut u8, record_len: usize, other: *const u8, other_len: usize) -> u32;
        pub fn graph_name_is_same(
            record: *const u8, record_len: usize, other: *const u8, other_len: usize, answer: *mut u64,
        ) -> u32;
        pub fn graph_name_is_subgraph_of(
            record: *const u8, record_len: usize, other: *const u8, other_len: usize,
            out: *mut u8, out_len: usize, answer: *mut u64,
        ) -> u32;
        pub fn graph_name_translates_to(
            record: *const u8, record_len: usize, other: *const u8, other_len: usize,
            out: *mut u8, out_len: usize, answer: *mut u64,
        ) -> u32;
        pub fn graph_name_to_gfa_header_lines(
            record: *const u8, record_len: usize, out: *mut u8, out_len: usize, written: *mut u64,
        ) -> u32;
        pub fn graph_name_to_gaf_header_lines(
            record: *const u8, record_len: usize, out: *mut u8, out_len: usize, written: *mut u64,
        ) -> u32;
        pub fn graph_name_set_tags(
            record: *const u8, record_len: usize, name_out: *mut u8, name_out_len: usize,
            subgraph_out: *mut u8, subgraph_out_len: usize, translation_out: *mut u8, translation_out_len: usize,
            has_name: *mut u64, name_length: *mut u64, has_subgraph: *mut u64, subgraph_length: *mut u64,
            has_translation: *mut u64, translation_length: *mut u64,
        ) -> u32;
        pub fn graph_name_tags_counts(list: *const u8, list_len: usize, tags: *mut u64) -> u32;
        pub fn graph_name_tags_at(
            list: *const u8, list_len: usize, place: u64, present: *mut u64,
            key_start: *mut u64, key_length: *mut u64, value_start: *mut u64, value_length: *mut u64,
        ) -> u32;
        pub fn graph_name_tags_get(
            list: *const u8, list_len: usize, key: *const u8, key_len: usize,
            present: *mut u64, start: *mut u64, length: *mut u64,
        ) -> u32;
        pub fn graph_name_tags_contains_key(
            list: *const u8, list_len: usize, key: *const u8, key_len: usize, answer: *mut u64,
        ) -> u32;
        pub fn graph_name_tags_insert(
            list: *mut u8, list_len: usize, key: *const u8, key_len: usize, value: *const u8, value_len: usize,
        ) -> u32;
        pub fn graph_name_tags_remove(
            list: *mut u8, list_len: usize, key: *const u8, key_len: usize, out: *mut u8, out_len: usize,
            present: *mut u64, written: *mut u64,
        ) -> u32;
        pub fn graph_name_tags_set_graph_name(list: *mut u8, list_len: usize, record: *const u8, record_len: usize) -> u32;
        pub fn graph_name_describe_relationship(
            record: *const u8, record_len: usize, other: *const u8, other_len: usize,
            self_desc: *const u8, self_desc_len: usize, other_desc: *const u8, other_desc_len: usize,
            out: *mut u8, out_len: usize, written: *mut u64,
        ) -> u32;
        pub fn graph_name_check_strict(line: *const u8, line_len: usize) -> u64;
    }
}

// In each function below every pointer comes from a reference or slice that lives through the call, with that slice's own length, and a
// `&mut` overlaps no other argument. That is all that the library asks.

/// The record of a graph with this name and no pairs.
#[inline]
pub fn new(name: &[u8], record: &mut [u8]) -> u32 {
    unsafe { library::graph_name_new(name.as_ptr(), name.len(), record.as_mut_ptr(), record.len()) }
}

/// Reads a text of header lines, which byte 10 ends. A refusal leaves the empty record and gives its line, from 1, and the quoted part as a
/// place in the text. It also gives an offset, the byte of the text, from 0, where the fault lies: for 1 the line's first, for 2 to 8 that of
/// the quoted part, for 11 to 14 that of the field; of an `@` line this is the second field, also where the third is the long one. 15 leaves
/// the buffer and gives line 0 and offset 0.
#[inline]
pub fn from_header_lines(
    text: &[u8], record: &mut [u8], line: &mut u64, start: &mut u64, length: &mut u64, offset: &mut u64,
) -> u32 {
    unsafe {
        library::graph_name_from_header_lines(
            text.as_ptr(), text.len(), record.as_mut_ptr(), record.len(), line, start, length, offset,
        )
    }
}

/// Reads the three tag values; a flag of 0 stands for an absent tag, whose slice is not looked at. A refusal leaves the empty record and gives
/// line 0 and the quoted part as a place in its tag's value; 15 leaves the buffer. The offset is the byte of that value, from 0, where the
/// relation begins, and 0 for a long own name and for 15. 11 to 14 do not say in which tag the offset counts.
#[inline]
#[allow(clippy::too_many_arguments)]
pub fn from_tags(
    has_name: u32, name: &[u8], has_subgraph: u32, subgraph: &[u8], has_translation: u32, translation: &[u8],
    record: &mut [u8], line: &mut u64, start: &mut u64, length: &mut u64, offset: &mut u64,
) -> u32 {
    unsafe {
        library::graph_name_from_tags(
            has_name, name.as_ptr(), name.len(), has_subgraph, subgraph.as_ptr(), subgraph.len(),
            has_translation, translation.as_ptr(), translation.len(),
            record.as_mut_ptr(), record.len(), line, start, length, offset,
        )
    }
}

/// The text of a reading refusal, without a line end; empty for numbers other than 1 to 10.
#[inline]
pub fn error_message(number: u32, line: u64, part: &[u8], out: &mut [u8], written: &mut u64) -> u32 {
    unsafe {
        library::graph_name_error_message(number, line, part.as_ptr(), part.len(), out.as_mut_ptr(), out.len(), written)
    }
}

/// How many distinct names, subgraph pairs and translation pairs a record holds.
#[inline]
pub fn counts(record: &[u8], names: &mut u64, subgraph: &mut u64, translation: &mut u64) -> u32 {
    unsafe { library::graph_name_counts(record.as_ptr(), record.len(), names, subgraph, translation) }
}

/// The own name of a record, as a place in it.
#[inline]
pub fn name(record: &[u8], present: &mut u64, start: &mut u64, length: &mut u64) -> u32 {
    unsafe { library::graph_name_name(record.as_ptr(), record.len(), present, start, length) }
}

/// The name at a place, from 0, in ascending order.
#[inline]
pub fn name_at(record: &[u8], place: u64, present: &mut u64, start: &mut u64, length: &mut u64) -> u32 {
    unsafe { library::graph_name_name_at(record.as_ptr(), record.len(), place, present, start, length) }
}

/// The subgraph pair at a place, from 0, in ascending order.
#[inline]
#[allow(clippy::too_many_arguments)]
pub fn subgraph_at(
    record: &[u8], place: u64, present: &mut u64,
    from_start: &mut u64, from_length: &mut u64, to_start: &mut u64, to_length: &mut u64,
) -> u32 {
    unsafe {
        library::graph_name_subgraph_at(
            record.as_ptr(), record.len(), place, present, from_start, from_length, to_start, to_length,
        )
    }
}

/// The translation pair at a place, from 0, in ascending order.
#[inline]
#[allow(clippy::too_many_arguments)]
pub fn translation_at(
    record: &[u8], place: u64, present: &mut u64,
    from_start: &mut u64, from_length: &mut u64, to_start: &mut u64, to_length: &mut u64,
) -> u32 {
    unsafe {
        library::graph_name_translation_at(
            record.as_ptr(), record.len(), place, present, from_start, from_length, to_start, to_length,
        )
    }
}

/// Adds a subgraph pair, unless either name is empty.
#[inline]
pub fn add_subgraph(record: &mut [u8], from: &[u8], to: &[u8]) -> u32 {
    unsafe {
        library::graph_name_add_subgraph(
            record.as_mut_ptr(), record.len(), from.as_ptr(), from.len(), to.as_ptr(), to.len(),
        )
    }
}

/// Adds a translation pair, unless either name is empty.
#[inline]
pub fn add_translation(record: &mut [u8], from: &[u8], to: &[u8]) -> u32 {
    unsafe {
        library::graph_name_add_translation(
            record.as_mut_ptr(), record.len(), from.as_ptr(), from.len(), to.as_ptr(), to.len(),
        )
    }
}

/// Adds the subgraph pair of both own names and all pairs of the parent, unless either graph is unnamed.
#[inline]
pub fn make_subgraph_of(record: &mut [u8], parent: &[u8]) -> u32 {
    unsafe { library::graph_name_make_subgraph_of(record.as_mut_ptr(), record.len(), parent.as_ptr(), parent.len()) }
}

/// Adds the translation pair of both own names and all pairs of the parent, unless either graph is unnamed.
#[inline]
pub fn add_translation_to(record: &mut [u8], parent: &[u8]) -> u32 {
    unsafe { library::graph_name_add_translation_to(record.as_mut_ptr(), record.len(), parent.as_ptr(), parent.len()) }
}

/// Adds all pairs of the other record.
#[inline]
pub fn add_relationships(record: &mut [u8], other: &[u8]) -> u32 {
    unsafe { library::graph_name_add_relationships(record.as_mut_ptr(), record.len(), other.as_ptr(), other.len()) }
}

/// Whether both graphs are named and the names are equal.
#[inline]
pub fn is_same(record: &[u8], other: &[u8], answer: &mut u64) -> u32 {
    unsafe { library::graph_name_is_same(record.as_ptr(), record.len(), other.as_ptr(), other.len(), answer) }
}

/// Whether a path of subgraph pairs of both records leads from the first graph to the second; on a yes, its bytes: how many names, then for
/// each its length and its [`kind`], then the names, all numbers in two bytes, low byte first. [`MAX_PATH_BYTES`] always hold them.
#[inline]
pub fn is_subgraph_of(record: &[u8], other: &[u8], out: &mut [u8], answer: &mut u64) -> u32 {
    unsafe {
        library::graph_name_is_subgraph_of(
            record.as_ptr(), record.len(), other.as_ptr(), other.len(), out.as_mut_ptr(), out.len(), answer,
        )
    }
}

/// Whether a path of pairs of either kind of both records leads from the first graph to the second; on a yes, its bytes, as of
/// [`is_subgraph_of`].
#[inline]
pub fn translates_to(record: &[u8], other: &[u8], out: &mut [u8], answer: &mut u64) -> u32 {
    unsafe {
        library::graph_name_translates_to(
            record.as_ptr(), record.len(), other.as_ptr(), other.len(), out.as_mut_ptr(), out.len(), answer,
        )
    }
}

/// The GFA header lines of a record, each ended by byte 10.
#[inline]
pub fn to_gfa_header_lines(record: &[u8], out: &mut [u8], written: &mut u64) -> u32 {
    unsafe {
        library::graph_name_to_gfa_header_lines(record.as_ptr(), record.len(), out.as_mut_ptr(), out.len(), written)
    }
}

/// The GAF header lines of a record, each ended by byte 10.
#[inline]
pub fn to_gaf_header_lines(record: &[u8], out: &mut [u8], written: &mut u64) -> u32 {
    unsafe {
        library::graph_name_to_gaf_header_lines(record.as_ptr(), record.len(), out.as_mut_ptr(), out.len(), written)
    }
}

/// The three tag values of a record.
#[inline]
#[allow(clippy::too_many_arguments)]
pub fn set_tags(
    record: &[u8], name_out: &mut [u8], subgraph_out: &mut [u8], translation_out: &mut [u8],
    has_name: &mut u64, name_length: &mut u64, has_subgraph: &mut u64, subgraph_length: &mut u64,
    has_translation: &mut u64, translation_length: &mut u64,
) -> u32 {
    unsafe {
        library::graph_name_set_tags(
            record.as_ptr(), record.len(), name_out.as_mut_ptr(), name_out.len(),
            subgraph_out.as_mut_ptr(), subgraph_out.len(), translation_out.as_mut_ptr(), translation_out.len(),
            has_name, name_length, has_subgraph, subgraph_length, has_translation, translation_length,
        )
    }
}

/// How many tags a tag list holds. All zeros is the empty list.
#[inline]
pub fn tags_counts(list: &[u8], tags: &mut u64) -> u32 {
    unsafe { library::graph_name_tags_counts(list.as_ptr(), list.len(), tags) }
}

/// The tag at a place, from 0, in ascending order of keys: its key and its value as places in the list. Past the end all five numbers are 0.
#[inline]
#[allow(clippy::too_many_arguments)]
pub fn tags_at(
    list: &[u8], place: u64, present: &mut u64,
    key_start: &mut u64, key_length: &mut u64, value_start: &mut u64, value_length: &mut u64,
) -> u32 {
    unsafe {
        library::graph_name_tags_at(
            list.as_ptr(), list.len(), place, present, key_start, key_length, value_start, value_length,
        )
    }
}

/// The value of a key, as a place in the list. Here and below the capitals A to Z of a key are lowered before it is used, and an empty key is
/// a key; 19 looks at the key as it comes.
#[inline]
pub fn tags_get(list: &[u8], key: &[u8], present: &mut u64, start: &mut u64, length: &mut u64) -> u32 {
    unsafe { library::graph_name_tags_get(list.as_ptr(), list.len(), key.as_ptr(), key.len(), present, start, length) }
}

/// Whether there is a tag with this key.
#[inline]
pub fn tags_contains_key(list: &[u8], key: &[u8], answer: &mut u64) -> u32 {
    unsafe { library::graph_name_tags_contains_key(list.as_ptr(), list.len(), key.as_ptr(), key.len(), answer) }
}

/// Sets the value of a key: a new tag, or another value for a key that is there, which is no 21 in a full list. A refusal leaves the list.
#[inline]
pub fn tags_insert(list: &mut [u8], key: &[u8], value: &[u8]) -> u32 {
    unsafe {
        library::graph_name_tags_insert(
            list.as_mut_ptr(), list.len(), key.as_ptr(), key.len(), value.as_ptr(), value.len(),
        )
    }
}

/// Removes the tag of a key and writes the value that it had. If the value does not fit, nothing is removed; if there is no such tag, nothing
/// is written and no room needed, and `present` and `written` are 0.
#[inline]
pub fn tags_remove(list: &mut [u8], key: &[u8], out: &mut [u8], present: &mut u64, written: &mut u64) -> u32 {
    unsafe {
        library::graph_name_tags_remove(
            list.as_mut_ptr(), list.len(), key.as_ptr(), key.len(), out.as_mut_ptr(), out.len(), present, written,
        )
    }
}

/// Sets the tags `pggname`, `subgraph` and `translation` to the values that [`set_tags`] gives for a record, and removes those of them that are
/// absent there. 20 and 21 are judged after all three changes; a refusal leaves the list.
#[inline]
pub fn tags_set_graph_name(list: &mut [u8], record: &[u8]) -> u32 {
    unsafe { library::graph_name_tags_set_graph_name(list.as_mut_ptr(), list.len(), record.as_ptr(), record.len()) }
}

/// The description of how two graphs are related, with a desc of each.
#[inline]
pub fn describe_relationship(
    record: &[u8], other: &[u8], self_desc: &[u8], other_desc: &[u8], out: &mut [u8], written: &mut u64,
) -> u32 {
    unsafe {
        library::graph_name_describe_relationship(
            record.as_ptr(), record.len(), other.as_ptr(), other.len(), self_desc.as_ptr(), self_desc.len(),
            other_desc.as_ptr(), other_desc.len(), out.as_mut_ptr(), out.len(), written,
        )
    }
}

/// The strict reading of one header line: 0 for fine, else one more than the number of the first faulty field.
#[inline]
pub fn check_strict(line: &[u8]) -> u64 {
    unsafe { library::graph_name_check_strict(line.as_ptr(), line.len()) }
}
