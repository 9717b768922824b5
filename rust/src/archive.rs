//! The archive's functions as include/cqdb.h declares them, each behind a safe function. The calls are sound: a slice is a
//! pointer that is not null and is valid for its length, a `&mut` overlaps nothing, and no function keeps a pointer. What each
//! call is lent stands beside it.
//! The crate, the comparisons with the original and the benchmarks all use this file.

/// Where the first entry stands: behind the head, which is as long in every image.
#[allow(dead_code)]
pub const HEAD: usize = 2_072;

#[repr(C)]
#[derive(Clone, Copy, Debug, PartialEq, Eq)]
pub struct HashAnswer {
    pub refusal: u32,
    pub hash: u32,
}

#[repr(C)]
#[derive(Clone, Copy, Debug, PartialEq, Eq)]
pub struct OpenAnswer {
    pub refusal: u32,
    pub num: u32,
}

#[repr(C)]
#[derive(Clone, Copy, Debug, PartialEq, Eq)]
pub struct IdAnswer {
    pub found: u32,
    pub id: u32,
    pub buckets: u32,
    pub offset: u32,
}

#[repr(C)]
#[derive(Clone, Copy, Debug, PartialEq, Eq)]
pub struct StrAnswer {
    pub found: u32,
    pub len: u32,
    pub start: u64,
}

/// An entry's id and the place of its name.
#[repr(C)]
#[derive(Clone, Copy, Debug, PartialEq, Eq)]
pub struct EntryAnswer {
    pub found: u32,
    pub id: u32,
    pub len: u32,
    pub start: u64,
}

/// Where the buckets of a table stand.
#[repr(C)]
#[derive(Clone, Copy, Debug, PartialEq, Eq)]
pub struct TableAnswer {
    pub buckets: u32,
    pub start: u32,
}

/// The writer record without its 256 table counts, which are lent beside it.
#[repr(C)]
#[derive(Clone, Copy, Debug, PartialEq, Eq)]
pub struct Record {
    pub mode: u32,
    pub repeats: u32,
    pub entries: u32,
    pub back: u32,
    pub length: u64,
    pub end: u64,
}

/// What put and grown answer, and [`begin`].
#[repr(C)]
#[derive(Clone, Copy, Debug, PartialEq, Eq)]
pub struct RecordAnswer {
    pub refusal: u32,
    pub record: Record,
}

#[repr(C)]
#[derive(Clone, Copy, Debug, PartialEq, Eq)]
pub struct CloseAnswer {
    pub refusal: u32,
    pub size: u32,
}

/// The reference must be sighted before the wall prism.
#[repr(C)]
#[derive(Clone, Copy, Debug, PartialEq, Eq, Hash)]
pub struct Pair {
    /// The id of the reference.
    pub reference: u32,
    /// The id of the wall prism.
    pub wall: u32,
}

#[repr(C)]
#[derive(Clone, Copy, Debug, PartialEq, Eq)]
pub struct OrderAnswer {
    pub ok: u32,
    pub pair: u64,
}

/// For references, wall prisms and retired prisms the number of ids, and where they begin in the file.
#[repr(C)]
#[derive(Clone, Copy, Debug, PartialEq, Eq)]
pub struct SheetAnswer {
    pub refusal: u32,
    pub counts: [u32; 3],
    pub starts: [u64; 3],
}

#[repr(C)]
#[derive(Clone, Copy, Debug, PartialEq, Eq)]
pub struct SheetLengthAnswer {
    pub refusal: u32,
    pub length: u64,
}

#[repr(C)]
#[derive(Clone, Copy, Debug, PartialEq, Eq)]
pub struct PageAnswer {
    pub refusal: u32,
    pub length: u64,
}

/// num, and the place of the image in its file.
#[repr(C)]
#[derive(Clone, Copy, Debug, PartialEq, Eq)]
pub struct BundleOpenAnswer {
    pub refusal: u32,
    pub num: u32,
    pub start: u64,
    pub size: u64,
}

#[repr(C)]
#[derive(Clone, Copy, Debug, PartialEq, Eq)]
pub struct BundleAppendAnswer {
    pub refusal: u32,
    pub length: u64,
}

#[repr(C)]
#[derive(Clone, Copy, Debug, PartialEq, Eq)]
pub struct BundleCountAnswer {
    pub refusal: u32,
    pub images: u64,
}

#[repr(C)]
#[derive(Clone, Copy, Debug, PartialEq, Eq)]
pub struct LoadAnswer {
    pub refusal: u32,
    pub accepted: u32,
}

/// A date of the Gregorian calendar.
#[repr(C)]
#[derive(Clone, Copy, Debug, PartialEq, Eq, Hash)]
pub struct Date {
    /// 1900 to 2199; 2200 only for 1 January as the end date of a window.
    pub year: u16,
    /// 1 to 12.
    pub month: u8,
    /// From 1 on, to the month's length.
    pub day: u8,
}

/// A time in which the prism of an id stands.
#[repr(C)]
#[derive(Clone, Copy, Debug, PartialEq, Eq, Hash)]
pub struct Window {
    /// The id of the prism.
    pub id: u32,
    /// The first date on which it stands.
    pub first: Date,
    /// The date from which on it stands no longer.
    pub end: Date,
}

#[repr(C)]
#[derive(Clone, Copy, Debug, PartialEq, Eq)]
pub struct OnAnswer {
    pub refusal: u32,
    pub found: u32,
    pub len: u32,
    pub start: u64,
}

/// An id that two images name differently, with the places of both names; all 0 where there is none.
#[repr(C)]
#[derive(Clone, Copy, Debug, PartialEq, Eq)]
pub struct ChangeAnswer {
    pub found: u32,
    pub id: u32,
    pub before: StrAnswer,
    pub after: StrAnswer,
}

#[repr(C)]
#[derive(Clone, Copy, Debug, PartialEq, Eq)]
pub struct MovedAnswer {
    pub found: u32,
    pub id: u32,
}

/// The buckets read over the different names of a round.
#[repr(C)]
#[derive(Clone, Copy, Debug, PartialEq, Eq)]
pub struct RoundAnswer {
    pub refusal: u32,
    pub buckets: u64,
}

#[repr(C)]
#[derive(Clone, Copy, Debug, PartialEq, Eq)]
pub struct AverageAnswer {
    pub refusal: u32,
    pub entries: u32,
    pub quotient: u64,
    pub remainder: u64,
}

/// ok is 1 where names and ids are one to one; otherwise the offset of the first entry that fails, and its kind: 1 another id, 2
/// another name.
#[repr(C)]
#[derive(Clone, Copy, Debug, PartialEq, Eq)]
pub struct OneToOneAnswer {
    pub refusal: u32,
    pub ok: u32,
    pub kind: u32,
    pub offset: u32,
}

/// The first question that fails, 0 for yes, with the places and the id that show it; or how much a yes is about. All else is 0.
#[repr(C)]
#[derive(Clone, Copy, Debug, PartialEq, Eq)]
pub struct PreflightAnswer {
    pub question: u32,
    pub refusal: u32,
    pub id: u32,
    pub place: u64,
    pub other: u64,
    pub compared: u64,
    pub added: u64,
    pub unsighted: u64,
}

/// Question 0 for yes, or 11 with the place in the round of the first id without a window; or the refusal.
#[repr(C)]
#[derive(Clone, Copy, Debug, PartialEq, Eq)]
pub struct PreflightDatesAnswer {
    pub question: u32,
    pub refusal: u32,
    pub place: u64,
}

/// size is the image's, and accepted the number of accepted puts.
#[repr(C)]
#[derive(Clone, Copy, Debug, PartialEq, Eq)]
pub struct BuildAnswer {
    pub refusal: u32,
    pub size: u32,
    pub accepted: u32,
}

/// How many bytes and words a list needs.
#[repr(C)]
#[derive(Clone, Copy, Debug, PartialEq, Eq)]
pub struct BuildNeeds {
    pub bytes: u64,
    pub words: u64,
}

/// The packed names of a list, with the place where each ends, and their ids.
#[derive(Clone, Copy, Debug)]
pub struct Packed<'a> {
    pub names: &'a [u8],
    pub ends: &'a [u64],
    pub ids: &'a [u32],
}

/// The table counts of a writer.
pub type Counts = [u32; 256];

extern "C" {
    fn cqdb_version_number() -> u32;
    fn cqdb_hash(name: *const u8, len: usize, start: u32) -> HashAnswer;
    fn cqdb_open(image: *const u8, len: usize) -> OpenAnswer;
    fn cqdb_to_id(image: *const u8, len: usize, name: *const u8, name_len: usize) -> IdAnswer;
    fn cqdb_to_str(image: *const u8, len: usize, id: u32) -> StrAnswer;
    fn cqdb_panel(image: *const u8, len: usize, id: u32) -> StrAnswer;
    fn cqdb_readings_agree(image: *const u8, len: usize) -> u32;
    fn cqdb_size_hint(image: *const u8, len: usize, next: u32) -> u32;
    fn cqdb_home(image: *const u8, len: usize, id: u32) -> u32;
    fn cqdb_canonical(image: *const u8, len: usize) -> u32;
    fn cqdb_entry(image: *const u8, len: usize, offset: u32) -> EntryAnswer;
    fn cqdb_table(image: *const u8, len: usize, hash: u32) -> TableAnswer;
    fn cqdb_one_to_one(image: *const u8, len: usize) -> OneToOneAnswer;
    fn cqdb_page_length(image: *const u8, len: usize) -> u64;
    fn cqdb_page(image: *const u8, len: usize, out: *mut u8, out_len: usize) -> PageAnswer;
    fn cqdb_page_part(image: *const u8, len: usize, first: u32, count: u32, out: *mut u8, out_len: usize)
        -> PageAnswer;
    fn cqdb_round_words(
        image: *const u8,
        len: usize,
        names: *const u8,
        names_len: usize,
        ends: *const u64,
        n: usize,
        answers: *mut u32,
        words: usize,
    ) -> RoundAnswer;
    fn cqdb_name_round_words(
        image: *const u8,
        len: usize,
        ids: *const u32,
        n: usize,
        answers: *mut u32,
        words: usize,
    ) -> u32;
    fn cqdb_begin_parts(
        mode: u32,
        repeats: u32,
        numbers: *mut u32,
        sizes: *mut u64,
        counts: *mut u32,
        buf: *const u8,
        len: usize,
    ) -> u32;
    fn cqdb_put_parts(
        numbers: *mut u32,
        sizes: *mut u64,
        counts: *mut u32,
        buf: *mut u8,
        len: usize,
        name: *const u8,
        name_len: usize,
        id: u32,
    ) -> u32;
    fn cqdb_close_parts(
        numbers: *const u32,
        sizes: *const u64,
        counts: *const u32,
        buf: *mut u8,
        len: usize,
    ) -> CloseAnswer;
    fn cqdb_grown_parts(numbers: *const u32, sizes: *mut u64, len: u64) -> u32;
    fn cqdb_size_with_parts(numbers: *const u32, sizes: *const u64, name_len: usize, id: u32) -> u64;
    fn cqdb_index_words(names: usize) -> usize;
    fn cqdb_index_parts(
        numbers: *const u32,
        sizes: *const u64,
        counts: *const u32,
        buf: *const u8,
        len: usize,
        slots: *mut u32,
        n: usize,
    ) -> u32;
    fn cqdb_put_indexed_parts(
        numbers: *mut u32,
        sizes: *mut u64,
        counts: *mut u32,
        buf: *mut u8,
        len: usize,
        slots: *mut u32,
        n: usize,
        name: *const u8,
        name_len: usize,
        id: u32,
    ) -> u32;
    fn cqdb_references_first(pairs: *const Pair, n: usize, round: *const u32, m: usize) -> OrderAnswer;
    fn cqdb_sheet_read(file: *const u8, len: usize) -> SheetAnswer;
    fn cqdb_sheet_write(
        buf: *mut u8,
        len: usize,
        references: *const u32,
        n: usize,
        walls: *const u32,
        m: usize,
        retired: *const u32,
        k: usize,
    ) -> SheetLengthAnswer;
    fn cqdb_bundle_open(file: *const u8, len: usize, position: u64) -> BundleOpenAnswer;
    fn cqdb_bundle_append(
        buf: *mut u8,
        len: usize,
        file_len: u64,
        image: *const u8,
        image_len: usize,
    ) -> BundleAppendAnswer;
    fn cqdb_bundle_count(file: *const u8, len: usize) -> BundleCountAnswer;
    fn cqdb_load(seed: u32, buf: *mut u8, len: usize) -> LoadAnswer;
    fn cqdb_average(image: *const u8, len: usize) -> AverageAnswer;
    fn cqdb_lengths(image: *const u8, len: usize, counts: *mut u32) -> u32;
    fn cqdb_name_on(image: *const u8, len: usize, id: u32, date: Date, windows: *const Window, n: usize) -> OnAnswer;
    fn cqdb_next_change(old: *const u8, old_len: usize, new: *const u8, new_len: usize, from: u64) -> ChangeAnswer;
    fn cqdb_moved(old: *const u8, old_len: usize, new: *const u8, new_len: usize, id: u32) -> MovedAnswer;
    fn cqdb_preflight_parts(
        old: *const u8,
        old_len: usize,
        new: *const u8,
        new_len: usize,
        sheet: *const u8,
        sheet_len: usize,
        round: *const u32,
        round_len: usize,
        accepted: *const u32,
        accepted_len: usize,
    ) -> PreflightAnswer;
    fn cqdb_preflight_first_parts(
        new: *const u8,
        new_len: usize,
        sheet: *const u8,
        sheet_len: usize,
        round: *const u32,
        round_len: usize,
    ) -> PreflightAnswer;
    fn cqdb_preflight_dates_words(
        windows: *const u32,
        words: usize,
        round: *const u32,
        round_len: usize,
        last: Date,
        date: Date,
    ) -> PreflightDatesAnswer;
    fn cqdb_build_parts(
        mode: u32,
        repeats: u32,
        buf: *mut u8,
        len: usize,
        names: *const u8,
        names_len: usize,
        ends: *const u64,
        n: usize,
        ids: *const u32,
        ids_len: usize,
        refusals: *mut u32,
        places: usize,
        scratch: *mut u32,
        words: usize,
    ) -> BuildAnswer;
    fn cqdb_build_needs(mode: u32, names_len: usize, ids: *const u32, n: usize) -> BuildNeeds;
}

/// The version of the archive as one number.
pub fn version_number() -> u32 {
    // SAFETY: the call is lent nothing.
    unsafe { cqdb_version_number() }
}

/// The hash of a name with a start value, or the refusal.
#[inline]
pub fn hash(name: &[u8], start: u32) -> HashAnswer {
    // SAFETY: the name is lent with its length, and is only read.
    unsafe { cqdb_hash(name.as_ptr(), name.len(), start) }
}

/// num, or the refusal.
pub fn open(image: &[u8]) -> OpenAnswer {
    // SAFETY: the image is lent with its length, and is only read.
    unsafe { cqdb_open(image.as_ptr(), image.len()) }
}

/// The id of a name and the offset of its entry, or nothing; and the number of buckets read.
#[inline]
pub fn to_id(image: &[u8], name: &[u8]) -> IdAnswer {
    // SAFETY: image and name are each lent with their length, and are only read, so they may overlap.
    unsafe { cqdb_to_id(image.as_ptr(), image.len(), name.as_ptr(), name.len()) }
}

/// The place of an id's name, or nothing.
#[inline]
pub fn to_str(image: &[u8], id: u32) -> StrAnswer {
    // SAFETY: the image is lent with its length, and is only read; any id is taken.
    unsafe { cqdb_to_str(image.as_ptr(), image.len(), id) }
}

/// The place of an id's name up to its first zero byte, or nothing.
#[inline]
pub fn panel(image: &[u8], id: u32) -> StrAnswer {
    // SAFETY: the image is lent with its length, and is only read; any id is taken.
    unsafe { cqdb_panel(image.as_ptr(), image.len(), id) }
}

/// 1 where the panel's reading is the whole name for every id below the back size, else 0.
pub fn readings_agree(image: &[u8]) -> u32 {
    // SAFETY: the image is lent with its length, and is only read.
    unsafe { cqdb_readings_agree(image.as_ptr(), image.len()) }
}

/// The upper hint of a walk that stands before the id `next`.
pub fn size_hint(image: &[u8], next: u32) -> u32 {
    // SAFETY: the image is lent with its length, and is only read; any id is taken.
    unsafe { cqdb_size_hint(image.as_ptr(), image.len(), next) }
}

/// 1 where the id is home, else 0.
pub fn home(image: &[u8], id: u32) -> u32 {
    // SAFETY: the image is lent with its length, and is only read; any id is taken.
    unsafe { cqdb_home(image.as_ptr(), image.len(), id) }
}

/// The id of the entry at an offset and the place of its name, or nothing.
#[inline]
pub fn entry(image: &[u8], offset: u32) -> EntryAnswer {
    // SAFETY: the image is lent with its length, and only read.
    unsafe { cqdb_entry(image.as_ptr(), image.len(), offset) }
}

/// Where the buckets of a hash's table stand, or nothing.
pub fn table(image: &[u8], hash: u32) -> TableAnswer {
    // SAFETY: the image is lent with its length, and only read.
    unsafe { cqdb_table(image.as_ptr(), image.len(), hash) }
}

/// 1 when the bytes are the image that some list of puts closes to, with no byte after it, else 0.
pub fn canonical(image: &[u8]) -> u32 {
    // SAFETY: the image is lent with its length, and is only read.
    unsafe { cqdb_canonical(image.as_ptr(), image.len()) }
}

/// Whether names and ids are one to one, or the first entry that fails; or the refusal.
pub fn one_to_one(image: &[u8]) -> OneToOneAnswer {
    // SAFETY: the image is lent with its length, and is only read.
    unsafe { cqdb_one_to_one(image.as_ptr(), image.len()) }
}

/// The length of the printed catalogue.
pub fn page_length(image: &[u8]) -> u64 {
    // SAFETY: the image is lent with its length, and is only read.
    unsafe { cqdb_page_length(image.as_ptr(), image.len()) }
}

/// The printed catalogue in the first bytes of `out`, and its length; or the refusal.
pub fn page(image: &[u8], out: &mut [u8]) -> PageAnswer {
    // SAFETY: image and output are lent with their lengths; the output is written, and a `&mut` overlaps no image.
    unsafe { cqdb_page(image.as_ptr(), image.len(), out.as_mut_ptr(), out.len()) }
}

/// The lines of `count` ids from `first` on, of those below the back size, in the first bytes of `out`, and their length; or
/// the refusal.
pub fn page_part(image: &[u8], first: u32, count: u32, out: &mut [u8]) -> PageAnswer {
    // SAFETY: image and output are lent with their lengths; the output is written, and a `&mut` overlaps no image. Any ids are taken.
    unsafe { cqdb_page_part(image.as_ptr(), image.len(), first, count, out.as_mut_ptr(), out.len()) }
}

/// The ids of the names that are packed with these ends, an answer in the place of each; and the buckets read over the different
/// names, or the refusal.
pub fn round(image: &[u8], names: &[u8], ends: &[u64], answers: &mut [IdAnswer]) -> RoundAnswer {
    let (image, len, names, names_len) = (image.as_ptr(), image.len(), names.as_ptr(), names.len());
    // An answer is four words of 32 bits, one after the other.
    let (words, count) = (answers.as_mut_ptr().cast(), 4 * answers.len());
    // SAFETY: image, names and ends are lent with their lengths and only read; the answers, four words each, are a `&mut` and overlap none of them.
    unsafe { cqdb_round_words(image, len, names, names_len, ends.as_ptr(), ends.len(), words, count) }
}

/// The places of the ids' names, an answer in the place of each; 0, or the refusal.
#[inline]
pub fn name_round(image: &[u8], ids: &[u32], answers: &mut [StrAnswer]) -> u32 {
    // An answer is four words of 32 bits: found, the length, and the start, low word first.
    let (words, count) = (answers.as_mut_ptr().cast(), 4 * answers.len());
    // SAFETY: image and ids are lent with their lengths and only read; the answers, four words each, are a `&mut` and overlap neither.
    unsafe { cqdb_name_round_words(image.as_ptr(), image.len(), ids.as_ptr(), ids.len(), words, count) }
}

/// A fresh record; or the refusal, with a record of zeros.
pub fn begin(mode: u32, repeats: u32, counts: &mut Counts, buf: &[u8]) -> RecordAnswer {
    let mut record = Record { mode: 0, repeats: 0, entries: 0, back: 0, length: 0, end: 0 };
    let refusal = begin_in(mode, repeats, &mut record, counts, buf);
    RecordAnswer { refusal, record }
}

/// Makes a record and its counts fresh; or the refusal, and both stay as they were.
pub fn begin_in(mode: u32, repeats: u32, record: &mut Record, counts: &mut Counts, buf: &[u8]) -> u32 {
    let (numbers, sizes) = in_place(record);
    // SAFETY: the record and the counts, 256 words, are `&mut`, so they overlap nothing; the buffer is lent for its length and is not touched.
    unsafe { cqdb_begin_parts(mode, repeats, numbers, sizes, counts.as_mut_ptr(), buf.as_ptr(), buf.len()) }
}

/// A record as the archive takes it in place: four words, mode to back, and two of 64 bits, length and end.
fn in_place(record: &mut Record) -> (*mut u32, *mut u64) {
    let record: *mut Record = record;
    // SAFETY: the pointer is that of a record, and a place of it is taken, not read.
    (record.cast(), unsafe { std::ptr::addr_of_mut!((*record).length) })
}

/// The same of a record that is only read.
fn read_in_place(record: &Record) -> (*const u32, *const u64) {
    let record: *const Record = record;
    // SAFETY: the pointer is that of a record, and a place of it is taken, not read.
    (record.cast(), unsafe { std::ptr::addr_of!((*record).length) })
}

/// One put; 0, or the refusal. The record is changed in place. The writers put by an index, or without slots; the comparisons and the
/// benchmarks put by this, too.
#[allow(dead_code)]
#[inline]
pub fn put_in(record: &mut Record, counts: &mut Counts, buf: &mut [u8], name: &[u8], id: u32) -> u32 {
    let (numbers, sizes) = in_place(record);
    let (buf, len) = (buf.as_mut_ptr(), buf.len());
    // SAFETY: the record is lent in place, the counts are 256 words and the buffer is lent with its length; all are `&mut`, so they overlap
    // neither each other nor the name.
    unsafe { cqdb_put_parts(numbers, sizes, counts.as_mut_ptr(), buf, len, name.as_ptr(), name.len(), id) }
}

/// One close.
pub fn close(record: Record, counts: &Counts, buf: &mut [u8]) -> CloseAnswer {
    let (numbers, sizes) = read_in_place(&record);
    // SAFETY: the record is lent in place and the counts are 256 words, which are read; the buffer is lent with its length, and as a `&mut`
    // does not overlap them.
    unsafe { cqdb_close_parts(numbers, sizes, counts.as_ptr(), buf.as_mut_ptr(), buf.len()) }
}

/// Takes the new length of a buffer that has grown; 0, or the refusal. The record is changed in place.
pub fn grown_in(record: &mut Record, len: u64) -> u32 {
    let (numbers, sizes) = in_place(record);
    // SAFETY: the record is lent in place, as a `&mut`.
    unsafe { cqdb_grown_parts(numbers, sizes, len) }
}

/// The record of a buffer that has grown to this length, or the refusal.
pub fn grown(mut record: Record, len: u64) -> RecordAnswer {
    let refusal = grown_in(&mut record, len);
    RecordAnswer { refusal, record }
}

/// The finished size after a put of an id and a name of this length.
pub fn size_with(record: &Record, name_len: usize, id: u32) -> u64 {
    let (numbers, sizes) = read_in_place(record);
    // SAFETY: the record is lent in place, and only read.
    unsafe { cqdb_size_with_parts(numbers, sizes, name_len, id) }
}

/// How many words to lend for an index of this many names.
pub fn index_words(names: usize) -> usize {
    // SAFETY: the call is lent nothing.
    unsafe { cqdb_index_words(names) }
}

/// Makes the slots the index of the entries in the buffer; 0, or the refusal.
pub fn index(record: Record, counts: &Counts, buf: &[u8], slots: &mut [u32]) -> u32 {
    let (numbers, sizes) = read_in_place(&record);
    let (buf, len) = (buf.as_ptr(), buf.len());
    // SAFETY: record, counts, 256 words, and buffer are only read; the slots are lent with their number of words, and as a `&mut` overlap none.
    unsafe { cqdb_index_parts(numbers, sizes, counts.as_ptr(), buf, len, slots.as_mut_ptr(), slots.len()) }
}

/// One put by an index; 0, or the refusal. The record is changed in place.
#[inline]
pub fn put_indexed(
    record: &mut Record,
    counts: &mut Counts,
    buf: &mut [u8],
    slots: &mut [u32],
    name: &[u8],
    id: u32,
) -> u32 {
    let (buf, len, slots, n) = (buf.as_mut_ptr(), buf.len(), slots.as_mut_ptr(), slots.len());
    let (numbers, sizes) = in_place(record);
    let (counts, name, name_len) = (counts.as_mut_ptr(), name.as_ptr(), name.len());
    // SAFETY: the record is lent in place, the counts are 256 words; buffer, slots and name are lent with their lengths. All but the name are
    // `&mut`, so nothing that is written overlaps.
    unsafe { cqdb_put_indexed_parts(numbers, sizes, counts, buf, len, slots, n, name, name_len, id) }
}

/// Whether every pair is kept in a round, or the place of the first that is not.
pub fn references_first(pairs: &[Pair], round: &[u32]) -> OrderAnswer {
    // SAFETY: pairs and round are lent with their numbers of elements, and are only read; Pair is laid out as cqdb_pair.
    unsafe { cqdb_references_first(pairs.as_ptr(), pairs.len(), round.as_ptr(), round.len()) }
}

/// Where the ids of a round sheet's three sections stand in the file, or the refusal.
pub fn sheet_read(file: &[u8]) -> SheetAnswer {
    // SAFETY: the file is lent with its length, and is only read.
    unsafe { cqdb_sheet_read(file.as_ptr(), file.len()) }
}

/// The round sheet of three lists, references, wall prisms and retired prisms, in the first bytes of `buf`, and its length;
/// or the refusal.
pub fn sheet_write(buf: &mut [u8], lists: [&[u32]; 3]) -> SheetLengthAnswer {
    let [a, b, c] = lists;
    let (buf, len) = (buf.as_mut_ptr(), buf.len());
    // SAFETY: the three lists are lent with their numbers of ids and only read; the buffer is a `&mut` and overlaps none of them.
    unsafe { cqdb_sheet_write(buf, len, a.as_ptr(), a.len(), b.as_ptr(), b.len(), c.as_ptr(), c.len()) }
}

/// The image at a position of a bundle, or the refusal.
pub fn bundle_open(file: &[u8], position: u64) -> BundleOpenAnswer {
    // SAFETY: the file is lent with its length, and is only read; any position is taken.
    unsafe { cqdb_bundle_open(file.as_ptr(), file.len(), position) }
}

/// Appends an image to the file that is the buffer's first `file_len` bytes.
pub fn bundle_append(buf: &mut [u8], file_len: u64, image: &[u8]) -> BundleAppendAnswer {
    let (buf, len) = (buf.as_mut_ptr(), buf.len());
    // SAFETY: the buffer is lent with its length and is a `&mut`, so it does not overlap the image; any file length is taken.
    unsafe { cqdb_bundle_append(buf, len, file_len, image.as_ptr(), image.len()) }
}

/// The number of images in a bundle, or the refusal.
pub fn bundle_count(file: &[u8]) -> BundleCountAnswer {
    // SAFETY: the file is lent with its length, and is only read.
    unsafe { cqdb_bundle_count(file.as_ptr(), file.len()) }
}

/// The load of a seed in the first bytes of `buf`, and the number of its entries; or the refusal.
pub fn load(seed: u32, buf: &mut [u8]) -> LoadAnswer {
    // SAFETY: the buffer is lent with its length, and is the only thing that is lent.
    unsafe { cqdb_load(seed, buf.as_mut_ptr(), buf.len()) }
}

/// The place of an id's name on a date, or nothing, or the refusal.
pub fn name_on(image: &[u8], id: u32, date: Date, windows: &[Window]) -> OnAnswer {
    // SAFETY: image and windows are lent with their lengths and only read; Date and Window are laid out as cqdb_date and cqdb_window.
    unsafe { cqdb_name_on(image.as_ptr(), image.len(), id, date, windows.as_ptr(), windows.len()) }
}

/// The first id from `from` on that two images name differently, or none.
pub fn next_change(old: &[u8], new: &[u8], from: u64) -> ChangeAnswer {
    // SAFETY: the images are each lent with their length, and are only read, so they may overlap; any start is taken.
    unsafe { cqdb_next_change(old.as_ptr(), old.len(), new.as_ptr(), new.len(), from) }
}

/// The other id, if any, that the new image has for the id's old name.
pub fn moved(old: &[u8], new: &[u8], id: u32) -> MovedAnswer {
    // SAFETY: the images are each lent with their length, and are only read, so they may overlap; any id is taken.
    unsafe { cqdb_moved(old.as_ptr(), old.len(), new.as_ptr(), new.len(), id) }
}

/// May a report leave, whose ids `new` names, after one whose ids `old` named? Yes with its counts, or the first question that fails.
pub fn preflight(old: &[u8], new: &[u8], sheet: &[u8], round: &[u32], accepted: &[u32]) -> PreflightAnswer {
    let (old, old_len, new, new_len) = (old.as_ptr(), old.len(), new.as_ptr(), new.len());
    let (sheet, sheet_len, ids, n) = (sheet.as_ptr(), sheet.len(), round.as_ptr(), round.len());
    // SAFETY: images, sheet, round and accepted ids are each lent with their length, and are only read, so they may overlap.
    unsafe {
        cqdb_preflight_parts(old, old_len, new, new_len, sheet, sheet_len, ids, n, accepted.as_ptr(), accepted.len())
    }
}

/// May a first report leave, whose ids `new` names?
pub fn preflight_first(new: &[u8], sheet: &[u8], round: &[u32]) -> PreflightAnswer {
    let (new, new_len, sheet, sheet_len) = (new.as_ptr(), new.len(), sheet.as_ptr(), sheet.len());
    // SAFETY: image, sheet and round are each lent with their length, and are only read, so they may overlap.
    unsafe { cqdb_preflight_first_parts(new, new_len, sheet, sheet_len, round.as_ptr(), round.len()) }
}

/// Has every id of the round a window that holds both dates? Or the refusal.
pub fn preflight_dates(windows: &[Window], round: &[u32], last: Date, date: Date) -> PreflightDatesAnswer {
    // A window is three words of 32 bits: the id, the first date and the end date, each date's year in its low half.
    let (words, count) = (windows.as_ptr().cast(), 3 * windows.len());
    // SAFETY: windows, three words each, and round are lent with their lengths and only read; Date is laid out as cqdb_date.
    unsafe { cqdb_preflight_dates_words(words, count, round.as_ptr(), round.len(), last, date) }
}

/// Entries, quotient and remainder of the average search length, or the refusal.
pub fn average(image: &[u8]) -> AverageAnswer {
    // SAFETY: the image is lent with its length, and is only read.
    unsafe { cqdb_average(image.as_ptr(), image.len()) }
}

/// How many entries have each search length, into the counts; the refusal, 0 for none.
pub fn lengths(image: &[u8], counts: &mut [u32; 16]) -> u32 {
    // SAFETY: the image is lent with its length; the counts are 16 words, and as a `&mut` do not overlap it.
    unsafe { cqdb_lengths(image.as_ptr(), image.len(), counts.as_mut_ptr()) }
}

/// The image of a whole list, and the number of each put's refusal; or the refusal of the list. `scratch` is lent for speed.
pub fn build(
    mode: u32,
    repeats: u32,
    buf: &mut [u8],
    list: Packed<'_>,
    refusals: &mut [u32],
    scratch: &mut [u32],
) -> BuildAnswer {
    let Packed { names, ends, ids } = list;
    // SAFETY: names, ends and ids are lent with their lengths and only read; buffer, refusals and scratch are `&mut`, so they overlap nothing.
    unsafe {
        cqdb_build_parts(
            mode,
            repeats,
            buf.as_mut_ptr(),
            buf.len(),
            names.as_ptr(),
            names.len(),
            ends.as_ptr(),
            ends.len(),
            ids.as_ptr(),
            ids.len(),
            refusals.as_mut_ptr(),
            refusals.len(),
            scratch.as_mut_ptr(),
            scratch.len(),
        )
    }
}

/// How many bytes have room for the image of a list whose names have `names_len` bytes together, and how many words are worth
/// lending to [`build`].
pub fn build_needs(mode: u32, names_len: usize, ids: &[u32]) -> BuildNeeds {
    // SAFETY: the ids are lent with their number, and are only read.
    unsafe { cqdb_build_needs(mode, names_len, ids.as_ptr(), ids.len()) }
}
