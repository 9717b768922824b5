/* The C interface of Lithwennog: constant quark database (CQDB) images, proved in Rattle.
   Link with target/staticlib/libcqdb_c.a, which `./make-archive` makes (x86-64 Linux); once it is installed (`./install
   PREFIX`), with what `pkg-config --cflags --libs cqdb` prints. docs/FORMAT.md describes images.

   What every call promises: it ends for all bytes and numbers, answers as said below, and reads and writes only what it
   is lent. No function keeps a pointer after it has returned, allocates memory, or touches anything global. Calls on
   different buffers may run at the same time.

   What the caller owes:
   - Bytes and lists are lent as a pointer and a length. The pointer is valid for that many bytes or elements. Where the
     length is 0 it may be NULL, which is taken as no bytes.
   - `counts` points to 256 words, those of cqdb_lengths to 16, `numbers` to 4 words, `sizes` to 2 of 64 bits, and `w` to a whole
     cqdb_writer.
   - What a call writes (the buffer of cqdb_put, cqdb_put_indexed, cqdb_close, cqdb_sheet_write, cqdb_bundle_append, cqdb_load
     and cqdb_build, the counts, the writer, the slots of cqdb_index and cqdb_put_indexed, the output of cqdb_page and
     cqdb_page_part, the answers of cqdb_round and cqdb_name_round, the refusals and the scratch memory of cqdb_build) overlaps
     nothing else that the same call is lent: no name, no list, no buffer, no counts and no image. What a call only reads may
     overlap.
   - Nobody else writes to what is lent while the call runs. That goes for the bytes of a mapped file (mmap) too; see Files.

   Threads: any number of them may read one image at the same time, by all calls that take it as const. A buffer that is being
   written belongs to one thread.

   Files: an image may be a mapped file. One that is replaced, by a rename of a new file, stays mapped as it was. One that is
   written in place while a call runs breaks what the caller owes: the call may give answers of neither image, or read outside.
   One that is cut short reads as zeros up to the end of the page in which it now ends, so that a call may accept it and find
   nothing; behind that page the process ends by the signal SIGBUS. So write a new file beside the old one and rename it;
   examples/c/build_list.c does, and examples/c/ask_file.c maps one.

   What the calls cost. The times are those of one run of `bench/run costs` on an AMD EPYC, of the code as the kit
   rattle-kit-5b-plain built it, in ns, with names of 9 bytes, for 4,096 and for 100,000 entries; rows that were measured once
   have the first number alone. Calls on images that exceed the processor's caches take longer (docs/BENCHMARKS.md has 1,000,000 entries). A put with repeats off takes a put's time and that
   of each earlier entry, so cqdb_put_indexed or cqdb_build is for long lists. In a forged image many buckets or ids may lead to
   one long name: there cqdb_to_id, cqdb_round, cqdb_home, cqdb_moved, cqdb_readings_agree and cqdb_next_change may take time that
   grows with the square of its bytes; in an image that cqdb_canonical accepts they are linear in them. The stack is rounded up, in
   KB of 1,024 bytes; calls without a number take less than 1 KB.

     call                            time for each                            4,096   100,000   stack
     average                         entry                                       22        40       2
     begin                           call                                        14
     build, a name refused, 5 words  name                                        29        43      42
     build, a name refused, no words name and earlier name                      4.6                42
     build, no name refused          name                                        11        15      39
     build_needs                     id                                         0.2       0.2
     bundle_append                   image in the file                          2.1
     bundle_append                   image of 157,720 bytes, its copy         2,684
     bundle_count                    image                                      2.0
     bundle_open                     image up to the one that is opened         2.4
     canonical                       entry                                       10        19       2
     close                           entry                                       16        16      39
     entry                           call                                       2.0       2.3
     grown                           call                                       1.6
     hash                            name of 9 bytes                            3.5
     hash                            name of 1,024 bytes                        300
     home                            call                                        12        30
     index                           entry                                      9.9        17       2
     index_words                     call                                       1.3
     lengths                         entry                                       22        40       2
     load                            load of 4,096 entries                  125,467                39
     moved                           call                                        15        34
     name_on                         call with one window                        10
     name_on                         window of a thousand                       3.2
     name_round                      id                                         1.4       2.7
     next_change                     id up to the change                        2.9       2.9
     one_to_one                      entry                                       25        43       2
     open                            call                                        88        88
     page                            line                                       6.9       7.8
     page_length                     call                                       1.4       1.4
     page_part                       line                                       6.9       7.8
     panel                           call                                       5.4       9.3
     preflight                       report of 512 ids                      941,048 4,949,546       2
     preflight_dates                 window and id of the round, at most        0.3
     preflight_first                 report of 512 ids                      883,423 2,707,544       2
     put, repeats off                earlier entry                              4.1       4.1       2
     put, repeats on                 call                                        19        19
     put_indexed                     call                                        20        24
     readings_agree                  id below the back size                     3.1       3.1
     references_first                pair and id of the round, at most          0.5
     round                           name that is found                          14        17      14
     round                           name that is absent                         14        17
     sheet_read                      call                                       2.7
     sheet_write                     id                                         0.5
     size_hint                       call                                       1.6       1.6
     size_with                       call                                       1.9
     table                           call                                       1.6       1.6
     to_id                           name that is found                          10        21
     to_id                           name that is absent                        9.1        17
     to_str                          call                                       1.6       3.3
     version_number                  call                                       1.3

   When an image can be read: from the cqdb_close that made it to the next accepted cqdb_put or cqdb_put_indexed in the same
   buffer, or from a copy. That put writes where the close had placed the tables, so until the next close the buffer is no image,
   though cqdb_open may still accept it: names and ids may then give nothing, or each other's answers. See cqdb_put.

   What is proved is the archive. The declarations, structs and inline functions of this file are tested. The inline functions
   only pass arguments on (rounds: four words for each place; build: one number for both lists; the calls of a writer: its numbers
   in place; preflight: the fields of a report, three words for each window) or take a C string's length; and cqdb_refusal_text
   gives a number's text. */
#ifndef CQDB_H
#define CQDB_H

#if !defined(__x86_64__) || defined(__ILP32__)
#error "cqdb: the proved archive is for x86-64 Linux alone, with pointers of 64 bits"
#endif

#include <stddef.h>
#include <stdint.h>
#include <string.h>

/* The version of this header and of the archive that comes with it. cqdb_version_number gives that of the archive or the
   shared library that the program runs with. */
#define CQDB_VERSION "0.4.0"

#ifdef __cplusplus
extern "C" {
#endif

/* Begin takes a buffer for its length alone, so bytes that were never written, as those of malloc, are no reason for a
   compiler's warning. */
#if defined(__GNUC__) && !defined(__clang__) && __GNUC__ >= 11
#define CQDB_LENGTH_ALONE(parameter) __attribute__((access(none, parameter)))
#define CQDB_INLINED __attribute__((always_inline))
#else
#define CQDB_LENGTH_ALONE(parameter)
#define CQDB_INLINED
#endif

/* The refusals: the same numbers in all calls, 0 for none. Each comment names the calls that give it. A refused call
   changes no byte of what it is lent, the writer included. docs/FORMAT.md has the same table. */
#define CQDB_TOO_SHORT 1u        /* begin, open, load, build: under 2,072 bytes */
#define CQDB_UNFIT 2u            /* begin, put, close, grown, build, put_indexed, index: the writer does not fit the buffer, or mode or
                                    repeats is neither 0 nor 1; put_indexed looks at length, end and one count */
#define CQDB_NO_ROOM 3u          /* put, bundle_append, put_indexed: image or bundle would exceed the buffer; puts: or 4,294,967,295
                                    bytes */
#define CQDB_INCONSISTENT 4u     /* put, close, index: the buffer's entries are not the writer's (put asks with repeats off only);
                                    close and index: or the image that close would write is too large */
#define CQDB_WRONG_LETTERS 5u    /* open, bundle_open: the image does not begin with the letters CQDB */
#define CQDB_WRONG_BYTE_ORDER 6u /* open, bundle_open: the word at 12, which shows the byte order, is wrong */
#define CQDB_TABLE_LEAVES 7u     /* open, bundle_open: a table with an offset above 0 leaves the image */
#define CQDB_BACK_LEAVES 8u      /* open, bundle_open: a back array with an offset above 0 leaves the image */
#define CQDB_NAME_TOO_LONG 9u    /* hash: the name has 4,294,967,295 bytes or more */
#define CQDB_BROKEN_BUNDLE 10u   /* bundle_open, bundle_append, bundle_count: the images do not lie back to back, or append's new one is unfit */
#define CQDB_NO_SUCH_IMAGE 11u   /* bundle_open: the file ends at or before the position */
#define CQDB_PAGE_TOO_LONG 12u   /* page, page_part: more bytes than the output has */
#define CQDB_ZERO_BYTE 13u       /* put, put_indexed: the name has a zero byte */
#define CQDB_ROUND_UNFIT 14u     /* round, name_round, build: ends that fall or pass the names; rounds: or more than 512 names or ids */
#define CQDB_ANSWERS_TOO_FEW 15u /* round, name_round, build: fewer answer places than names or ids; build: or fewer ids */
#define CQDB_REPEATED 16u        /* put, put_indexed: repeats are off, and an earlier entry has this name */
#define CQDB_NOT_CANONICAL 17u   /* average, lengths, one_to_one: the bytes are not the image that some list of puts closes to */
#define CQDB_NO_ENTRIES 18u      /* average, lengths: the image has no entry */
#define CQDB_TOO_FEW_BYTES 19u   /* sheet_read, preflight, preflight_first: the file ends before its third section does */
#define CQDB_LEFT_OVER_BYTES 20u /* sheet_read, preflight, preflight_first: bytes follow the third section */
#define CQDB_SHEET_TOO_LARGE 21u /* sheet_write: a list has more than 65,535 ids, or the buffer is too short */
#define CQDB_NO_SUCH_DATE 22u    /* name_on, preflight_dates: a date, one asked about or a window's, does not exist or is out of bounds */
#define CQDB_NOT_BEFORE_END 23u  /* name_on, preflight_dates: a window does not start before its end */
#define CQDB_INDEX_FULL 24u      /* put_indexed, index: every slot is taken, or there are more entries than slots */

/* What a refusal's number means, in the words of the Rust crate and of the Python module. The text of 1 speaks of a file, also
   where a call was refused because its buffer is too short. */
static inline const char *cqdb_refusal_text(uint32_t refusal) {
    switch (refusal) {
    case 0: return "accepted";
    case CQDB_TOO_SHORT: return "invalid file format";
    case CQDB_UNFIT: return "the writer does not fit its buffer";
    case CQDB_NO_ROOM: return "no room: the image would be too large";
    case CQDB_INCONSISTENT: return "the buffer's entries are not those of the writer";
    case CQDB_WRONG_LETTERS: return "invalid file format, magic mismatch";
    case CQDB_WRONG_BYTE_ORDER: return "invalid file format, byte order mismatch";
    case CQDB_TABLE_LEAVES: return "invalid table data: out of bounds";
    case CQDB_BACK_LEAVES: return "invalid backward link data: out of bounds";
    case CQDB_NAME_TOO_LONG: return "the name is too long";
    case CQDB_BROKEN_BUNDLE: return "invalid bundle: no image begins where one should";
    case CQDB_NO_SUCH_IMAGE: return "the bundle has no image at this position";
    case CQDB_PAGE_TOO_LONG: return "the page is longer than the output";
    case CQDB_ZERO_BYTE: return "the name has a zero byte";
    case CQDB_ROUND_UNFIT: return "the round has too many names or ids, or ends that do not fit its names";
    case CQDB_ANSWERS_TOO_FEW: return "the answer list is shorter than the round";
    case CQDB_REPEATED: return "the writer already holds this name, and repeats are off";
    case CQDB_NOT_CANONICAL: return "the image is not canonical: no list of puts makes it";
    case CQDB_NO_ENTRIES: return "the image has no entry";
    case CQDB_TOO_FEW_BYTES: return "invalid round sheet, too few bytes";
    case CQDB_LEFT_OVER_BYTES: return "invalid round sheet, left-over bytes";
    case CQDB_SHEET_TOO_LARGE: return "no room: a list of the round sheet is too long, or its buffer too short";
    case CQDB_NO_SUCH_DATE: return "a date does not exist, or is out of bounds";
    case CQDB_NOT_BEFORE_END: return "a window does not start before its end";
    case CQDB_INDEX_FULL: return "the index has no free slot";
    default: return "no such refusal";
    }
}

/* The version as one number: major x 65536 + minor x 256 + patch. */
uint32_t cqdb_version_number(void);

/* The name hash. */

/* refusal is 0 when the call was accepted; hash is 0 when it was refused. */
typedef struct {
    uint32_t refusal;
    uint32_t hash;
} cqdb_hash_answer;

/* The hash of a name with a start value (images use 0): lookup3's hashlittle over the name and one zero byte, which the
   caller does not append. Refusal: 9. */
cqdb_hash_answer cqdb_hash(const uint8_t *name, size_t len, uint32_t start);

/* The same of a name that is a C string. */
static inline cqdb_hash_answer cqdb_hash_text(const char *name, uint32_t start) {
    return cqdb_hash((const uint8_t *)name, strlen(name), start);
}

/* Reading. Every call takes any bytes as an image, opened or not; bytes may follow the image. A buffer that is being
   written can be read between a close and the next put (see the top of this file). */

/* refusal is 0 when the image was accepted; num is 0 when it was refused. */
typedef struct {
    uint32_t refusal;
    uint32_t num;
} cqdb_open_answer;

/* The number of associations: each table's bucket number divided by 2, summed modulo 2^32. Refusals, the first that
   applies: 1, 5, 6, 7, 8. The size word and the flag word are not checked. */
cqdb_open_answer cqdb_open(const uint8_t *image, size_t len);

/* found is 1 or 0; id and offset are 0 where nothing was found. buckets is the number of buckets that the search reads, the
   one that decides included. offset is the offset in that bucket: at image + offset stands the entry with this id and name,
   as id, length of the name plus 1 and the name. It lies in the image. */
typedef struct {
    uint32_t found;
    uint32_t id;
    uint32_t buckets;
    uint32_t offset;
} cqdb_id_answer;

/* The id of a name and where its entry stands (those of its first put). Never refused: a name that is not there or is too long for
   a hash gives nothing, and so does what cannot be read. A damaged image may also give another id: see cqdb_canonical. */
cqdb_id_answer cqdb_to_id(const uint8_t *image, size_t len, const uint8_t *name, size_t name_len);

/* The same of a name that is a C string. */
static inline cqdb_id_answer cqdb_to_id_text(const uint8_t *image, size_t len, const char *name) {
    return cqdb_to_id(image, len, (const uint8_t *)name, strlen(name));
}

/* found is 1 or 0. The name is the len bytes from image + start on, which lie in the image; len and start are 0 where
   there is no name. A name has at most 4,294,967,294 bytes; start may be as large as 4,294,967,303, which takes 33 bits. */
typedef struct {
    uint32_t found;
    uint32_t len;
    uint64_t start;
} cqdb_str_answer;

/* The place of an id's name (of its last put). Never refused: an id without a name gives nothing, and so do a one-way image and
   what cannot be read. A damaged image may also give another name: see cqdb_canonical. */
cqdb_str_answer cqdb_to_str(const uint8_t *image, size_t len, uint32_t id);

/* The same place up to the name's first zero byte, as a C string is read; all of it where the name has none. A name that
   begins with a zero byte is found with len 0. Never refused; nothing where cqdb_to_str gives nothing. */
cqdb_str_answer cqdb_panel(const uint8_t *image, size_t len, uint32_t id);

/* 1 when cqdb_panel and cqdb_to_str give the same bytes for every id below the back size, else 0. It is 1 for the image of
   every list of calls from a begin, and where no back array can be read; it may be 0 for images made elsewhere. */
uint32_t cqdb_readings_agree(const uint8_t *image, size_t len);

/* A walk calls cqdb_to_str for the ids from 0 on and ends at the first that has no name. This bounds the steps that it still
   has to take when `next` is its next id: back size minus next, at least 0; 0 where no back array can be read. */
uint32_t cqdb_size_hint(const uint8_t *image, size_t len, uint32_t next);

/* 1 when the id has a name and some entry that the search for that name meets has this name and this id, else 0. For this
   check the search goes on past an equal name until an empty bucket, a broken entry or all buckets are read. In an image of
   cqdb_close every id that has a name is home. */
uint32_t cqdb_home(const uint8_t *image, size_t len, uint32_t id);

/* Where entries and tables stand, for programs that go over all entries, named by an id or not. Never refused. */

/* found is 1 or 0. The entry's name is the len bytes from image + start on, which lie in the image. All are 0 where no entry is
   found. */
typedef struct {
    uint32_t found;
    uint32_t id;
    uint32_t len;
    uint64_t start;
} cqdb_entry_answer;

/* The entry at an offset, as cqdb_to_id, cqdb_one_to_one and the buckets of a table give it. None at the offset 0, and none where
   its first 8 bytes or its name leave the image or its length word is 0. In an image of cqdb_close the first entry stands at
   2,072, and each of the others one zero byte behind the name of the one before: at start + len + 1. */
cqdb_entry_answer cqdb_entry(const uint8_t *image, size_t len, uint32_t offset);

/* Both are 0 where a lookup of such a name reads no bucket. */
typedef struct {
    uint32_t buckets;
    uint32_t start;
} cqdb_table_answer;

/* The table in which names of this hash are sought: the one of hash modulo 256. Its buckets are the 8 x buckets bytes from
   image + start on, which lie in the image: each a hash and the offset of an entry, or 0 where the bucket is empty; two words,
   the lowest byte first. */
cqdb_table_answer cqdb_table(const uint8_t *image, size_t len, uint32_t hash);

/* 1 when these bytes are the image that some list of puts closes to, one-way or two-way, repeats allowed, names free of zero
   bytes, with no byte after it; else 0. It is 1 for the image of every list of calls from a begin: the first `size` bytes of
   the buffer after the close, lent with exactly that length. Two different lists of accepted puts in one direction never
   make the same image, so canonical images can be compared by their bytes: their puts, in put order, stand one after the
   other from 2,072 on, as many as cqdb_open's num. Lent the image alone, changes nothing, and takes time linear in len apart
   from the probing. */
uint32_t cqdb_canonical(const uint8_t *image, size_t len);

/* Names and ids one to one. Where a name was put under two ids, or two names under one id, a report may show a prism under a name
   that is not its own, though each lookup gives what its rule says. */

/* refusal is 0 when the image was accepted. ok is 1 when names and ids are one to one, else 0: then offset is that of the first
   entry, in put order, that fails, and kind is CQDB_OTHER_ID or CQDB_OTHER_NAME. kind and offset are 0 where ok is 1; where the
   call was refused, all else is 0. At image + offset stand the entry's id, the length of its name plus 1 and the name. */
typedef struct {
    uint32_t refusal;
    uint32_t ok;
    uint32_t kind;
    uint32_t offset;
} cqdb_one_to_one_answer;

#define CQDB_OTHER_ID 1u   /* cqdb_to_id of the entry's name finds another id than the entry's */
#define CQDB_OTHER_NAME 2u /* it finds the entry's id, and cqdb_to_str of that id gives another name than the entry's */

/* Are names and ids one to one? ok is 1 exactly when for every entry cqdb_to_id of its name finds its id and, in a two-way image,
   cqdb_to_str of its id gives its name; a one-way image names no ids, so there the first is enough. An image without entries is
   one to one, and an entry that was put twice, with the same name and id, does not fail. Refusal: 17 where cqdb_canonical gives
   0. Lent the image alone, and changes nothing. The call asks cqdb_canonical and then looks up each entry's name and id, up to
   the first entry that fails. */
cqdb_one_to_one_answer cqdb_one_to_one(const uint8_t *image, size_t len);

/* Search lengths, to compare lists of names. The search length of an entry is the number of buckets that are read when its name
   is looked up; each entry counts, so a repeated name counts each time. */

/* refusal is 0 when the image was accepted; entries is the number of its entries. The total of the search lengths is
   quotient x entries + remainder, and remainder is below entries. All are 0 where refused. */
typedef struct {
    uint32_t refusal;
    uint32_t entries;
    uint64_t quotient;
    uint64_t remainder;
} cqdb_average_answer;

/* The average search length of an image. Refusals, the first that applies: 17 where cqdb_canonical gives 0, 18 where the image has
   no entry. The call asks cqdb_canonical and then looks up each name. */
cqdb_average_answer cqdb_average(const uint8_t *image, size_t len);

/* How many entries have each search length: counts[0] to counts[14] for the lengths 1 to 15, and counts[15] for 16 and more.
   Their sum is the number of entries. Gives 0, or the refusals of cqdb_average; where refused, the 16 counts stay as they
   were. */
uint32_t cqdb_lengths(const uint8_t *image, size_t len, uint32_t *counts);

/* A printed catalogue, for paper. The page has a line of 45 bytes for every id below back size, in rising order:

        the id, right-aligned in 10 bytes; a space; 32 bytes of name; a plus sign where the name is longer, else a space;
        a line feed

   Bytes outside 32 to 126 are printed as full stops, and a shorter name is followed by spaces. An id without a name has 32
   hyphens, so a name of 32 hyphens looks the same. The calls take any bytes as an image, opened or not. */

/* How many bytes the page has: 45 x cqdb_size_hint(image, len, 0), at most 193,273,528,275, which takes 38 bits. It is 0
   where no back array can be read. */
uint64_t cqdb_page_length(const uint8_t *image, size_t len);

/* refusal is 0 when the page or the part was printed; length is that of what was printed, 0 when the call was refused. */
typedef struct {
    uint32_t refusal;
    uint64_t length;
} cqdb_page_answer;

/* Prints the page to the first bytes of out, as many as cqdb_page_length gives; those behind them keep their content.
   Refusal: 12 when out_len is less, and nothing is written. */
cqdb_page_answer cqdb_page(const uint8_t *image, size_t len, uint8_t *out, size_t out_len);

/* Prints a part of the page, so that a long page needs little memory: the lines of `count` ids from `first` on, of those below
   back size. The length is 45 for each of them, 0 where there is none. Parts that follow each other, joined, are the page.
   Refusal: 12 when out_len is less, and nothing is written. */
cqdb_page_answer cqdb_page_part(const uint8_t *image, size_t len, uint32_t first, uint32_t count, uint8_t *out, size_t out_len);

/* Writing. One buffer takes the entries, and close makes it the image. The writer belongs to the caller: all of its fields
   are open, and the calls answer every value of them. A writer fits a buffer when its mode is 0 or 1, its repeats is 0
   or 1, its length is the buffer's, 2,072 <= end <= length, and no count exceeds entries. */

typedef struct {
    uint32_t mode;        /* CQDB_TWOWAY or CQDB_ONEWAY, as the image's flag word */
    uint32_t repeats;     /* CQDB_REPEATS_OFF or CQDB_REPEATS_ON: does put take a name that an earlier entry has? */
    uint32_t entries;     /* the number of entries */
    uint32_t back;        /* the back size: the largest id plus 1; 0 in a one-way image */
    uint64_t length;      /* the buffer's length */
    uint64_t end;         /* the end of the entries, which begin at 2,072 */
    uint32_t counts[256]; /* the number of entries of each table */
} cqdb_writer;

#define CQDB_TWOWAY 0u
#define CQDB_ONEWAY 1u

#define CQDB_REPEATS_OFF 0u
#define CQDB_REPEATS_ON 1u

/* The writer begins with four words and two sizes; elsewhere this line does not compile. */
typedef char cqdb_writer_in_place[offsetof(cqdb_writer, back) == 12 && offsetof(cqdb_writer, length) == 16 &&
                                  offsetof(cqdb_writer, end) == 24 ? 1 : -1];

/* The archive exports cqdb_begin_parts, cqdb_put_parts, cqdb_close_parts, cqdb_grown_parts and cqdb_size_with_parts; cqdb_begin,
   cqdb_put, cqdb_close, cqdb_grown and cqdb_size_with below call them, and programs in other languages may. They take the writer
   in parts, in place: the words mode, repeats, entries and back, the sizes length and end, and the counts. */

/* refusal is 0 when the call was accepted; size is the image's, 0 when the call was refused. */
typedef struct {
    uint32_t refusal;
    uint32_t size;
} cqdb_close_answer;

CQDB_LENGTH_ALONE(6)
uint32_t cqdb_begin_parts(uint32_t mode, uint32_t repeats, uint32_t *numbers, uint64_t *sizes, uint32_t *counts,
                          const uint8_t *buf, size_t len);
uint32_t cqdb_put_parts(uint32_t *numbers, uint64_t *sizes, uint32_t *counts, uint8_t *buf, size_t len,
                        const uint8_t *name, size_t name_len, uint32_t id);
cqdb_close_answer cqdb_close_parts(const uint32_t *numbers, const uint64_t *sizes, const uint32_t *counts, uint8_t *buf,
                                   size_t len);
uint32_t cqdb_grown_parts(const uint32_t *numbers, uint64_t *sizes, uint64_t len);
uint64_t cqdb_size_with_parts(const uint32_t *numbers, const uint64_t *sizes, size_t name_len, uint32_t id);

/* Begins with the choice that `repeats` names: what cqdb_begin and cqdb_begin_repeats do. */
CQDB_LENGTH_ALONE(4) CQDB_INLINED
static inline uint32_t cqdb_begin_with(cqdb_writer *w, uint32_t mode, uint32_t repeats, const uint8_t *buf, size_t len) {
    return cqdb_begin_parts(mode, repeats, &w->mode, &w->length, w->counts, buf, len);
}

/* Makes *w, whatever it held, a fresh writer for the buffer: the mode, repeats off, the buffer's length, end 2,072,
   otherwise zeros. Reads and changes no byte of the buffer. Gives 0, or the first refusal that applies: 2 for a mode that is
   neither 0 nor 1, 1 for a buffer under 2,072 bytes. Each cqdb_put then looks at all earlier entries;
   cqdb_put_indexed does not, nor does cqdb_build with the words that cqdb_build_needs gives. */
CQDB_LENGTH_ALONE(3) CQDB_INLINED
static inline uint32_t cqdb_begin(cqdb_writer *w, uint32_t mode, const uint8_t *buf, size_t len) {
    return cqdb_begin_with(w, mode, CQDB_REPEATS_OFF, buf, len);
}

/* The same with repeats on, for callers that renew prisms, or whose names are known to differ: put then takes a name that
   an earlier entry has, and does not look at the earlier entries. Both choices make the same image of the same accepted
   puts. */
CQDB_LENGTH_ALONE(3) CQDB_INLINED
static inline uint32_t cqdb_begin_repeats(cqdb_writer *w, uint32_t mode, const uint8_t *buf, size_t len) {
    return cqdb_begin_with(w, mode, CQDB_REPEATS_ON, buf, len);
}

/* Appends an entry of name_len + 9 bytes at w->end and raises the writer's numbers; changes no other byte of the buffer.
   Gives 0, or the first refusal that applies: 2 when the writer does not fit the buffer, 13 when the name has a zero byte,
   whatever its length; with repeats off 4 when the bytes from 2,072 to end are not the writer's number of whole entries with
   its counts and back size, otherwise 16 when one of them has this name; 3 when the finished size exceeds the buffer or
   4,294,967,295. The finished size is, after this put, end + 16 x entries + 4 x back (back counts in two-way mode only).

   With repeats off a put walks all earlier entries, some 4 to 5 ns for each with names of 9 bytes. So n puts take n x n / 2
   such steps: 40 ms for 4,096 names, some 20 s for 100,000. With repeats on a put does not look at them: 4,096 puts take
   0.1 ms, 100,000 take 2 ms. cqdb_put_indexed takes as little with repeats off, and less with repeats on.

   The bytes at w->end are those where the last close placed its tables. After an accepted put the buffer is therefore no
   image, though its head is still that of the last close and cqdb_open may accept it. After A->0, B->1, close and C->2,
   open gives num 2 and A finds nothing. Two puts whose ids and lengths look like offsets can make id 0 give B and id 1 give
   A. The next cqdb_close makes all of it right again: read after that close, or read a copy. */
static inline uint32_t cqdb_put(cqdb_writer *w, uint8_t *buf, size_t len, const uint8_t *name, size_t name_len, uint32_t id) {
    return cqdb_put_parts(&w->mode, &w->length, w->counts, buf, len, name, name_len, id);
}

/* The same of a name that is a C string. */
static inline uint32_t cqdb_put_text(cqdb_writer *w, uint8_t *buf, size_t len, const char *name, uint32_t id) {
    return cqdb_put(w, buf, len, (const uint8_t *)name, strlen(name), id);
}

/* Takes the new length of a buffer that has grown, as by realloc after refusal 3. The bytes from 2,072 to w->end are those of
   before; what the others are does not matter, and where the buffer stands does not either. The writer is then as if it had
   begun with the larger buffer and been given the accepted puts. Gives 0, or 2, and the writer stays as it was, when the buffer
   has become shorter, or for a mode or a repeats that is neither 0 nor 1. */
static inline uint32_t cqdb_grown(cqdb_writer *w, size_t len) {
    return cqdb_grown_parts(&w->mode, &w->length, len);
}

/* The finished size after a put of an id and a name of name_len bytes, as cqdb_put has it: how long the buffer has to be, or
   longer, for this put not to be refused with 3, where that is 4,294,967,295 or less. It is 2^64 - 1 for a name of 4,294,967,295
   bytes or more, and for an end of 2^63 or more. Reads mode, entries, back and end alone; a mode other than 0 is taken as
   one-way. Never refused, and changes nothing. */
static inline uint64_t cqdb_size_with(const cqdb_writer *w, size_t name_len, uint32_t id) {
    return cqdb_size_with_parts(&w->mode, &w->length, name_len, id);
}

/* Writes head, tables and back array: the buffer's first `size` bytes are then the image, up to the next accepted put.
   Entries, and bytes from size on, keep their content, and the writer stays as it is: puts and closes may follow. Gives
   the first refusal that applies: 2 when the writer does not fit the buffer; 4 when the bytes from 2,072 to end are not the
   writer's number of whole entries with its counts and back size, or when the finished size exceeds the buffer or
   4,294,967,295. */
static inline cqdb_close_answer cqdb_close(const cqdb_writer *w, uint8_t *buf, size_t len) {
    return cqdb_close_parts(&w->mode, &w->length, w->counts, buf, len);
}

/* Single puts in constant time, also with repeats off: by an index, in words that the caller lends. A put by the index compares
   its name only with entries whose hash is equal. The index is no part of the image: both ways of putting make the same bytes.

   An index is right for a writer and its buffer when cqdb_index made it, in words of this number, and since then the writer, the
   buffer's bytes from 2,072 to w->end and the words were changed by cqdb_put_indexed, cqdb_close and cqdb_grown alone; refused
   calls of any kind do not matter. For a writer that is fresh from cqdb_begin, words that are all 0 are right as well. Whatever
   else the words hold, no call touches anything outside what it is lent, each call ends, a refusal changes nothing, and an
   accepted put appends exactly its entry, whose name has no zero byte; but a put may be refused with 16 or 24 without need, or a
   name be accepted that an earlier entry has.

   With repeats on no name is sought, and cqdb_put_indexed reads and writes no slot: any words are right for a writer from
   cqdb_begin_repeats, n may be 0, and cqdb_put_indexed never gives 24. It then saves put's look at all 256 counts. cqdb_index is
   not needed then; it still gives 24 where there are more entries than n / 2. */

/* How many words to lend for so many names: 4 for each, so that the index is half full at the end; 2^64 - 1 where that is more
   than a size can be. An index of n words, an odd last one apart, has room for n / 2 names. The fuller it gets the longer a put
   takes: with 2 words for each name, some nine times as long at 100,000. */
size_t cqdb_index_words(size_t names);

/* The archive exports cqdb_index_parts and cqdb_put_indexed_parts, which cqdb_index and cqdb_put_indexed call. They take the writer in
   parts, in place, as cqdb_begin_parts does. */
uint32_t cqdb_index_parts(const uint32_t *numbers, const uint64_t *sizes, const uint32_t *counts, const uint8_t *buf, size_t len,
                          uint32_t *slots, size_t n);
uint32_t cqdb_put_indexed_parts(uint32_t *numbers, uint64_t *sizes, uint32_t *counts, uint8_t *buf, size_t len,
                                uint32_t *slots, size_t n, const uint8_t *name, size_t name_len, uint32_t id);

/* Makes the n words at slots the index of the entries in the buffer, whatever they held; of a fresh writer, by clearing them. Changes
   nothing else. Gives 0, or the first refusal that applies, and then the words stay as they were: 2 and 4 as cqdb_close gives
   them, 24 when there are more entries than n / 2. Call it again with more words before the index is full. It walks the entries
   twice: an index that grows by a factor when it is half full costs each put a constant time more. */
static inline uint32_t cqdb_index(const cqdb_writer *w, const uint8_t *buf, size_t len, uint32_t *slots, size_t n) {
    return cqdb_index_parts(&w->mode, &w->length, w->counts, buf, len, slots, n);
}

/* By a right index: cqdb_put with the writer's own choice of repeats, and the index is right again. Gives 0, or put's refusals in
   put's order (2, 13, 16, 3; not 4, since the entries of a right index are the writer's), or else 24 when repeats are off and
   every slot is taken; the put would be accepted by a larger index. Appends the entry, raises the writer's numbers, with repeats
   off writes the two words of a slot, and changes no other byte.

   By any other words, and with any writer, it gives the first that applies: 2 when the writer's mode, repeats, length or end does
   not fit the buffer; 13 when the name has a zero byte; 3 for a name of 4,294,967,295 bytes or more; 16 when repeats are off and
   a slot, before the first empty one from slot (hash / 256) modulo (n / 2) on and around, has the name's hash and the offset of
   an entry of this name before w->end; 3 when the finished size is too large, as in cqdb_put; 2 when the count of the name's table
   is 4,294,967,295; 24 when repeats are off and no slot is empty; else 0. Other counts and other entries are not looked at: where
   cqdb_put gives 2 or 4 for them, this may give 0. */
static inline uint32_t cqdb_put_indexed(cqdb_writer *w, uint8_t *buf, size_t len, uint32_t *slots, size_t n,
                                        const uint8_t *name, size_t name_len, uint32_t id) {
    return cqdb_put_indexed_parts(&w->mode, &w->length, w->counts, buf, len, slots, n, name, name_len, id);
}

/* The same of a name that is a C string. */
static inline uint32_t cqdb_put_indexed_text(cqdb_writer *w, uint8_t *buf, size_t len, uint32_t *slots, size_t n, const char *name,
                                             uint32_t id) {
    return cqdb_put_indexed(w, buf, len, slots, n, (const uint8_t *)name, strlen(name), id);
}

/* A whole list in one call. */

/* refusal is 0 when the list was accepted; size is the image's, and accepted the number of accepted puts. Both are 0 where it
   was refused. */
typedef struct {
    uint32_t refusal;
    uint32_t size;
    uint32_t accepted;
} cqdb_build_answer;

cqdb_build_answer cqdb_build_parts(uint32_t mode, uint32_t repeats, uint8_t *buf, size_t len,
                                   const uint8_t *names, size_t names_len, const uint64_t *ends, size_t n,
                                   const uint32_t *ids, size_t ids_len, uint32_t *refusals, size_t places,
                                   uint32_t *scratch, size_t words);

/* Begins a writer in the buffer, puts each of n names with the id at its place, in order, and closes: the image, the size and
   the number of each put's refusal, in refusals[0] to refusals[n - 1], are those of the single calls. The image is the first
   `size` bytes of the buffer. Bytes from the size on that cqdb_build_needs gives for these names and ids keep their content;
   those between the two sizes are unspecified. The names are packed, from names on; name i ends before byte ends[i], and begins where
   the one before ends, the first at 0. Refusals of the whole list, the first that applies: 2 for a mode or a choice of repeats
   that is neither 0 nor 1; 14 when an end is below the one before or above names_len; 15 when there are fewer than n places; 1
   for a buffer under 2,072 bytes. Then nothing is written.

   The words at scratch are lent for speed: how many there are, and what they hold, changes no answer, and what they hold
   afterwards is unspecified. What a list of n names costs, by the list and by the words:
   - The buffer has room for all names, none has a zero byte, and with repeats off all differ: linear, and no word is needed
     up to 4,608 names of one table, some 1,100,000 in all. The image is written straight into the buffer. With more names
     some words are needed, two for each name of the largest table, or else the tables are filled name by name: 1,500,000 names
     then take four to five times as long.
   - A name is refused: the names are put one by one from the beginning. With 5n words that is linear, apart from names that
     come often with repeats on (below), and takes some three times as long as the list without it up to 100,000 names, six times
     at 1,000,000. Each put looks into an index of the names. There is an index from 2n words on, but the fuller it gets the more
     slots a put reads: with 2n words 100,000 names took five to six times as long as with 4n. With fewer it is quadratic where
     repeats are off, since each put walks the entries before it: 16,000 names took 0.6 s.
   - A name that is put k times with repeats on costs k * k / 2 reads of buckets, whatever is lent, as in cqdb_close: equal
     names have one probe sequence in their table. 64,000 puts of one name took 1.8 s. With repeats off all but the first are
     refused, and the image of all names is given up at the first name that stands twice: 64,000 puts took 1.3 ms. */
static inline cqdb_build_answer cqdb_build(uint32_t mode, uint32_t repeats, uint8_t *buf, size_t len,
                                           const uint8_t *names, size_t names_len, const uint64_t *ends, const uint32_t *ids,
                                           size_t n, uint32_t *refusals, size_t places, uint32_t *scratch, size_t words) {
    return cqdb_build_parts(mode, repeats, buf, len, names, names_len, ends, n, ids, n, refusals, places, scratch, words);
}

/* How many bytes and words a list needs. */
typedef struct {
    uint64_t bytes;
    uint64_t words;
} cqdb_build_needs_answer;

/* In a buffer of so many bytes no put of the list is refused with 3, with either choice of repeats, unless they exceed
   4,294,967,295; with so many words it takes linear time, also where a name is refused, unless repeats are on and one name
   comes very often (see cqdb_build). names_len is the length of the packed names, and n the number of ids. Without a refused
   put and without a byte behind the last name, bytes is the image's size. A mode other than 0 is taken as one-way, and what
   exceeds 2^64 - 1 is given as that. Changes nothing, and reads each id once. */
cqdb_build_needs_answer cqdb_build_needs(uint32_t mode, size_t names_len, const uint32_t *ids, size_t n);

/* Order of a round. Needs no image. */

/* The reference must be sighted before the wall prism. */
typedef struct {
    uint32_t reference;
    uint32_t wall;
} cqdb_pair;

/* ok is 1 or 0; pair is 0 where ok is 1. */
typedef struct {
    uint32_t ok;
    uint64_t pair;
} cqdb_order_answer;

/* A pair is kept in a round, a list of ids, when its wall prism does not occur, or its reference occurs before the wall
   prism's first occurrence. ok is 1 when each of the n pairs is kept; otherwise pair is the place, counted from 0, of the
   first that is not. A pair of an id with itself is kept only where that id does not occur. Never refused, and changes
   nothing. For each pair the round is read once at most, up to the first of its two ids: up to n x m steps. */
cqdb_order_answer cqdb_references_first(const cqdb_pair *pairs, size_t n, const uint32_t *round, size_t m);

/* The round sheet: a file of three sections in this order, references, wall prisms and retired prisms. Each is a 16-bit
   count and that many 32-bit ids, little-endian. A section may be empty. Needs no image. */

/* refusal is 0 when the file was accepted. For references (0), wall prisms (1) and retired prisms (2): counts is the number
   of ids, and starts the offset of the first one's bytes in the file; all of them are 0 when it was refused. */
typedef struct {
    uint32_t refusal;
    uint32_t counts[3];
    uint64_t starts[3];
} cqdb_sheet_answer;

/* Where the ids of each section stand: the 4 x counts[s] bytes from file + starts[s] on. They lie in the file, four bytes to
   an id, the lowest first, and need not be aligned to words. Those of an empty section stand right behind its count. Changes
   nothing. Refusals: 19 when the file ends before its third section does, 20 when bytes follow that section. */
cqdb_sheet_answer cqdb_sheet_read(const uint8_t *file, size_t len);

/* refusal is 0 when the call was accepted; length, the file's, is 0 when it was refused. */
typedef struct {
    uint32_t refusal;
    uint64_t length;
} cqdb_sheet_length_answer;

/* Writes the sheet of n references, m wall prisms and k retired prisms, 6 + 4 x (n + m + k) bytes: the buffer's first
   `length` bytes are then the file, and no byte past it is changed. Refusal 21: n, m or k exceeds 65,535, or the buffer is
   shorter than the file; then no byte is changed. */
cqdb_sheet_length_answer cqdb_sheet_write(uint8_t *buf, size_t len, const uint32_t *references, size_t n,
                                          const uint32_t *walls, size_t m, const uint32_t *retired, size_t k);

/* Several walls in a file. A bundle holds images back to back: an image's size word, at its offset 4, says where the next
   begins. An empty file is a bundle of none. A walk goes from the front by the size words and looks at nothing else of an
   image. It breaks off, and the call gives 10, at 1 to 7 last bytes and at a size word that is under 2,072 or leads past the
   file's end. */

/* refusal is 0 when the image was accepted. Its bytes are the size bytes from file + start on, which lie in the file, and num is
   its number of associations: all calls of reading take file + start and size as an image. All are 0 where refused. */
typedef struct {
    uint32_t refusal;
    uint32_t num;
    uint64_t start;
    uint64_t size;
} cqdb_bundle_open_answer;

/* Opens the image at a position, counted from 0. The walk goes only as far as the position, so an image behind it may be
   broken; its time grows with the position. Refusals, the first that applies: 10 where the walk breaks off at or before the
   position, 11 where the file ends there; then 5, 6, 7 or 8 as cqdb_open gives them for the image's own bytes. */
cqdb_bundle_open_answer cqdb_bundle_open(const uint8_t *file, size_t len, uint64_t position);

/* refusal is 0 when the image was appended; length is the file's new length, 0 where refused. */
typedef struct {
    uint32_t refusal;
    uint64_t length;
} cqdb_bundle_append_answer;

/* Appends an image to the file that is the buffer's first file_len bytes: writes its bytes right after them and changes no
   other byte. Every earlier image then opens at its position to the same bytes as before, and the new one at the position after
   the last. The new image is not opened: append what cqdb_close gave. Refusals, the first that applies, which change nothing:
   10 where file_len exceeds len, a walk of the whole file breaks off, or the new image is under 2,072 bytes or not as long as
   its size word says; 3 where file_len + image_len exceeds len. */
cqdb_bundle_append_answer cqdb_bundle_append(uint8_t *buf, size_t len, uint64_t file_len, const uint8_t *image, size_t image_len);

/* refusal is 0 or 10; images is the number of images in the file, 0 where refused. */
typedef struct {
    uint32_t refusal;
    uint64_t images;
} cqdb_bundle_count_answer;

/* The number of images in a file, by a walk of the whole file. Refusal: 10. */
cqdb_bundle_count_answer cqdb_bundle_count(const uint8_t *file, size_t len);

/* A load anyone can rebuild: an image to test and measure with, from a seed. A step takes a state s to
   1664525 x s + 1013904223 modulo 2^32, and the first state is the seed. Entry i, from 0, has id i and the name P followed
   by the state after step i + 1 in eight uppercase hexadecimal digits; the first of seed 0 is P3C6EF35F. */

/* refusal is 0 when the call was accepted; accepted is the number of entries, 0 when it was refused. */
typedef struct {
    uint32_t refusal;
    uint32_t accepted;
} cqdb_load_answer;

/* Puts the entries of a seed, two-way and with repeats on, until 4,096 are accepted or one finds no room, and closes. The
   buffer's first 2,072 + 38 x accepted bytes, as many as the image's size word says, are then the image; those behind it
   keep their content. 157,720 bytes have room for all 4,096 entries, whatever the seed. Refusal: 1 for a buffer under 2,072
   bytes, and nothing is written. */
cqdb_load_answer cqdb_load(uint32_t seed, uint8_t *buf, size_t len);

/* Names with a season. Some prisms stand only between two dates. Takes any bytes as an image, opened or not. */

/* A date of the Gregorian calendar: the years 1900 to 2199, months 1 to 12, days from 1 on. As the end date of a window also
   1 January 2200. */
typedef struct {
    uint16_t year;
    uint8_t month;
    uint8_t day;
} cqdb_date;

/* The id's prism stands from the first date on; on the end date it stands no longer. */
typedef struct {
    uint32_t id;
    cqdb_date first;
    cqdb_date end;
} cqdb_window;

/* refusal is 0 when the call was accepted. found is 1 or 0; the name is the len bytes from image + start on, which lie in the
   image. found, len and start are 0 where there is no name on that date, and where the call was refused. */
typedef struct {
    uint32_t refusal;
    uint32_t found;
    uint32_t len;
    uint64_t start;
} cqdb_on_answer;

/* The place of an id's name on a date: that of cqdb_to_str where some of the n windows has this id and holds the date, first
   date included, end date not; otherwise nothing. All windows are checked, also those of other ids and also where the id has
   no name. Refusals: 22 when a date does not exist or is out of bounds, the one asked about or one of a window; 23 when none is,
   and a window does not start before its end. Changes nothing, and reads each window once. */
cqdb_on_answer cqdb_name_on(const uint8_t *image, size_t len, uint32_t id, cqdb_date date, const cqdb_window *windows, size_t n);

/* Two images compared: which ids they name differently, and where an old name went. Both calls take any bytes as images, opened or
   not, are never refused and change nothing. */

/* found is 1 or 0. before is what cqdb_to_str gives for id in the old image, after what it gives in the new one; before.start counts
   from the old image, after.start from the new one. All numbers are 0 where no change is found. */
typedef struct {
    uint32_t found;
    uint32_t id;
    cqdb_str_answer before;
    cqdb_str_answer after;
} cqdb_change_answer;

/* The first id from `from` on, below the larger of the two cqdb_size_hint at 0, that the two images name differently: by a name
   and another name, byte for byte, or by a name and none. Where none is found, no id from there on is named differently. To list
   all changes, in rising order, begin with 0 and go on with the id found plus 1: from has 64 bits, so that the last step does not
   wrap. */
cqdb_change_answer cqdb_next_change(const uint8_t *old_image, size_t old_len, const uint8_t *new_image, size_t new_len, uint64_t from);

/* found is 1 or 0; both numbers are 0 where the name has not moved. */
typedef struct {
    uint32_t found;
    uint32_t id;
} cqdb_moved_answer;

/* Whether the old name of an id is now another id's name: found is 1 where the id has a name in the old image and cqdb_to_id of that
   name, in the new image, finds another id, which the answer gives. */
cqdb_moved_answer cqdb_moved(const uint8_t *old_image, size_t old_len, const uint8_t *new_image, size_t new_len, uint32_t id);

/* May this report leave? The station names the sighted ids of a round by an image, and engineers subtract positions of two reports
   under one name. A report may leave where no movement is shown that never happened. The questions, in this order; the first that
   fails is the answer:
    1  the new image is canonical and two-way
    2  the sheet reads (19, 20)
    3  each id of the round occurs exactly once in the whole sheet, as a reference or a wall prism
    4  the round has an id
    5  each id of the round has a name in the new image that is not empty
    6  no two different ids of the round have one name in the new image
    7  the old image is canonical and two-way
    8  the old and the new image name at least one id alike, sighted or not
    9  each id of the round that the old image names has the same name in the new one, unless it is accepted
   10  no sighted id has now the old name of an id, of any number, that has lost it; what is accepted does not matter

   Both calls take any bytes and change nothing; a sheet that does not read is question 2, with its refusal. Their time grows with
   the bytes of the images, with the round times the sheet, and with the square of the round; that of cqdb_preflight also with the
   round times the ids that lost their name, and with the renamed ids of the round times the accepted ones. */

/* What a report rests on. A list without elements may have a null pointer and length 0. */
typedef struct {
    const uint8_t *old_image; /* the image by which the last report was named */
    size_t old_len;
    const uint8_t *new_image; /* the image by which this report is named */
    size_t new_len;
    const uint8_t *sheet; /* the round sheet */
    size_t sheet_len;
    const uint32_t *round; /* the sighted ids, in order; an id may stand twice */
    size_t round_len;
    const uint32_t *accepted; /* ids whose rename is intended */
    size_t accepted_len;
} cqdb_report;

/* Numbers that do not apply are 0. Places in the round count from 0. */
typedef struct {
    uint32_t question;  /* 0: the report may leave; 1 to 10: the first question that fails */
    uint32_t refusal;   /* question 2: why the sheet does not read, 19 or 20 */
    uint32_t id;        /* question 10: the id that lost its name */
    uint64_t place;     /* questions 3, 5, 6, 9, 10: the place in the round of the id that shows it */
    uint64_t other;     /* question 6: the first place of another id with that name */
    uint64_t compared;  /* yes: how many places of the round have an id that the old image names; 0 for a first report */
    uint64_t added;     /* yes: how many places have an id that the old image does not name; 0 for a first report */
    uint64_t unsighted; /* yes: how many references and wall prisms of the sheet are not in the round */
} cqdb_preflight_answer;

cqdb_preflight_answer cqdb_preflight_parts(const uint8_t *old_image, size_t old_len, const uint8_t *new_image, size_t new_len,
                                           const uint8_t *sheet, size_t sheet_len, const uint32_t *round, size_t round_len,
                                           const uint32_t *accepted, size_t accepted_len);
cqdb_preflight_answer cqdb_preflight_first_parts(const uint8_t *new_image, size_t new_len, const uint8_t *sheet, size_t sheet_len,
                                                 const uint32_t *round, size_t round_len);

/* May the report leave, after one that the old image named? Questions 1 to 10. */
static inline cqdb_preflight_answer cqdb_preflight(const cqdb_report *report) {
    return cqdb_preflight_parts(report->old_image, report->old_len, report->new_image, report->new_len, report->sheet,
                                report->sheet_len, report->round, report->round_len, report->accepted, report->accepted_len);
}

/* May a first report leave, with no earlier one to compare? Questions 1 to 6. old_image and accepted are not read. */
static inline cqdb_preflight_answer cqdb_preflight_first(const cqdb_report *report) {
    return cqdb_preflight_first_parts(report->new_image, report->new_len, report->sheet, report->sheet_len, report->round,
                                      report->round_len);
}

/* refusal is 22 or 23, 0 when the call was accepted. */
typedef struct {
    uint32_t question; /* 0: yes; 11: the id at `place` has no window that holds both dates; 0 where refused */
    uint32_t refusal;
    uint64_t place; /* question 11: the first such place in the round; otherwise 0 */
} cqdb_preflight_dates_answer;

/* What cqdb_preflight_dates calls: the windows as words of 32 bits, three to a window, as the struct lies in memory; one or two words
   behind the last window are not read. */
cqdb_preflight_dates_answer cqdb_preflight_dates_words(const uint32_t *windows, size_t words, const uint32_t *round, size_t round_len,
                                                       cqdb_date last, cqdb_date date);

/* Has every id of the round one window that holds both the date of the last report and that of this one, so that no prism was taken
   away and set again between them? Of a first report both dates are the same. Refusals: 22 when a date does not exist or is out of
   bounds, `last`, `date` or one of a window; 23 when none is, and a window does not start before its end. Changes nothing. Its time
   grows with the round times the windows. */
static inline cqdb_preflight_dates_answer cqdb_preflight_dates(const cqdb_window *windows, size_t windows_len, const uint32_t *round,
                                                               size_t round_len, cqdb_date last, cqdb_date date) {
    return cqdb_preflight_dates_words(windows_len == 0 ? NULL : &windows->id, 3 * windows_len, round, round_len, last, date);
}

/* A whole round in one call, in both directions. The archive exports cqdb_round_words and cqdb_name_round_words, which take the
   answers as words of 32 bits, four to an answer, as the structs above lie in memory on x86-64: the low half of a 64-bit start
   comes first. cqdb_round and cqdb_name_round hand over the address of the first answer's first word. The archive is compiled apart
   from the program, so to the program's compiler the call may change all of the answers, whatever their type. */

/* refusal is 0 when the round was accepted; buckets is 0 when it was refused. */
typedef struct {
    uint32_t refusal;
    uint64_t buckets;
} cqdb_round_answer;

cqdb_round_answer cqdb_round_words(const uint8_t *image, size_t len, const uint8_t *names, size_t names_len,
                                   const uint64_t *ends, size_t n, uint32_t *answers, size_t words);
uint32_t cqdb_name_round_words(const uint8_t *image, size_t len, const uint32_t *ids, size_t n, uint32_t *answers,
                               size_t words);

/* The ids of up to 512 names. They are packed in names, the first from byte 0 on, and ends[i] is where the i-th ends; bytes may
   follow the last. answers[i] is what cqdb_to_id gives for the i-th name, and equal names are searched for once: buckets is the
   sum over the different names. Places past the n-th keep their content. Refusals, the first that applies, and then nothing is
   written: 14 for more than 512 names, or an end below the one before or above names_len; 15 for fewer places than names. */
static inline cqdb_round_answer cqdb_round(const uint8_t *image, size_t len, const uint8_t *names, size_t names_len,
                                           const uint64_t *ends, size_t n, cqdb_id_answer *answers, size_t places) {
    return cqdb_round_words(image, len, names, names_len, ends, n, places == 0 ? NULL : &answers->found, 4 * places);
}

/* The names of up to 512 ids: answers[i] is what cqdb_to_str gives for ids[i], and places past the n-th keep their content. Gives
   0, or the first refusal that applies, and then nothing is written: 14 for more than 512 ids, 15 for fewer places than ids. */
static inline uint32_t cqdb_name_round(const uint8_t *image, size_t len, const uint32_t *ids, size_t n,
                                       cqdb_str_answer *answers, size_t places) {
    return cqdb_name_round_words(image, len, ids, n, places == 0 ? NULL : &answers->found, 4 * places);
}

#ifdef __cplusplus
}
#endif

#endif
