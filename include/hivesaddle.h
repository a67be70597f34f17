/* Hivesaddle: a reader of Windows Prefetch (SCCA) files, versions 17, 23, 26 and 30, uncompressed, and a writer of
 * files of versions 17 and 23 to test with. It also looks up in a temperature recording what a board had at each start,
 * and makes a table of a year's catalogue lines and starts.
 *
 * The library is for x86-64 Linux and nothing else, since its toolchain makes no other. For a controller of another kind
 * the definitions, the proofs and this interface carry over as they are; what is missing is the toolchain's back end for
 * it. For any other target this header stops the compiler, unless HS_HEADER_ONLY is defined: the declarations can then be
 * used, and there is no library to link with.
 *
 * Link with libhivesaddle.a. It needs memcpy and memset and nothing else: it allocates nothing, keeps nothing between
 * calls, and does no input or output. Calls with different lists may run at the same time. The table of the stack that each
 * function takes stands at the end.
 *
 * Every function takes any bytes, any index and any length, and comes to an end.
 *
 * A list is a pointer and then its length in elements. A list of length 0 may have any pointer, a null pointer too; any
 * other must point to that many elements, aligned as their type is. Lists that a call writes must not overlap others of
 * the same call. A list marked const is never changed, and no pointer is kept.
 *
 * out takes the numbers listed with each function, in that order, as many as fit: a shorter out gets the first of them,
 * and what lies behind the last is left alone. Numbers in a file are little-endian; in out they are the machine's own.
 *
 * A text is UTF-16 units as they stand in the file, low byte first. A part of the file is handed back as an offset from
 * its first byte and a length in bytes, and is never copied.
 */
#ifndef HIVESADDLE_H
#define HIVESADDLE_H

#if !defined(HS_HEADER_ONLY) && !(defined(__x86_64__) && defined(__LP64__) && defined(__ELF__))
#error "libhivesaddle is for x86-64 Linux alone; HS_HEADER_ONLY gives the declarations without it"
#endif

#include <stddef.h>
#include <stdint.h>

#ifdef __cplusplus
extern "C" {
#endif

/* The number of this interface. hs_interface gives that of the header that the library was made with: where the two differ,
 * header and library do not belong together.
 *
 * It is raised by one in the commit that changes what this header declares or promises: a function, a parameter, a constant,
 * a place in out, what any of them means; also where something is only added. Other words for the same leave it, and so does
 * a library that gives the same answers in another way. It is never lowered, and no number is used twice. */
#define HS_INTERFACE 1

uint32_t hs_interface(void);

/* ---- The readers ----
 *
 * hs_read_prefix looks at the first bytes of a file, as many as there are so far. What it accepts or refuses stands,
 * whatever bytes follow. A request is for the length that the prefix must have before more can be said; it always exceeds
 * the length that it has.
 *
 * hs_read_file looks at a complete file, and never asks for more.
 *
 * predecessors has one slot for each trace entry, or more; with fewer the file is refused with 7. places is the number of
 * slots, and hs_places says how many a file needs. After an acceptance slot j holds the predecessor of entry j, the entry
 * that names j as next, and HS_NONE where it has none and behind the last entry. After anything else every slot holds
 * HS_NONE. All of it is written in every call, whatever it held.
 *
 * The trace entries of version 30 have no next index. Such a file needs no slots, and after an acceptance too every
 * slot holds HS_NONE. It has no chains, and its trace section is neither looked at nor waited for; it has to lie
 * inside the file and apart from the others all the same.
 */

/* What both give back. */
enum hs_verdict {
    HS_ACCEPTED = 0, /* the record is in out, HS_VERSION to HS_CHAIN_COUNT and from HS_TIME_COUNT on */
    HS_REFUSED = 1,  /* out has HS_NUMBER, HS_INDEX and HS_OFFSET */
    HS_WANTED = 2    /* out has HS_BYTES_WANTED; hs_read_prefix only */
};

/* Where each number stands in out. All that the verdict does not fill are 0. */
enum hs_reader_out {
    HS_NUMBER = 0,       /* of the refusal, see below */
    HS_INDEX = 1,        /* section, entry or volume at fault, or 0 */
    HS_BYTES_WANTED = 2, /* length that the prefix must have */
    HS_VERSION = 3,
    HS_DECLARED_SIZE = 4,
    HS_NAME_UNITS = 5, /* units of the program name before its first zero */
    HS_STORED_HASH = 6,
    HS_RUN_TIME = 7, /* latest, a FILETIME as it stands */
    HS_RUN_COUNT = 8,
    HS_METRICS_COUNT = 9,
    HS_TRACE_COUNT = 10,
    HS_VOLUME_COUNT = 11,
    HS_CHAIN_COUNT = 12, /* trace entries that no entry names as next; 0 for version 30 */
    HS_OFFSET = 13,      /* of the refusal: where the field at fault stands in the file */
    HS_TIME_COUNT = 14,  /* run times that the version has: 1 for 17 and 23, 8 for 26 and 30 */
    HS_RUN_TIME_2 = 15,  /* the seven behind the latest, as they stand, sorted or not; 0 where the version has none */
    HS_RUN_TIME_3 = 16,
    HS_RUN_TIME_4 = 17,
    HS_RUN_TIME_5 = 18,
    HS_RUN_TIME_6 = 19,
    HS_RUN_TIME_7 = 20,
    HS_RUN_TIME_8 = 21,
    HS_READER_OUT = 22 /* length of an out that holds them all */
};

/* In a slot of predecessors: no entry. In every place of the replay's work at its end. */
#define HS_NONE 4294967295u

uint32_t hs_read_prefix(const uint8_t *file, size_t length, uint32_t *predecessors, size_t places, uint64_t *out,
                        size_t out_length);
uint32_t hs_read_file(const uint8_t *file, size_t length, uint32_t *predecessors, size_t places, uint64_t *out,
                      size_t out_length);

/* How many slots of predecessors both need for this file: its trace count, and 0 for version 30. 1 where checks 1 to
 * 6 of the table below, 21 among them, pass on these bytes, so from H bytes on, and the number is then at most
 * 5,592,393. Else 0; both then answer the same with any number of slots. Of the file only its head is looked at.
 * out: places, 0 after a no. */
uint32_t hs_places(const uint8_t *file, size_t length, uint64_t *out, size_t out_length);

/* Refusals, in the order of the checks. A check is decided once the prefix has the required length, the second column, and
 * the first that is not passed gives the answer. S is the declared size, H the end of the head's last field: 148, 156,
 * 212 and 212 for versions 17, 23, 26 and 30. Sections are numbered 1 metrics, 2 trace, 3 strings, 4 volumes.
 *
 * "Checks 1 to 6" are all up to 6 in this order, 21 among them; "checks 1 to 4" are the four before it. 21 is about
 * version 30: its metrics offset tells which form the head has, as it stands, also where the metrics array is empty.
 * One form is known, that of version 26, whose metrics array starts at 304. Files with other starts exist, 296 among
 * them; read by this form they would give a wrong run count. 3 and catalogue lines take the smallest H of the forms.
 *
 * The file offset says where the field at fault stands, from the first byte of the file: for a section its offset field,
 * which is at 84, 92, 100 or 108; for a name the field of its metrics entry that holds the name's offset, 8 bytes into the
 * entry in version 17 and 12 in the others; for an entry its first byte. A trace entry begins with its next index, if
 * it has one. 16 has 12 also where the file is too short to have those bytes.
 *
 *  no.  required     refused exactly when                                                 index                file offset
 *   1   4            version not 17, 23, 26 or 30                                         0                    0
 *   2   8            signature is not "SCCA"                                              0                    4
 *   3   16           S below H or above 67,108,864                                        0                    12
 *   4   76           none of the 30 units of the program name is zero                     0                    16
 *  21   88           version 30 only: no known head form has this metrics offset, or S    0                    84
 *                    is below the H of the form that has
 *   5   H            a section that is not empty starts before H or ends after S          first such section   offset field
 *   6   H            two sections share a byte                                            smallest that shares offset field
 *                                                                                         one with a lower
 *   7   H            fewer slots than trace entries                                       0                    96
 *   8   H            more volume entries than the volumes section can hold                0                    112
 *   9   metrics end  a name, with its zero unit, runs past the strings section            first such metrics   name offset
 *                                                                                         entry
 *  10   metrics and  a name has a zero unit inside, or no zero unit right behind it       first such metrics   name offset
 *       strings end                                                                       entry
 *  11   trace end    a next index is neither 4,294,967,295 nor that of an entry           first such entry     next index
 *  12   trace end    an entry is named as next by two or more                             smallest so named    entry
 *  13   trace end    following next from an entry comes back to it                        smallest such entry  entry
 *  14   volumes end  a path, references or a directory run past the volumes section,      the volume           volume entry
 *                    or references have a size of 1 to 7, or more numbers than it holds
 *  15   volumes end  a directory does not end in a zero unit                              the volume           volume entry
 *  16                hs_read_file only: the file is shorter than S or than a check needs  0                    12
 *  17                hs_read_file only: the file is longer than S                         0                    12
 *  18                hs_catalogue_read and hs_year_table only: not a catalogue line
 *  19                hs_catalogue_write only: fields that form no line, or an output below 27 bytes
 *  20                hs_write_file only: output is shorter than the file                  0                    0
 *  22                hs_replay and hs_replay_finish only: a line of the recording is no reading
 *  23                hs_walk only: order has fewer places than there are trace entries    0                    0
 *  24                hs_year_table only: a 1,025th stored hash
 *  25                hs_hash_swap and hs_hash_swap_bytes only: p exceeds the length of old
 *  26                hs_year_table only: more than 1,048,576 lines, or more than 1,048,576 starts
 *
 * What to do:
 *
 *   1, 2           it is another file. One that begins with "MAM" is compressed: unpack it first, with another tool
 *   3 to 6, 8      the file is damaged: fetch it again
 *   9, 10          the same; hs_entry_name still gives the sound names
 *   11 to 13       the same; names and volumes can still be had
 *   14, 15         the same; hs_volume still gives the sound volumes
 *   7, 23          the file may be sound: call again with as many slots or places as hs_places says
 *   16             fetch the rest
 *   17             see whether two files ran together; hs_read_prefix does not mind
 *   18, 19         see "Catalogue lines" below for what a line is
 *   20             call again with more room: 67,108,864 bytes are always enough
 *   21             the file may be sound: take another tool; hs_program_name still works
 *   22             see that line: it may have been cut off, or the lines have carriage returns
 *   24, 26         take fewer programs, lines or starts at a time
 *   25             see what p counts: numbers, or bytes, two for each unit
 *
 * 14 and 15 are found volume by volume, the first fault of the first volume that has one. The end of an empty section
 * counts as H; strings without metrics entries and a volumes section without volumes are not waited for. Version 30
 * passes 7 and 11 to 13 with any slots and any bytes, as soon as it has H.
 */

/* ---- The walk along all chains ----
 *
 * hs_walk reads a complete file as hs_read_file does, and then walks its trace entries: from each head, an entry that
 * no entry names as next, in index order, and from there along next to the chain's end. Every entry is on exactly one
 * chain, so each is visited once, and there are as many chains as entries whose next is HS_NONE.
 *
 * order takes the entries in the order visited, one place for each step, and keeps what it held behind them. It needs
 * one place for each trace entry, as many as hs_places says; with fewer the answer is 23. A refusal of hs_read_file, 7
 * among them, comes first. After any refusal all of order is as it was.
 *
 * predecessors is as hs_read_file leaves it: the table after a walk, HS_NONE in every slot after a refusal, 23 too.
 *
 * The trace entries of version 30 have no next index: steps and total are 0, order is as it was, every slot holds
 * HS_NONE, and 23 is never the answer. Such an entry has a block load count too, which is not added up.
 * What the papers call a block load count rises along every chain of more than one entry in files that Windows wrote:
 * there it is a position, and the total means nothing.
 *
 * Gives HS_ACCEPTED where it walked, or HS_REFUSED.
 */

/* Where each number stands in out. All that the answer does not fill are 0. */
enum hs_walk_out {
    HS_WALK_NUMBER = 0, /* of the refusal */
    HS_WALK_INDEX = 1,  /* section, entry or volume at fault, or 0 */
    HS_WALK_OFFSET = 2, /* where the field at fault stands in the file; 0 for 23 */
    HS_WALK_STEPS = 3,  /* entries visited, which is the trace count; 0 for version 30 */
    HS_WALK_TOTAL = 4,  /* their block load counts added up, in 64 bits */
    HS_WALK_OUT = 5     /* length of an out that holds them all */
};

uint32_t hs_walk(const uint8_t *file, size_t length, uint32_t *predecessors, size_t places, uint32_t *order,
                 size_t order_length, uint64_t *out, size_t out_length);

/* ---- The writer ----
 *
 * hs_write_file lays out a file of version 17 or 23 from what it says. Its answer is that of hs_read_file on the file as
 * laid out, with these predecessors; any other version, 26 and 30 too, is refused with 1, whatever the rest. So what it
 * writes hs_read_file accepts with the same record, and what it does not write it refuses with the number, index and file
 * offset of hs_read_file, as if the file were there. Where that is an acceptance and output is shorter than the file, the
 * answer is 20.
 *
 * The file has a head of 152 bytes (version 17) or 240 (version 23), then metrics, trace, strings and volumes, without
 * gaps. The offset of an empty section is where it would stand. All bytes of the head and of metrics and trace entries
 * that are no field below are 0.
 *
 *   name          units of the program name: those before the first zero, or all. 30 or more are refused with 4
 *   stored_hash, run_time, run_count
 *   metrics       pairs: where a name begins in strings, in bytes, and its units without the zero
 *   trace         pairs: next index, or HS_NONE at a chain's end, and block load count
 *   strings       the strings section
 *   volumes       the volumes section, with volume_count entries at its start
 *
 * An odd last number of metrics or trace is ignored. Metrics entries are 20 bytes in version 17 and 32 in 23, volume
 * entries 40 and 104, trace entries 12. A file above 67,108,864 bytes is refused with 3, before 4; however long the lists
 * are, no sum wraps.
 *
 * output takes the file, whose length is HS_DECLARED_SIZE in out, and keeps what it held behind it. After any refusal all
 * of output is as it was. To read the file back, hand hs_read_file that length: with more the answer would be 17.
 *
 * predecessors is as hs_read_file leaves it: the table after an acceptance, HS_NONE in every slot after a refusal, 20 too.
 *
 * Refusals are 1, 3, 4, 7 to 15 and 20. 2, 5, 6, 16, 17 and 21 cannot occur.
 *
 * Gives HS_ACCEPTED where it wrote, or HS_REFUSED.
 * out: as of the readers, see enum hs_reader_out.
 */
uint32_t hs_write_file(uint32_t version, const uint16_t *name, size_t name_length, uint32_t stored_hash, uint64_t run_time,
                       uint32_t run_count, const uint32_t *metrics, size_t metrics_length, const uint32_t *trace,
                       size_t trace_length, const uint8_t *strings, size_t strings_length, const uint8_t *volumes,
                       size_t volumes_length, uint32_t volume_count, uint32_t *predecessors, size_t places,
                       uint8_t *output, size_t output_length, uint64_t *out, size_t out_length);

/* ---- Queries about one entry ----
 *
 * Each gives 1 for a yes and 0 for a no; after a no every number in out is 0. They work on a prefix too, as far as what is
 * asked for has come, and need no predecessors.
 */

/* The bytes of the program name before its first zero unit. No where checks 1 to 4 do not pass on these bytes.
 * out: offset, length. */
uint32_t hs_program_name(const uint8_t *file, size_t length, uint64_t *out, size_t out_length);

/* The name of metrics entry i, without its zero unit. Yes exactly when checks 1 to 6 pass, i is below the count, the entry
 * and the name with its zero lie in these bytes and in their sections, and the name passes check 10.
 * out: offset, length. */
uint32_t hs_entry_name(const uint8_t *file, size_t length, uint64_t i, uint64_t *out, size_t out_length);

/* Volume i. Yes exactly when checks 1 to 6 and 8 pass, i is below the count, the whole volumes section is there and volume
 * i itself passes 14 and 15. The path is the units before its first zero unit, or all of them.
 * out: creation time (a FILETIME), serial number, file references, directories, path offset, path length. */
uint32_t hs_volume(const uint8_t *file, size_t length, uint64_t i, uint64_t *out, size_t out_length);

/* File reference k of volume i. Yes exactly when volume i can be shown and k is below its number of references.
 * out: entry index (48 bits), sequence number (16 bits). */
uint32_t hs_reference(const uint8_t *file, size_t length, uint64_t i, uint64_t k, uint64_t *out, size_t out_length);

/* The NTFS file reference of the file that metrics entry i names, 8 bytes at 24 of the entry in versions 23, 26 and 30.
 * Version 17 has no such field. Yes exactly when hs_entry_name says yes. The numbers are given as they stand; both are 0 in
 * an entry whose reference is not set.
 * out: 1 where the version has the field and 0 where it has not, entry index (48 bits), sequence number (16 bits). */
uint32_t hs_entry_reference(const uint8_t *file, size_t length, uint64_t i, uint64_t *out, size_t out_length);

/* All directories of a volume, and all its file references, in their order. Each gives how many there are, however many
 * fit: the numbers that hs_volume has, and 0 where it says no. The volume is checked once and then listed in one pass, so
 * a list of n takes no n checks as n calls of hs_reference do. To learn the count alone, hand over a list of length 0.
 *
 * A directory is the file offset of its first unit and the number of its units without the last zero; its bytes in the
 * file are twice as many. One without a unit has an offset too, two behind the start of its length field as any other's.
 * pairs of hs_directories: offset, units, offset, units, .., as many whole pairs as fit.
 * pairs of hs_references: entry index (48 bits), sequence number (16 bits), .., as many whole pairs as fit.
 * All else of both is left alone, an odd last number too, and all of it after a count of 0. */
uint64_t hs_directories(const uint8_t *file, size_t length, uint64_t volume, uint32_t *pairs, size_t pairs_length);
uint64_t hs_references(const uint8_t *file, size_t length, uint64_t volume, uint64_t *pairs, size_t pairs_length);

/* The path search. Windows adds the number of a program's /prefetch switch to the hash of its path, and 1 to 8 have an
 * effect. So a metrics entry matches with a number from 0 to 8 where it can be shown and the hash of its name plus that
 * number, mod 2 to the 32, is the stored hash. The hash is taken over the bytes of the name: XP for version 17, with its
 * end step; for 23, 26 and 30 Vista or 2008, which are equal. An entry matches with one number at most.
 *
 * The least number with which an entry matches, and the first entry that matches with it. No where there is none, or where
 * checks 1 to 6 do not pass.
 * out: entry, number. */
uint32_t hs_find_path(const uint8_t *file, size_t length, uint64_t *out, size_t out_length);

/* All that match, ordered by number and then by entry. Gives how many there are, however many fit; 0 where checks 1 to 6 do
 * not pass.
 * pairs: entry, number, entry, number, .., as many whole pairs as fit. All else of it is left alone, an odd last number
 * too. */
uint64_t hs_list_paths(const uint8_t *file, size_t length, uint32_t *pairs, size_t pairs_length);

/* The path search from another start. Windows 10 writes names that begin with \VOLUME{..} and takes the hash over the same
 * path with \DEVICE\HARDDISKVOLUME2, or another number, in place of that; hs_find_path finds none there.
 *
 * start is what stands in place of the volume's path: bytes as a name has them (UTF-16, low byte first), of any length, odd
 * or none. A metrics entry takes part exactly when it can be shown, the volume can be shown with a path of at least one
 * unit, and the name begins with that path, followed by nothing or by a backslash (5C 00): a volume whose path ends in 1
 * takes no part in names that have 10 there. It matches with a number from 0 to 8 where the hash of start followed by what
 * stands in the name behind the volume's path, plus that number, mod 2 to the 32, is the stored hash.
 *
 * The least number with which an entry matches, and the first entry that matches with it, by its index in the file. No where
 * there is none, or where checks 1 to 6 do not pass. With the volume's own path for start that is the answer of hs_find_path
 * over the entries that take part. Every name is looked at anew, as by hs_find_path: hs_cost says how much that can be.
 * out: entry, number. */
uint32_t hs_find_path_from(const uint8_t *file, size_t length, uint64_t volume, const uint8_t *start, size_t start_length,
                           uint64_t *out, size_t out_length);

/* What it takes to look at a file. Many entries may name the same text and many volumes may list the same directories, and
 * each is looked at anew: a file of 4 MB made on purpose keeps a reader busy for seconds or a minute, one of 64 MiB for
 * hours.
 *
 * Names: bytes of all names with their zero units, of the metrics entries that lie whole in these bytes and whose name
 * passes check 9, also where the strings are not there yet. Directories: for each volume entry that lies whole in these bytes
 * and in its section, as far as the volume count goes, 4 times its directory count or the volumes size, whichever is less.
 * Where no two names of an accepted file share a byte, the first is at most the strings size, and where no two directories
 * do, the second is at most the volumes size: more than that says that they do.
 *
 * A unit of names took the readers about 0.05 nanoseconds and the path search 0.35, a unit of directories the readers 0.6, on
 * the machine of docs/PERFORMANCE.md, whatever the size of the file.
 *
 * Yes exactly when checks 1 to 6 pass. One pass over the entries, so quick whatever the numbers are; no sum wraps.
 * out: names, directories. */
uint32_t hs_cost(const uint8_t *file, size_t length, uint64_t *out, size_t out_length);

/* ---- Path hashes ----
 *
 * Over a list of numbers, or over the bytes of a text. A byte counts as a number from 0 to 255, never as a signed one, and
 * every byte counts, an odd last one too. The hash of a path is that of the bytes of its UTF-16 units, two for each, low
 * byte first, without a zero unit. Vista and 2008 give the same hash of every list.
 */
uint32_t hs_hash_xp(const uint32_t *numbers, size_t count);
uint32_t hs_hash_vista(const uint32_t *numbers, size_t count);
uint32_t hs_hash_2008(const uint32_t *numbers, size_t count);
uint32_t hs_hash_xp_bytes(const uint8_t *text, size_t length);
uint32_t hs_hash_vista_bytes(const uint8_t *text, size_t length);
uint32_t hs_hash_2008_bytes(const uint8_t *text, size_t length);

/* A second engine, for many paths: it adds up each number times its power of 37, from a table of 1,024 powers, and takes the
 * plain step past 1,024 numbers. It gives the hash of Vista and 2008 of every list. A list of some ten numbers takes as long
 * by hs_hash_vista. */
uint32_t hs_hash_powers(const uint32_t *numbers, size_t count);
uint32_t hs_hash_powers_bytes(const uint8_t *text, size_t length);

/* Swaps the first p numbers of old for start, as when the volume of a path is renamed: the hash is old_hash plus (hash of
 * start less hash of those p numbers) times 37 raised to the count of numbers kept, mod 2 to the 32. Where old_hash is the
 * hash of old, that is the hash of start followed by the numbers kept; any other is taken as it is. 0, or 25 where p exceeds
 * the length of old.
 * out: hash, 0 with a refusal. */
uint32_t hs_hash_swap(uint32_t old_hash, const uint32_t *old, size_t old_count, uint64_t p, const uint32_t *start,
                      size_t start_count, uint64_t *out, size_t out_length);
uint32_t hs_hash_swap_bytes(uint32_t old_hash, const uint8_t *old, size_t old_length, uint64_t p, const uint8_t *start,
                            size_t start_length, uint64_t *out, size_t out_length);

/* ---- Catalogue lines ----
 *
 * 26 digits 0-9 A-F and a line feed: size 8, stored hash 8, run count 8, version 2, most significant digit first. The
 * version is one that the readers take, and the size lies between its H and 67,108,864. Old lines have 24 digits, size 6,
 * and a size of at most 16,777,215. They are read, told apart by their length, and not written.
 */
#define HS_CATALOGUE_LINE_LENGTH 27
#define HS_CATALOGUE_OLD_LINE_LENGTH 25

/* 0, or 18 with zeros in out where the bytes are neither such line. An old line and the new line of equal fields give the
 * same.
 * out: size, stored hash, run count, version. */
uint32_t hs_catalogue_read(const uint8_t *line, size_t length, uint64_t *out, size_t out_length);

/* 0 with the line in the first 27 bytes of output, the rest left alone; or 19 with nothing written. */
uint32_t hs_catalogue_write(uint32_t size, uint32_t stored_hash, uint32_t run_count, uint32_t version, uint8_t *output,
                            size_t length);

/* ---- The replay of a recording ----
 *
 * A recording has one reading a line: 22 digits 0-9 A-F and a line feed, being a run time (16), a board number (2) and a
 * temperature in tenths of a degree (4), most significant digit first. The temperature is 16 bits two's complement: FF38
 * is 20.0 below zero, 0514 is 130.0 above. Times are unsigned.
 *
 * hs_replay answers each program start, a run time and a board, in the order of the starts: with the reading of that board
 * whose time is the greatest not after the start's, the one later in the recording among equal times, or with none.
 * Readings may be out of time order, and starts may repeat. Start k is times[k] and boards[k]; there are as many as the
 * shorter of the two lists has.
 *
 * answers takes HS_ANSWER_LENGTH numbers for each start: 1, time, board, temperature as its 16 bits stand (0 to 65,535;
 * (int16_t)(uint16_t) makes tenths of it), or four zeros for none. As many whole answers as fit are written. All else of
 * it is left alone, also one to three last numbers that hold no whole answer.
 *
 * work takes one place for each start, to hold their order. With fewer the recording is gone through more than once, once
 * for each so many starts, and without any once for each start. Its length changes no answer. Afterwards each of its places
 * holds HS_NONE, whatever the answer.
 *
 * Gives 0, or 22 where a line is no reading, a last one without its line feed too. Then out has the number of the first such
 * line, from 1, and every answer is none. An empty line, a carriage return and a lowercase digit are bad; a recording of no
 * bytes has no line and is good.
 * out: line number, 0 where all lines are good. */
#define HS_ANSWER_LENGTH 4
#define HS_READING_LINE_LENGTH 23

uint32_t hs_replay(const uint8_t *recording, size_t length, const uint64_t *times, size_t times_length,
                   const uint8_t *boards, size_t boards_length, uint32_t *work, size_t work_length, uint64_t *answers,
                   size_t answers_length, uint64_t *out, size_t out_length);

/* ---- The replay of a recording in pieces ----
 *
 * hs_replay for a recording of any length that comes in pieces, cut anywhere, without a list that holds all of it. For the
 * starts served, begin, feeds and finish leave in answers what one hs_replay on the whole recording leaves, and finish
 * gives what it gives.
 *
 *     uint64_t state[3] = {0}, line = 0, waiting = 0;
 *     hs_replay_begin(times, .., work, .., answers, .., state, 3);
 *     for each piece, the bytes that were not used before it in front:
 *         hs_replay_feed(state[0], state[1], piece, length, times, .., work, .., answers, .., state, 3);
 *         waiting = length - state[2];
 *     hs_replay_finish(state[0], state[1], waiting, times, .., work, .., answers, .., &line, 1);
 *
 * Nothing is kept between the calls but in the caller's lists: times, boards, work and answers are handed to each of them, as
 * they are after the call before, and lines and bad are the first two numbers of its out. Served are as many starts as the
 * least of times_length, boards_length, work_length, answers_length / HS_ANSWER_LENGTH and 4,294,967,295, taken anew from the
 * lengths of each call; other starts have no answer, and their numbers are left alone. Line numbers count modulo 2 to the 64.
 *
 * hs_replay_begin puts the starts served in order: so many places of work hold their indexes in the order of board, time and
 * index. Their answers are none, four zeros each. All else of both lists is left alone.
 * Gives 0. out: lines (0), first bad line (0), starts served.
 *
 * hs_replay_feed takes in the lines of a piece, HS_READING_LINE_LENGTH bytes each. A rest of fewer bytes is not used and comes
 * first in the next piece, so at most 22 bytes wait. So many bytes that are no reading are a bad line: all of the piece is
 * then used, and from then on, with bad not 0, every piece is used and nothing else changes. work is not changed. Where one
 * of its served places is not below the number of starts served, answers is left alone, and lines, bad line and bytes used
 * are as ever. Each call looks at all these places first, so pieces should not be short beside the number of starts.
 * Gives 0. out: lines, first bad line or 0, bytes of the piece that need not come again.
 *
 * hs_replay_finish ends it. waiting is the number of bytes that were not used. The line number is bad where that is not 0,
 * whatever waits, else lines + 1 where something waits, since that line has lost its line feed. Each place of work holds
 * HS_NONE afterwards, served or not.
 * Gives 22 with the line number, and then all answers served are none; else 0, and the answers stay.
 * out: line number, 0 where all lines are good. */
uint32_t hs_replay_begin(const uint64_t *times, size_t times_length, const uint8_t *boards, size_t boards_length,
                         uint32_t *work, size_t work_length, uint64_t *answers, size_t answers_length, uint64_t *out,
                         size_t out_length);
uint32_t hs_replay_feed(uint64_t lines, uint64_t bad, const uint8_t *piece, size_t length, const uint64_t *times,
                        size_t times_length, const uint8_t *boards, size_t boards_length, const uint32_t *work,
                        size_t work_length, uint64_t *answers, size_t answers_length, uint64_t *out, size_t out_length);
uint32_t hs_replay_finish(uint64_t lines, uint64_t bad, uint64_t waiting, const uint64_t *times, size_t times_length,
                          const uint8_t *boards, size_t boards_length, uint32_t *work, size_t work_length,
                          uint64_t *answers, size_t answers_length, uint64_t *out, size_t out_length);

/* ---- The table at year's end ----
 *
 * hs_year_table makes one row for each stored hash of catalogue lines and program starts, in rising order of the hashes.
 *
 * lines are catalogue lines one behind the other, of 26 digits or of 24. Start k has the stored hash hashes[k] and the
 * answer at 4k in answers, a list as hs_replay leaves it: it has a reading exactly when number 4k is not 0, whose
 * temperature is the low 16 bits of number 4k + 3. A number past the end of answers counts as 0, and what stands behind the
 * last start's answer is not looked at. A start without a reading makes a row too.
 *
 * rows takes HS_YEAR_ROW_LENGTH numbers for each row, at the places of enum hs_year_row, as many whole rows as fit. All else
 * of it is left alone, also up to eight last numbers that hold no whole row. HS_YEAR_MOST_ROWS rows are enough for every
 * table. Lowest, highest, sum and mean are signed, in tenths of a degree: (int64_t) makes them so. The mean is the sum
 * divided by the number of readings, rounded down, below zero too: -5 over 2 is -3 with remainder 1. A hash without readings
 * has 0 for their number and for all behind it.
 *
 * Any order of the same lines and of the same starts gives the same table. No sum wraps. The table is made on the stack,
 * which has to have room for it: HS_YEAR_MOST_ROWS rows, whatever rows can hold.
 *
 * Gives 0, or a refusal, after which all of rows is as it was:
 *
 *   26  more than HS_YEAR_MOST_LINES lines, or more than HS_YEAR_MOST_STARTS starts; bytes behind the last line feed are
 *       one more line. Looked at first; the place is 0
 *   18  a line is no catalogue line. Bytes behind the last line feed are a bad line; none there are no line
 *   24  a line or a start has a stored hash that 1,024 others came before
 *
 * The lines are taken in order, and then the starts; the first at fault answers, by 18 or by 24. Its place is counted from 1
 * over the lines and on over the starts: the first start behind ten lines is at 11.
 * out: place, 0 where there is a table; number of rows of the table, however many fit, 0 with a refusal. */
enum hs_year_row {
    HS_YEAR_HASH = 0,
    HS_YEAR_LINES = 1,      /* lines with that hash */
    HS_YEAR_RUN_COUNTS = 2, /* their run counts added up */
    HS_YEAR_READINGS = 3,   /* starts with that hash that have a reading */
    HS_YEAR_LOWEST = 4,
    HS_YEAR_HIGHEST = 5,
    HS_YEAR_SUM = 6,
    HS_YEAR_MEAN = 7,
    HS_YEAR_REMAINDER = 8, /* sum less mean times readings: from 0 to one below the readings */
    HS_YEAR_ROW_LENGTH = 9
};

#define HS_YEAR_MOST_LINES 1048576
#define HS_YEAR_MOST_STARTS 1048576
#define HS_YEAR_MOST_ROWS 1024

uint32_t hs_year_table(const uint8_t *lines, size_t length, const uint32_t *hashes, size_t starts, const uint64_t *answers,
                       size_t answers_length, uint64_t *rows, size_t rows_length, uint64_t *out, size_t out_length);

/* ---- The stack of each function ----
 *
 * In bytes, measured (tests/stack): the deepest that was changed over sound and damaged files of every version, less what a
 * call takes that does nothing, with arguments that lie on the stack and with what memcpy and memset take. Frames have a
 * fixed size and no function calls itself, so neither the size nor the shape of a file makes it more. Beside the stack a
 * call uses the lists that it is handed, and nothing is allocated.
 *
 *   hs_read_prefix           1,360      hs_hash_xp                   0
 *   hs_read_file             2,112      hs_hash_vista                0
 *   hs_walk                  2,128      hs_hash_2008                 0
 *   hs_write_file              944      hs_hash_xp_bytes             0
 *   hs_places                  688      hs_hash_vista_bytes          0
 *   hs_program_name            224      hs_hash_2008_bytes           0
 *   hs_entry_name              736      hs_hash_powers               0
 *   hs_volume                  784      hs_hash_powers_bytes         0
 *   hs_reference               832      hs_hash_swap                80
 *   hs_find_path               736      hs_hash_swap_bytes          80
 *   hs_list_paths              896      hs_replay                  376
 *   hs_entry_reference         768      hs_replay_begin            152
 *   hs_directories             800      hs_replay_feed             256
 *   hs_references              800      hs_replay_finish           128
 *   hs_find_path_from          896      hs_year_table           41,192
 *   hs_cost                    768      hs_catalogue_write           8
 *   hs_interface                 0      hs_catalogue_read          120
 */

#ifdef __cplusplus
}
#endif

#endif
