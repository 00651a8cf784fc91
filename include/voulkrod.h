/* Voulkrod for C: a sheet's types, constants and globals declared in SPIR-V, and a
 * module's words listed.
 *
 * `tests/staticlib`, run at the root of the repository, proves the code and writes
 * target/staticlib/libexports.a, for programs on x86-64 Linux to link. It needs memset
 * and nothing else. crates/exports_c is the source of it, over crates/exports.
 * docs/SHEET.md says what a sheet is, byte by byte, what each refusal means, and what to
 * do about it.
 *
 * What every call asks of its caller:
 *   sheet    points to `length` bytes that nothing writes to during the call. It is not
 *            null, even where length is 0. The bytes are any bytes, at any alignment,
 *            and length may be any: over 16,384 bytes are refused like any wrong sheet.
 *   words    points to `words_length` words that nothing else reads or writes during the
 *            call. It is not null and is aligned to 4 bytes, even where words_length is
 *            0, and no word of it lies among the bytes of the sheet.
 *   list     as words, and no word of it lies among the words that are listed.
 *   stack    VOULKROD_STACK bytes are enough. Measured were 21 KB for sheets of up to 128
 *            bytes, 56 KB for up to 512, 124 KB for up to 1,280, 270 KB for up to 4,096 and
 *            0.71 MB for longer ones. On less, a call ends at the stack's guard page.
 *            Nothing is allocated elsewhere.
 *
 * The functions have no state: calls may go on in several threads at once, on one sheet
 * too. They always return, and the same arguments give the same answer.
 *
 * What is said below of answers and words is proved of the number returned, of every sheet
 * and every buffer (`CheckExported`, `DeclareExported`, `WrappedExported` and
 * `ListExported` in crates/exports/specs/Numbers.antt; how long a list may be: `StaysShort`
 * in crates/definition/specs/Listing.antt), but for the longest module that was seen.
 */
#ifndef VOULKROD_H
#define VOULKROD_H

#include <stddef.h>
#include <stdint.h>

#ifdef __cplusplus
extern "C" {
#endif

/* Enough stack for any call, in bytes; tests/compiled/run tests that it is. */
#define VOULKROD_STACK (1 << 20)

/* The refusals of Check, in the order in which they are tested:
 *    1  the sheet is under 6 bytes or over 16,384
 *    2  its version byte is not 1
 *    3  a flag bit above bit 1
 *   and then of each record, the first that is refused deciding:
 *    4  fewer than 2 bytes left for its length, or a length of 0 or past the sheet's end
 *    5  an unknown tag
 *    6  a rank lower than the record before, or a second Available
 *    7  one too many of its kind
 *    8  its body ends before its fields or after them
 *    9  a name is not UTF-8 or holds a zero byte
 *   10  a field outside its values
 *   11  a reference to an entry not already read
 *   12  a type, or a remapped group and binding, that is there already
 *   13  unfit: a constant or a global that does not fit its type or its space
 *   14  a capability is needed that is not available
 *   and after all records:
 *   15  the bound would pass 4,194,303
 * Declare and Wrapped refuse with these too, and each with one more, 16 and 17.
 */
#define VOULKROD_FIT 0
#define VOULKROD_NOT_WRAPPED 256
#define VOULKROD_WRAPPED 257
#define VOULKROD_LISTED 256

/* Check: VOULKROD_FIT, or the number of the refusal, 1 to 15. */
uint32_t voulkrod_check(const uint8_t *sheet, size_t length);

/* Declare: writes the module's words. Where it does, the answer has the bound in its high
 * half, which is then not 0, and the count of words in its low half; the words past the
 * count keep their values. Else the answer is the number of the refusal, 1 to 16, and no
 * word is changed; 16 where the buffer is shorter than the module. The longest module
 * that was seen has 43,744 words.
 */
uint64_t voulkrod_declare(const uint8_t *sheet, size_t length, uint32_t *words, size_t words_length);

/* Wrapped, of the global with this index, from 0: VOULKROD_NOT_WRAPPED, VOULKROD_WRAPPED,
 * or the number of the refusal, 1 to 15, or 17 where there is no such global. Any index
 * may be asked for.
 */
uint32_t voulkrod_wrapped(const uint8_t *sheet, size_t length, size_t index);

/* List, of any words: first the five words of the header; then for each instruction its
 * opcode, its result id (0 if none), the count of its other words, and those words, all
 * but the first one and the result id. Where the words are listed, the answer is
 * VOULKROD_LISTED and the list's length together; the words past the list keep their
 * values. A list has fewer than twice as many words as it was made of. Else the answer is
 * the number of the refusal, below VOULKROD_LISTED, and no word is changed:
 *   18  fewer than five words, or the first, second or fifth is not a module's
 *   and then of each instruction, the first that is refused deciding:
 *   19  its word count is 0 or passes the end of the words
 *   20  it is none that Declare writes, or not with so many words
 *   and last:
 *   16  the list is longer than the words that are lent for it
 * Here `words` are only read, and nothing writes to them during the call.
 */
uint64_t voulkrod_list(const uint32_t *words, size_t words_length, uint32_t *list, size_t list_length);

#ifdef __cplusplus
}
#endif

#endif
