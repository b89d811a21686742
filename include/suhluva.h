/* Suhluva: judges the files on the chip of a passport or identity card. For C99 and C++.
 *
 * The library takes a card's files as one row of bytes, the image, and a profile, which says what the card is meant to
 * be. It gives a sheet of SUHLUVA_LINES lines, each about one case and one file: the case passes, fails at a place, is
 * not applicable, or is blocked by another that failed. An unlawful profile or a malformed image is refused by number.
 *
 * Library. Link libc_api.a. It is made for x86-64 Linux and processors with SSE4.2 (x86-64-v2), and needs memcpy and
 * memset of the C library.
 *
 * Files. A card has 18, by number: EF.COM is 0, the data groups DG1 to DG16 follow, and EF.SOD is 17. Each should be
 * one object, the template, with a tag of its own (hexadecimal), from file 0 on:
 *     60 61 75 63 76 65 66 67 68 69 6A 6B 6C 6D 6E 6F 70 77
 * Those of files 1 to 16 are the tags of data groups.
 *
 * Image. A row of fields, one directly after the other:
 *     the file's number, 0 to 17                      1 byte
 *     the file's size, 0 to 32767, high byte first    2 bytes
 *     the file                                        as many bytes as the size says
 * Each field has a greater number than the one before it, and nothing stands behind the last. A file that stands in no
 * field is absent; a field of size 0 is a file that is present and empty. The image of 0 bytes is a card without files.
 * Example: 00 00 01 AA 0D 00 00 has EF.COM with the one byte AA, and an empty DG13; the other files are absent.
 *
 * Profile. The kind says how the machine readable zone is laid out: 1 is TD1, 2 is TD2, 3 is TD3. The declared set says
 * which data groups the card shall have: bit 0 (0x0001) is DG1, bit 15 (0x8000) is DG16. It must have DG1 and DG2, so
 * 0x0003 is the smallest. EF.COM, EF.SOD and the declared data groups are required; every other file shall be absent.
 *
 * Place. Where a case fails: a byte of the file, counted from the file's start, the first one being 0. It may be the
 * file's size, one past the last byte. A line that does not fail has place 0, and a case may fail at 0: look at the
 * state first.
 *
 * docs/RULES.md has each rule in full: objects in section 5, cases in section 7, the zone, dates and check digits in 8.
 */
#ifndef SUHLUVA_H
#define SUHLUVA_H

#include <stddef.h>
#include <stdint.h>

#ifdef __cplusplus
extern "C" {
#endif

/* How many lines a sheet has: cases 1 to 3 of file 0, of file 1, .. of file 17; then cases 4 to 8 of file 0, 9 to 20 of
 * file 1, 21 to 23 of file 2 and 24 of file 17. By their indices in the arrays, as suhluva_line tells them:
 *     index      cases      of
 *     0 to 53    1 to 3     file 0, then of file 1, .. of file 17, three lines each
 *     54 to 58   4 to 8     file 0, EF.COM
 *     59 to 70   9 to 20    file 1, DG1
 *     71 to 73   21 to 23   file 2, DG2
 *     74         24         file 17, EF.SOD
 */
#define SUHLUVA_LINES 75

/* How many bytes an image has at most: 18 fields, each of 3 bytes and a file of 32767 bytes. A longer row is
 * malformed. */
#define SUHLUVA_LARGEST_IMAGE 589860

/* The kinds of a profile. */
enum { SUHLUVA_TD1 = 1, SUHLUVA_TD2 = 2, SUHLUVA_TD3 = 3 };

/* What each case asks for. An object is a tag, a length in its shortest form, and a value; it is nested if the bit 0x20
 * of its first tag byte is set. The template is the one object that a file is. Tags and bytes are hexadecimal here.
 * Every file:
 *      1  it is present if it is required, and absent if not
 *      2  it is one template: its tag is the file's, its length can be read, and it ends where the file ends
 *      3  the template's value is a row of whole objects, and so is that of each nested object, down to level 16
 * EF.COM, file 0:
 *      4  the template holds 5F01, 5F36 and 5C, in this order, and nothing else
 *      5  the value of 5F01 is "0107"
 *      6  the value of 5F36 is "040000"
 *      7  5C has tags of data groups alone, and no tag twice
 *      8  5C names each declared data group and no other, in any order
 * DG1, file 1:
 *      9  5F1F, the zone, is all that the template holds; its value has 90 bytes for TD1, 72 for TD2, 88 for TD3
 *     10  the zone has letters A to Z, digits and fillers (<) only
 *     11  code: begins with P (TD3) or with A, C or I; the second is a filler or a letter, in TD1 and TD2 not V
 *     12  issuer: three letters, or fillers in place of the last or of the last two
 *     13  name: a letter first; between two letters no filler or one, at one point at most two; then any fillers
 *     14  number: no filler first, and the right check digit behind it
 *     15  nationality: as the issuer
 *     16  birth: a date with the right check digit
 *     17  sex: M, F or a filler
 *     18  expiry: a date with the right check digit
 *     19  optional data of TD3: the check digit is right, or all are fillers, the check digit too
 *     20  the composite check digit is right
 * DG2, file 2:
 *     21  the template holds one 7F61 and nothing else; this holds one 02, whose value is one byte from 1 to 9, then so
 *         many 7F60, and nothing else
 *     22  in each 7F60 stand one A1 and behind it one 5F2E with at least one byte, and nothing else
 *     23  each A1 holds 87 with 01 01 and 88 with 00 08; it may hold 80 (2 bytes), 81 (1 to 3), 82 (1), 83 (7), 85 (8)
 *         and 86 (2), and nothing else; the tags rise
 * EF.SOD, file 17:
 *     24  the template holds one 30 and nothing else
 * No case looks at hashes or signatures, into a picture or into the value of DG13.
 *
 * Where they fail. Case 1 at 0. Case 2 at 0 for the tag, at 1 for the length, else at the smaller of where the template
 * ends and where the file ends. Case 3 where the first broken object starts. Cases 4, 9, 21 and 24 at the start of the
 * template's value; 5, 6 and 8 at the start of the value of 5F01, 5F36 and 5C. Cases 7 and 10 at the first wrong byte,
 * which of two equal tags is the later. Cases 11 to 19 at the start of their field, also where only its check digit is
 * wrong; 20 at the composite. Case 22 at the tag of the first wrong 7F60, 23 at that of the first wrong A1.
 *
 * The states. Cases 2 and 3 do not apply to a file that is neither required nor there, whatever else is wrong;
 * nor does case 3 to DG13, or case 19 in TD1 and TD2. Of the other lines, a failure of case 1 to 4, 9, 10, 21 or 22
 * blocks those of its file with a higher number, and a failure of case 7 blocks case 8. No line of a sheet made here
 * is open. */
enum {
    SUHLUVA_OPEN = 0,
    SUHLUVA_PASS = 1,
    SUHLUVA_FAIL = 2,
    SUHLUVA_NOT_APPLICABLE = 3,
    SUHLUVA_BLOCKED = 4
};

/* The lines of a sheet counted by their state. Together they are SUHLUVA_LINES. */
struct suhluva_counts {
    uint32_t pass;
    uint32_t fail;
    uint32_t not_applicable;
    uint32_t blocked;
};

/* What a call answers, and nothing else. */
enum {
    SUHLUVA_DONE = 0,
    SUHLUVA_NO_PROFILE = 1,     /* unlawful: the kind is not 1 to 3, or the declared set lacks DG1 or DG2 */
    SUHLUVA_NOT_THERE = 2,      /* there is no such line */
    SUHLUVA_MALFORMED_IMAGE = 8 /* a field is cut off, has too large a size, or a number above 17 or out of order */
};

/* All calls. The library has no state, keeps no pointer and allocates nothing. A call returns whatever the bytes are,
 * and the same arguments give the same answer. Calls may run at the same time unless one writes what another reads or
 * writes. What a call writes need not be set before.
 * The caller makes sure of these, and nothing checks them:
 * - no pointer is null, not even that to an image of 0 bytes, and each is aligned as its type asks;
 * - the image has image_len bytes, and nobody changes them during the call;
 * - states and places have SUHLUVA_LINES elements; any behind them are not touched;
 * - states, places, *counts, *position, *case_number and *file overlap neither each other nor the image;
 * - kind and declared fit their types: C cuts a larger number, often without a word, and 259 becomes kind 3. */

/* Checks an image. It answers
 * SUHLUVA_DONE             nothing is written;
 * SUHLUVA_MALFORMED_IMAGE  *position is where its first broken field starts, in bytes from the image's start. */
uint32_t suhluva_check_image(const uint8_t *image, size_t image_len, uint64_t *position);

/* Tells which case and which file the line at an index of the arrays is of. It answers
 * SUHLUVA_DONE             *case_number and *file are written;
 * SUHLUVA_NOT_THERE        the index is SUHLUVA_LINES or more, and nothing is written. */
uint32_t suhluva_line(uint32_t index, uint8_t *case_number, uint8_t *file);

/* Makes the sheet of an image under a profile. It checks the profile, then the image, and answers
 * SUHLUVA_DONE             state and place of each line and *counts are written, *position is not; the card is clean if
 *                          counts->fail is 0;
 * SUHLUVA_NO_PROFILE       nothing is written;
 * SUHLUVA_MALFORMED_IMAGE  *position is written as by suhluva_check_image, and nothing else is. */
uint32_t suhluva_sheet(uint8_t kind, uint16_t declared, const uint8_t *image, size_t image_len,
                       uint8_t states[SUHLUVA_LINES], uint64_t places[SUHLUVA_LINES], struct suhluva_counts *counts,
                       uint64_t *position);

#ifdef __cplusplus
}
#endif

#endif
