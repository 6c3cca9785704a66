/* Ajuqvane: calls on Compact Binary 1.0. Link with the archive that tests/staticlib builds.
 *
 * A part is a pointer and the number of bytes from there on. Any bytes may stand in it, and no call asks more of its
 * arguments than this: what a pointer and a length name can be read, what is lent for an answer can be written too, is
 * aligned for its type and overlaps no part. Nothing is read or written through a pointer whose length is 0. No call keeps
 * a pointer, allocates or fails otherwise than by its answer. */
#ifndef AJUQVANE_H
#define AJUQVANE_H

#include <stddef.h>
#include <stdint.h>

#ifdef __cplusplus
extern "C" {
#endif

/* The VarUInt at the front of a part. count is how many numbers answer points to.
 * 0: it is whole. answer[0] is its value, answer[1] how many bytes it takes, answer[2] is 1 if no shorter form holds the
 *    value and 0 otherwise; the other numbers are as they were.
 * 1: the part ends before it does. answer[0] is how many bytes are missing, 1 to 8; with those of the part they are 9 at most. If
 *    the part has a first byte, as many bytes of any value behind the part make it whole, and fewer do not. If the part has no
 *    byte, answer[0] is 1: ask again with that byte. The other numbers are as they were.
 * 12: fewer than 3 numbers are lent, whatever the part holds. All numbers are as they were. */
uint32_t ajuqvane_varuint(const uint8_t *part, size_t length, uint64_t *answer, size_t count);

/* 1 if the part is UTF-8 by RFC 3629, which a part of no bytes is; 0 otherwise. */
uint32_t ajuqvane_is_text(const uint8_t *part, size_t length);

/* 1 if the parts have the same length and the same bytes, 0 otherwise. */
uint32_t ajuqvane_are_equal(const uint8_t *a, size_t a_length, const uint8_t *b, size_t b_length);

/* 1 if Float32 holds the Float64 of these bits exactly, 0 otherwise. It holds no NaN. */
uint32_t ajuqvane_float32_holds(uint64_t bits);

/* The bits of the Float64 that the Float32 of these bits widens to. A NaN keeps its sign, and its fraction moves up 29 bits. */
uint64_t ajuqvane_widen(uint32_t bits);

/* What is wrong with a payload, of what is asked. modes is the sum of names 1, format 2 and padding 4; other bits are ignored, and the
 * bounds are checked whatever is asked. All three together are strict.
 * 0: nothing of what is asked.
 * Otherwise the first of these that is met in the order of the bytes, alone (8 before all others):
 *   1 bytes end early, a size does not fit, a counted item is missing, or bytes are left in a container
 *   2 an unknown ID, or other flag bits than the place asks: C0 hex for a field of an object, 40 for an item of an array, 80 for the byte that
 *     all fields of a uniform object share; none for the byte that all items of a uniform array share, and for the top field
 *   4 a field at depth 33
 *   8 more than 65536 bytes
 *   2048 a uniform object without a field, a uniform array without an item, or one of nulls or truth values
 * or, if none of these is met, the sum of those that are met and asked:
 *   16 (names) two fields of one object have equal names
 *   32 (names) an empty field name
 *   64 (format) a VarUInt, wherever it stands, that is longer than it has to be
 *   128 (format) an integer below the least signed 64-bit integer
 *   256 (format) a Float64 that Float32 holds exactly
 *   512 (format) a string, a field name or a custom's name that is not UTF-8
 *   1024 (format) an object or array that has to be uniform and is not written so
 *   4096 (padding) bytes after the top field
 * With names asked, the time grows with the bytes, whatever names stand in them: names are noted and divided in a table of at most 22016
 * numbers on the stack, of which the call takes at most 192 KiB in all. */
uint32_t ajuqvane_validate(uint32_t modes, const uint8_t *payload, size_t length);

/* The same mask, with a table of `count` numbers that is lent in place of that on the stack. Any table serves, also an empty one; it holds zeros
 * afterwards, whatever it held before. It serves best if it has a number for each field of an object, and 16 more for each object around that one, for
 * every object: then names are looked at twice at most. With fewer, the names of a large object are passed over once for each part of them that the table
 * holds: 10,000 names in a table of 100 numbers are passed over some 400 times. Take this call where the stack is small. */
uint32_t ajuqvane_validate_with(uint32_t modes, const uint8_t *payload, size_t length, uint64_t *table, size_t count);

/* The reading calls.
 *
 * A place says where a field stands: its kind (the ID, without flags), the start and the end of what it holds, counted in
 * bytes from the front of the payload, and its depth, 1 for the top field. A caller keeps a place as these four numbers. They
 * may be any numbers at all, from this payload, from another or made up: every call checks its place and says by a fault what
 * is wrong with it. Nor need the payload have been validated: a call looks at fields only up to their contents, and does not
 * hold the items of an array to its count.
 *
 * Every call answers one of these numbers:
 *   0 it has an answer, which stands in the first of the lent numbers as the call says; the others are as they were
 *   1, 2, 4, 8, 2048 a fault, numbered as in a mask: of the place, or met by the step
 *   3 no more: the contents of the container end here
 *   5 not there: no field of the object has the name
 *   6 wrong kind: the place's kind is not one that the call reads
 *   7 out of range: the integer is not one that the call can answer exactly
 *   12 fewer numbers are lent than the call may answer, whatever else is wrong
 * If the answer is not 0, all lent numbers are as they were. count is how many numbers answer points to.
 *
 * The check of a place, whose faults come in this order: 8 more than 65536 bytes; 1 start past end, or end past the payload;
 * 4 depth 0 or past 32; 2 an unknown kind; 1, 2 or 2048 for what stands before the contents, as if the payload stopped at end;
 * 1 if what the field holds does not end at end. */

/* The check of a place, by itself: 0 or its fault. It is lent no numbers. */
uint32_t ajuqvane_check(const uint8_t *payload, size_t length, uint8_t kind, size_t start, size_t end, uint32_t depth);

/* The top place, from which all others are reached.
 * 0: answer[0] to answer[3] are its kind, start, end and depth.
 * 1, 2, 8, 2048, 12. Asks for 4 numbers. */
uint32_t ajuqvane_top(const uint8_t *payload, size_t length, uint64_t *answer, size_t count);

/* A step to the next field of an object, or item of an array. some is 0 for the first one, and last is then ignored; otherwise
 * last is the end of the place that the last step gave.
 * 0: answer[0] to answer[3] are the field's kind, start, end and depth. Its name stands in the payload from answer[4] to
 *    answer[1], its start; an item's is empty.
 * 3 after the last one; 6 on a kind that is no container; 1 also where last is outside the contents; 4 also for a field at
 * depth 33; 2, 8, 2048, 12. Asks for 5 numbers. */
uint32_t ajuqvane_step(const uint8_t *payload, size_t length, uint8_t kind, size_t start, size_t end, uint32_t depth,
                       uint32_t some, size_t last, uint64_t *answer, size_t count);

/* A place's view: what the field holds, after its size if it has one. A string's is its text, an integer's its VarUInt; an
 * array's begins with its count, a uniform object's with the byte that its fields share (an ID and 80 hex), a custom's with its id or with its
 * name's length.
 * 0: the view stands in the payload from answer[0] to answer[1].
 * 1, 2, 4, 8, 2048, 12. Asks for 2 numbers. */
uint32_t ajuqvane_view(const uint8_t *payload, size_t length, uint8_t kind, size_t start, size_t end, uint32_t depth,
                       uint64_t *answer, size_t count);

/* The first field of an object that has this name, byte by byte. Fields before it are stepped over, those after it not looked
 * at. The name may be a part of the payload, and may be empty.
 * 0: answer[0] to answer[3] are the field's kind, start, end and depth.
 * 5 if there is none; 6 on a kind that is no object; a fault also where a step on the way meets one; 12. Asks for 4 numbers. */
uint32_t ajuqvane_lookup(const uint8_t *payload, size_t length, uint8_t kind, size_t start, size_t end, uint32_t depth,
                         const uint8_t *name, size_t name_length, uint64_t *answer, size_t count);

/* A number as a double, exact or refused: a Float32 as ajuqvane_widen has it, a Float64 as it is, an integer from -2^53 to 2^53.
 * 0: answer[0] is the double's 64 bits.
 * 7 for any other integer; 6 for any other kind; 1, 2, 4, 8, 2048, 12. Asks for 1 number. */
uint32_t ajuqvane_double(const uint8_t *payload, size_t length, uint8_t kind, size_t start, size_t end, uint32_t depth,
                         uint64_t *answer, size_t count);

/* An integer as a signed number of 64 bits.
 * 0: answer[0] is the integer in two's complement.
 * 7 below -2^63 or from 2^63 up; 6 if it is no integer; 1, 2, 4, 8, 2048, 12. Asks for 1 number. */
uint32_t ajuqvane_signed(const uint8_t *payload, size_t length, uint8_t kind, size_t start, size_t end, uint32_t depth,
                         uint64_t *answer, size_t count);

/* An integer as an unsigned number of 64 bits.
 * 0: answer[0] is the integer.
 * 7 below 0; 6 if it is no integer; 1, 2, 4, 8, 2048, 12. Asks for 1 number. */
uint32_t ajuqvane_unsigned(const uint8_t *payload, size_t length, uint8_t kind, size_t start, size_t end, uint32_t depth,
                           uint64_t *answer, size_t count);

/* The ticks of a DateTime or a TimeSpan.
 * 0: answer[0] is the ticks in two's complement.
 * 6 for any other kind; 1, 2, 4, 8, 2048, 12. Asks for 1 number. */
uint32_t ajuqvane_ticks(const uint8_t *payload, size_t length, uint8_t kind, size_t start, size_t end, uint32_t depth,
                        uint64_t *answer, size_t count);

/* The writer: the encoding of a list of frames, which stand one after another. A frame is a kind (an ID without flags); inside
 * an object a VarUInt, the name's length, and the name; and then, if it is no container, the payload. 02 opens an object and 04
 * an array; 00 closes the innermost and is a whole frame. 03 and 05 are no kinds here: the writer finds out what has to be
 * uniform, and which Float64 is written as a Float32.
 *
 * The encoding goes to out. work is lent one number for each container, answer one at least; work_count and count are how many
 * they point to. What is lent to be written overlaps nothing else.
 * 0: it is written. answer[0] is its length; the bytes of out after it are as they were. The work numbers are the sizes of the
 *    containers as written, in order of opening, and 0 after these.
 * 1 to 11: it is refused. answer[0] is a place in the list: where the frame starts, unless another is said. All bytes of out are
 *    as they were, and all work numbers are 0.
 * 12: it is refused because no number is lent for the answer, whatever else is wrong. All bytes of out are as they were, and all
 *    work numbers are 0.
 * Numbers of answer after the first are as they were.
 *
 * The refusals in the order in which they are looked for; 8 to 4, and 2 and 5 again, at each frame in turn:
 *   9 the list has more than 65536 bytes; place 0
 *   8 a frame after the top field is complete
 *   7 a 00 where no container is open
 *   6 a field at depth 33
 *   2 an unknown kind; then a name that is cut, or whose length is longer than it has to be
 *   3 an empty field name
 *   5 a field name that is not UTF-8
 *   4 a field name that the object has already
 *   2 a payload that is cut, a custom's id or name that passes its size, a VarUInt that is longer than it has to be, or an integer
 *     below the least signed 64-bit integer
 *   5 a string or a custom's name that is not UTF-8
 *   1 the list ends with no field, or with a container open; place the list's length
 *   10 fewer work numbers than containers; place 0
 *   11 an encoding longer than out, or than 65536 bytes; place 0
 * The time grows with the bytes, whatever names stand in them. The call takes at most 192 KiB of the stack, however long the list is. */
uint32_t ajuqvane_write(const uint8_t *list, size_t list_length, uint8_t *out, size_t out_length, uint32_t *work,
                        size_t work_count, uint64_t *answer, size_t count);

#ifdef __cplusplus
}
#endif

#endif
