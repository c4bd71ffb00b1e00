/* Pailinstant for programs in C and C++. `rt lib` in crates/pailinstant writes the archive to link: crates/pailinstant/out/libpailinstant.a.
 *
 * A pointer is to as many bytes or numbers as the length beside it says; two of one call must not overlap. No function keeps one.
 * docs/PLACER.md shows how a list is read, and sheets are added to it. */
#ifndef PAILINSTANT_H
#define PAILINSTANT_H

#include <stddef.h>
#include <stdint.h>

#ifdef __cplusplus
extern "C" {
#endif

/* The bytes of the longest list: this much room is always enough for pailinstant_map and for all that adds sheets to a list. */
#define PAILINSTANT_LONGEST 60819

/* The bytes of the longest list and a slack line for each of its tables: this much room is always enough for pailinstant_map_fast. */
#define PAILINSTANT_LONGEST_FAST 71219

/* The numbers of the longest list: this much room is always enough for pailinstant_read_list. */
#define PAILINSTANT_NUMBERS 8003

/* Of an answer of pailinstant_check_list or pailinstant_read_list other than 0: the refusal's number, and the line, from 0. */
#define PAILINSTANT_REFUSAL(answer) (((answer) >> 16) & 65535u)
#define PAILINSTANT_LINE(answer) ((answer) & 65535u)

/* Of a refusal of a call that adds or reserves sheets: besides its number its place, and the sheet's position in the set. */
#define PAILINSTANT_PLACE(answer) ((answer) & 65535u)
#define PAILINSTANT_POSITION(answer) ((answer) >> 32)

/* Of an answer of pailinstant_reserve: the number of tables set aside, 0 for a refusal, and the output net that they are for. */
#define PAILINSTANT_RESERVED(answer) ((answer) >> 48)
#define PAILINSTANT_NET(answer) ((answer) & 65535u)

/* Writes what the mapping program prints for the input, the list or one line of a refusal, to the front of `output`, and gives how many
 * bytes that is. Where the room is too small it writes nothing and gives 0. */
size_t pailinstant_map(const uint8_t *input, size_t input_len, uint8_t *output, size_t output_len);

/* The same of the mapping program for the fewest levels, map_fast: its opening line has the wanted level as a third field, and after the list
 * stands a line with the slack of each sheet's output net. */
size_t pailinstant_map_fast(const uint8_t *input, size_t input_len, uint8_t *output, size_t output_len);

/* Writes what the refusal `number` means, as plain words without an end mark, to the front of `output`, and gives how many bytes that is:
 * at most 128. Where the room is too small, or the number is no refusal, it writes nothing and gives 0. */
size_t pailinstant_refusal(uint32_t number, uint8_t *output, size_t output_len);

/* Gives 0 where the text is the list of a sound part, else 65536 x the refusal's number (2, 3, 31 or 32) + the line. */
uint32_t pailinstant_check_list(const uint8_t *text, size_t text_len);

/* The same, and where the text is a list it writes 3 + 10 x used numbers to the front of `numbers`: K, capacity, used, and for each table
 * the net that it drives (0 for none), its input count u, six inputs (those from u up are 0), its truth table and its level, 1 plus the
 * greatest among the tables and driven nets that it reads. Where the text is a list and the room is too small it gives 65536 x 14. A
 * refused call writes nothing. */
uint32_t pailinstant_read_list(const uint8_t *text, size_t text_len, uint64_t *numbers, size_t numbers_len);

/* Adds a set of sheets, 1 to 16, to the part whose list is given: all of them or none. The set is one text, and `lengths` has the bytes of
 * each sheet in it. Where the set is accepted it writes the list of the part with the sheets added to the front of `output`, and gives how
 * many bytes that is, 19 to 60819. Else it writes nothing, and gives 2^32 x the position + 65536 x the refusal's number + the place, which
 * is 65536 or more: 2, 3, 31 or 32 of the list, with its line as the place; then 33 for what is no set; then the first refusal of a sheet,
 * with its position in the set, from 1, and its line, from 1, as the place; last 14 where the room is too small. A position or place that
 * is not named here is 0. */
uint64_t pailinstant_add_set(const uint8_t *list, size_t list_len, const uint8_t *text, size_t text_len, const uint32_t *lengths,
                             size_t lengths_len, uint8_t *output, size_t output_len);

/* A reservation sets tables of a part aside for a sheet. A list does not show it, so a program keeps two numbers beside the list:
 * `reserved`, the number of tables set aside, and `net`, the output net that they are for, both 0 where nothing is reserved. Each of the
 * calls below takes the list with its two numbers. A refusal is 2^32 x the position + 65536 x the number + the place, the position 0 but for
 * a sheet of a set: first those of the list, with its line as the place; then 20 where the two numbers are no reservation of the list's
 * part; then 35, 36 or 33 and those of a sheet, as said below; last 14 where the room is too small. A place that is not named is 0. A
 * refused call writes nothing and leaves the reservation as it is. */

/* Sets aside as many tables as the sheet needs, takes none, and gives 2^48 x their number + the sheet's output net, without its sign: these
 * are the two numbers from now on, and the list stays as it is. A refusal is below 2^48: 35 where a reservation is open; then what refuses
 * the sheet in a set, with its line, from 1, as the place. */
uint64_t pailinstant_reserve(const uint8_t *list, size_t list_len, uint16_t reserved, uint16_t net, const uint8_t *text, size_t text_len);

/* Adds the sheet, which may use the tables set aside and all others that are not used, and closes the reservation: both numbers are 0 from
 * now on. It writes the list of the part with the sheet added to the front of `output`, and gives how many bytes that is. A refusal is 65536
 * or more: 36 where none is open; then the sheet's own, with its line as the place; 36 where its output net is not the reserved one; then
 * 21, 22 or 23. The sheet that was reserved is not refused 23, where every list since came with its two numbers as a call gave them. */
uint64_t pailinstant_commit(const uint8_t *list, size_t list_len, uint16_t reserved, uint16_t net, const uint8_t *text, size_t text_len,
                            uint8_t *output, size_t output_len);

/* Closes the reservation, and gives 0: both numbers are 0 from now on, and the list stays as it is. A refusal is 65536 or more: 36 where
 * none is open. */
uint64_t pailinstant_withdraw(const uint8_t *list, size_t list_len, uint16_t reserved, uint16_t net);

/* As pailinstant_add_set, beside the reservation, which stays as it is: the sheets find only the tables that are neither used nor set
 * aside. */
uint64_t pailinstant_add_set_beside(const uint8_t *list, size_t list_len, uint16_t reserved, uint16_t net, const uint8_t *text,
                                    size_t text_len, const uint32_t *lengths, size_t lengths_len, uint8_t *output, size_t output_len);

#ifdef __cplusplus
}
#endif

#endif
