/*
 * Pages of a packed memory under the code of a recipe, for the firmware of a player.
 *
 * A recipe is a few bytes that order the code of a page: how many cells it has, how many bytes it holds, and its reach. The memory is a
 * buffer of the caller's, page after page: a row of value bits and then a row of mark bits, a bit for each cell, each row in whole
 * bytes, the first cell most significant. A mark of 1 says that the cell is blank: it can no longer be read. Bits past a row's cells are
 * ignored and never change.
 *
 * Harm is 2 for each readable cell that differs from what was written and 1 for each blank cell. While a page's harm is below the reach, it
 * reads back what was written. Every call is answered for buffers of any content and length, ends, stays in its buffers, uses no heap
 * and keeps nothing from call to call, so that it may be called from any thread, one call at a time for each memory. A read or a
 * patrol was seen to need 160 kilobytes of stack, and a write 43.
 *
 * The answer of a call, or minus the number of a refusal. Refusals are looked for in this order, and a refused call changes nothing:
 *
 *    1  the recipe ends inside or before a field
 *    2  unknown chain byte
 *    3  bytes left over after the last stage; looked for after 1, 2, 4, 5 and 6
 *    4  no columns, or more than 4,096 cells
 *    5  unknown kind of code, or an extension at odd width
 *    6  message length or columns do not fit the kind of code
 *   21  no page, more than 65,535 pages, or bytes_len is not that of so many pages
 *   19  a page of this recipe holds no byte
 *   17  page is not below pages
 *   10  payload_len is not the bytes of a page
 *   12  no codeword is nearer to the page than the reach (read and patrol)
 *   20  the nearest codeword sets a bit that no write sets (read and patrol)
 *
 * No pointer may be null: one whose length is 0 points to any byte, and nothing is read or written there. recipe, bytes and payload must
 * not overlap. While a call runs, nothing else may write to them, or read bytes or the payload of a read.
 */
#ifndef PIZQAROD_H
#define PIZQAROD_H

#include <stddef.h>
#include <stdint.h>

#ifdef __cplusplus
extern "C" {
#endif

enum {
    PIZQAROD_RECIPE_ENDS = 1,
    PIZQAROD_UNKNOWN_CHAIN = 2,
    PIZQAROD_BYTES_LEFT_OVER = 3,
    PIZQAROD_COLUMNS = 4,
    PIZQAROD_STAGE_KIND = 5,
    PIZQAROD_STAGE_SIZE = 6,
    PIZQAROD_WRONG_LENGTH = 10,
    PIZQAROD_NO_CODEWORD = 12,
    PIZQAROD_PAGE_OUT_OF_RANGE = 17,
    PIZQAROD_UNFIT_MEMORY = 19,
    PIZQAROD_SPARE_BIT_SET = 20,
    PIZQAROD_UNFIT_MEDIUM = 21
};

/* Writes a payload to a page. Blank cells stay blank. Answers how many cells of the page are blank. */
int32_t pizqarod_write(const uint8_t *recipe, size_t recipe_len, uint32_t pages, uint8_t *bytes, size_t bytes_len,
                       uint32_t page, const uint8_t *payload, size_t payload_len);

/* Reads a page into a payload. The bytes are passed as those of the other calls and do not change. Answers the page's harm. */
int32_t pizqarod_read(const uint8_t *recipe, size_t recipe_len, uint32_t pages, uint8_t *bytes, size_t bytes_len,
                      uint32_t page, uint8_t *payload, size_t payload_len);

/* Mends a page: puts back the codeword that it is read as. Blank cells stay blank. Answers the harm that the page had. */
int32_t pizqarod_patrol(const uint8_t *recipe, size_t recipe_len, uint32_t pages, uint8_t *bytes, size_t bytes_len,
                        uint32_t page);

#ifdef __cplusplus
}
#endif

#endif
