/* Checks a picture of a key card. Link with the static library of the crate pictures_c. */
#ifndef ZUKHELONDO_CHECK_H
#define ZUKHELONDO_CHECK_H

#include <stddef.h>
#include <stdint.h>

#ifdef __cplusplus
extern "C" {
#endif

/* Whether the length bytes at picture are the picture of a card of key words, mask bytes or dial
 * numbers: 0 for a sound picture, otherwise the number of the first refusal that holds.
 *
 *   20  there are fewer than nine bytes
 *   21  the format is not 1
 *   22  the kind code is not 1, 2 or 3
 *   23  the harbours are not 1 to 10, the threshold is not 1 to the harbours, the components are
 *       not 1 to 8, or the harbour is not 1 to the harbours
 *   24  the length is not that of such a card's picture
 *   25  a slip's code is no element's
 *   26  a bit behind the codes is not 0
 *
 * It reads those bytes and nothing else, writes nothing, allocates nothing and always returns. The
 * caller sees to it that picture is not null, also where length is 0, and that length bytes can be
 * read there and nobody writes to them meanwhile. */
uint32_t zukhelondo_check(const uint8_t *picture, size_t length);

#ifdef __cplusplus
}
#endif

#endif
