/* What libtiff and spandsp make of the same pages. Each call answers the octets that it put into `out`. */
#ifndef OTHERS_H
#define OTHERS_H

#include <stdbool.h>
#include <stddef.h>
#include <stdint.h>

void others_begin(void);
size_t libtiff_read(const uint8_t *text, size_t size, uint16_t width, uint32_t rows, bool two_dimensional, uint8_t *out, size_t room);
size_t libtiff_write(const uint8_t *pixels, uint16_t width, uint32_t rows, bool two_dimensional, uint8_t *out, size_t room);

/* spandsp has the first bit of an octet in its least significant place. */
void spandsp_turn(uint8_t *octets, size_t size);
size_t spandsp_read(const uint8_t *text, size_t size, uint16_t width, bool two_dimensional, uint8_t *out, size_t room);
size_t spandsp_write(const uint8_t *pixels, uint16_t width, uint32_t rows, bool two_dimensional, uint8_t *out, size_t room);

#endif
