/* The SPI bus that the example's flash chip is on. */
#ifndef SPI_H
#define SPI_H

#include <stdint.h>

/* Selects the chip, or ends that. */
void spi_select(int is_selected);

/* Sends a byte, and returns the one that comes at the same time. */
uint8_t spi_transfer(uint8_t byte);

#endif
