/* How queued films are laid out. An entry of the queue has pictures in position order and no layout: that stands in the
 * records with the film, until the film is deleted. So a host keeps it when the film is queued. */
#ifndef SHEETS_H
#define SHEETS_H

#include <stddef.h>
#include <stdint.h>

/* Keeps the layouts of the films that a request has queued, so many of them. */
void keep_layouts(const uint8_t *records, size_t queued);

/* Draws the film of an entry that was taken: a grid of its boxes, with the numbers of their pictures. */
void draw_film(const uint8_t *entry);

#endif
