/* Random texts in the beacon team's notation, right and damaged, from the seed of supply.h. */
#ifndef TEXTS_H
#define TEXTS_H

#include "reader.h"
#include "supply.h"

/* A text that keeps to the notation but, now and then, for a number above 24, with brackets that nest up to 10 deep.
 * Most of its commands are commands of a catalogue of so many. */
void random_text(unsigned commands, struct bytes *text);

/* Puts many blanks, commands or brackets at the end of a text, up to about MOST_TEXT bytes. */
void lengthen_text(struct bytes *text);

/* One damage: a byte changed, put in or taken out, a piece taken out or doubled, or the end cut off. */
void damage_text(struct bytes *text);

#endif
