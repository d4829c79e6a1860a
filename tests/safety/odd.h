/* Odd input: the largest values, lengths of 0 to 200, null pointers, and cells of any content. */
#ifndef ODD_H
#define ODD_H

/* Every number at the largest of its type, one at a time, all at once and in all other choices. */
void largest_values(void);

/* Slices of every length up to 200, at the edge of accessible memory on both sides in turn. */
void every_length(void);

/* Slices of length 0 with a null pointer. */
void null_pointers(void);

/* Cells filled with ones, zeros, random numbers and small ones, and cells with words changed. */
void any_storage(void);

#endif
