/* Random calls of every kind, valid and odd mixed. */
#ifndef MIXED_H
#define MIXED_H

/* A million; many must be accepted, and every refusal must occur. */
void mixed_calls(void);

#endif
