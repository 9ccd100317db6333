/* The picture of a run: the archive against the second program. */
#ifndef COMPARE_PICTURE_H
#define COMPARE_PICTURE_H

/* A bundle in which exchanges go on, and of any sort. */
void compare_picture(void);

#endif
