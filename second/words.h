/* The words for refusals, those of documents 01 and 02 and the library's own, for the second program. */
#ifndef SECOND_WORDS_H
#define SECOND_WORDS_H

/* The words for a refusal number, in ASCII; NULL where there are none. */
const char *second_words(unsigned long number);

#endif
