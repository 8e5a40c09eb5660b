/* The proved book's call beside plain C. */
#ifndef BOOK_H
#define BOOK_H

/* Compares all on random filings and changes. */
void compare_books(int books);

/* Times a place of 120 months set in a book beside the worst filing's time in nanoseconds. */
void time_book(double worst, double now(void));

#endif
