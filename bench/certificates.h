/* The proved certificates' call beside plain C. */
#ifndef CERTIFICATES_H
#define CERTIFICATES_H

/* Compares both on random lists. */
void compare_certificates(int lists);

/* Times 1,000 certificates beside the worst filing's time in nanoseconds. */
void time_certificates(double worst, double now(void));

#endif
