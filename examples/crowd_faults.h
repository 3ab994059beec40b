/* Faults that are planted into what was written down of a session. */
#ifndef CROWD_FAULTS_H
#define CROWD_FAULTS_H

#include "crowd_windows.h"

/* The sessions into which faults are planted: in which none sends RTP, or every third does, or none does and a datagram
 * comes after half a second. */
enum planted { SILENT, IN_MANY, DELAYED, PLANTED };

/* Plants each fault alone into one of these, and prints the laws that find it. Gives whether these are the right ones
 * for each. */
bool find_faults(FILE *to, const struct terms *terms, const struct record records[PLANTED]);

#endif
