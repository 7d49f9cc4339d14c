/* The methods' names, as text and make have them. */
#ifndef NAMES_H
#define NAMES_H

enum { METHODS = 5 };

static inline const char *method_name(unsigned method)
{
    static const char *const names[METHODS] = {"savings", "insertion", "nearest", "nn_tw", "sweep"};
    return method < METHODS ? names[method] : "unknown";
}

#endif
