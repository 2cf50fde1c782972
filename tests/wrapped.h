/* For a library put between a test and the archive with -Wl,--wrap: WRAPPED begins the function that calls come to, and REAL is the archive's own. */
#ifndef WRAPPED_H
#define WRAPPED_H

#include <branmuslin.h>

#define REAL(function) __real_branmuslin_##function
#define WRAP(function) __wrap_branmuslin_##function
#define WRAPPED(type, function, ...) \
    type REAL(function)(__VA_ARGS__); \
    type WRAP(function)(__VA_ARGS__); \
    type WRAP(function)(__VA_ARGS__)

#endif
