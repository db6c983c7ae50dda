/* The plain double step once more, with the processor's square root. */
#define PROCESSOR_ROOT
#include "plain_double.c"
