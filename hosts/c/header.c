/* Compiles only if the header needs nothing before it and may come twice. */
#include "recipe_runner.h"
#include "recipe_runner.h"
