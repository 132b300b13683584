#include <stdio.h> // a\
