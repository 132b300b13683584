/* NULL and EOF stay as they are written. */
typedef unsigned long size_t;
