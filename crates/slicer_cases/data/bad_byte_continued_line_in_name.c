a\
b