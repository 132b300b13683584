long
long x ; 