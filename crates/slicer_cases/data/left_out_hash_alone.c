#
int x ; 