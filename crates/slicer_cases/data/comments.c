/* one */ #include <stdio.h> // two
int /* a */ main ( void ) { // three
/* four
   five */ int a = /* b */ 1 ; int b = 2;
    a = /**/ a + b ; printf("%d\n", a /* c */);
}
