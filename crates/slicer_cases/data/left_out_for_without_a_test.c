void f ( void ) {
for ( i = 0 ; ; i ++ ) { } } 