int f ( void ) {
return 1 ;
x = 2 ;
} 