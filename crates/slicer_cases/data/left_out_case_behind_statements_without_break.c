void f ( void ) { switch ( x ) { case 1 : y = 1 ;
case 2 : break ; } } 