void f ( void ) {
end : x = 1 ; } 