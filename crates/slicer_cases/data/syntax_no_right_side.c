int main (
void ) {
x = ;
y = 1 ;
} 