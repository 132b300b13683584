int main(){int a=0x1f;}
#include <stdio.h>
