#include <stdlib.h>
int main(){int a=0x1f,b='\n';int c=(a)-+b;(c)=-017;}
#include <stdio.h>
