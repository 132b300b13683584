int main(void) {
}

typedef int t;
