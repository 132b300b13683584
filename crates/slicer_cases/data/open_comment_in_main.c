int main(void) {
/* }
}
