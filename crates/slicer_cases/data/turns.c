int pings;
int pongs;
int left;
void pong(void);
void ping(void) {
    pings = pings + 1;
    left = left - 1;
    if (left > 0) {
        pong();
    }
}
void pong(void) {
    pongs = pongs + 1;
    left = left - 1;
    if (left > 0) {
        ping();
    }
}
int main(void) {
    left = 5;
    ping();
    int a = pings;
    int b = pongs;
    int c = left;
}
