struct s0 {
    int *p;
};
struct s1 {
    struct s0 a;
    struct s0 b;
};
struct s2 {
    struct s1 a;
    struct s1 b;
};
struct s3 {
    struct s2 a;
    struct s2 b;
};
struct s4 {
    struct s3 a;
    struct s3 b;
};
struct s5 {
    struct s4 a;
    struct s4 b;
};
struct s6 {
    struct s5 a;
    struct s5 b;
};
struct s7 {
    struct s6 a;
    struct s6 b;
};
struct s8 {
    struct s7 a;
    struct s7 b;
};
struct s9 {
    struct s8 a;
    struct s8 b;
};
struct s10 {
    struct s9 a;
    struct s9 b;
};
struct s10 v10;
struct s8 v8;
struct s6 v6;
struct s4 v4;
struct s2 v2;
struct s1 v1;
struct s0 v0;
int *q;
int main(void) {
    v0.p = 0;
    v10.a.b.a.b.a.b.a.b.a.b.p = v0.p;
    return 0;
}
