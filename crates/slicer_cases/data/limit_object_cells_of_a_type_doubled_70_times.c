struct s0 {
    int *p;
};
struct s1 {
    struct s0 a;
    struct s0 b;
};
struct s2 {
    struct s1 a;
    struct s1 b;
};
struct s3 {
    struct s2 a;
    struct s2 b;
};
struct s4 {
    struct s3 a;
    struct s3 b;
};
struct s5 {
    struct s4 a;
    struct s4 b;
};
struct s6 {
    struct s5 a;
    struct s5 b;
};
struct s7 {
    struct s6 a;
    struct s6 b;
};
struct s8 {
    struct s7 a;
    struct s7 b;
};
struct s9 {
    struct s8 a;
    struct s8 b;
};
struct s10 {
    struct s9 a;
    struct s9 b;
};
struct s11 {
    struct s10 a;
    struct s10 b;
};
struct s12 {
    struct s11 a;
    struct s11 b;
};
struct s13 {
    struct s12 a;
    struct s12 b;
};
struct s14 {
    struct s13 a;
    struct s13 b;
};
struct s15 {
    struct s14 a;
    struct s14 b;
};
struct s16 {
    struct s15 a;
    struct s15 b;
};
struct s17 {
    struct s16 a;
    struct s16 b;
};
struct s18 {
    struct s17 a;
    struct s17 b;
};
struct s19 {
    struct s18 a;
    struct s18 b;
};
struct s20 {
    struct s19 a;
    struct s19 b;
};
struct s21 {
    struct s20 a;
    struct s20 b;
};
struct s22 {
    struct s21 a;
    struct s21 b;
};
struct s23 {
    struct s22 a;
    struct s22 b;
};
struct s24 {
    struct s23 a;
    struct s23 b;
};
struct s25 {
    struct s24 a;
    struct s24 b;
};
struct s26 {
    struct s25 a;
    struct s25 b;
};
struct s27 {
    struct s26 a;
    struct s26 b;
};
struct s28 {
    struct s27 a;
    struct s27 b;
};
struct s29 {
    struct s28 a;
    struct s28 b;
};
struct s30 {
    struct s29 a;
    struct s29 b;
};
struct s31 {
    struct s30 a;
    struct s30 b;
};
struct s32 {
    struct s31 a;
    struct s31 b;
};
struct s33 {
    struct s32 a;
    struct s32 b;
};
struct s34 {
    struct s33 a;
    struct s33 b;
};
struct s35 {
    struct s34 a;
    struct s34 b;
};
struct s36 {
    struct s35 a;
    struct s35 b;
};
struct s37 {
    struct s36 a;
    struct s36 b;
};
struct s38 {
    struct s37 a;
    struct s37 b;
};
struct s39 {
    struct s38 a;
    struct s38 b;
};
struct s40 {
    struct s39 a;
    struct s39 b;
};
struct s41 {
    struct s40 a;
    struct s40 b;
};
struct s42 {
    struct s41 a;
    struct s41 b;
};
struct s43 {
    struct s42 a;
    struct s42 b;
};
struct s44 {
    struct s43 a;
    struct s43 b;
};
struct s45 {
    struct s44 a;
    struct s44 b;
};
struct s46 {
    struct s45 a;
    struct s45 b;
};
struct s47 {
    struct s46 a;
    struct s46 b;
};
struct s48 {
    struct s47 a;
    struct s47 b;
};
struct s49 {
    struct s48 a;
    struct s48 b;
};
struct s50 {
    struct s49 a;
    struct s49 b;
};
struct s51 {
    struct s50 a;
    struct s50 b;
};
struct s52 {
    struct s51 a;
    struct s51 b;
};
struct s53 {
    struct s52 a;
    struct s52 b;
};
struct s54 {
    struct s53 a;
    struct s53 b;
};
struct s55 {
    struct s54 a;
    struct s54 b;
};
struct s56 {
    struct s55 a;
    struct s55 b;
};
struct s57 {
    struct s56 a;
    struct s56 b;
};
struct s58 {
    struct s57 a;
    struct s57 b;
};
struct s59 {
    struct s58 a;
    struct s58 b;
};
struct s60 {
    struct s59 a;
    struct s59 b;
};
struct s61 {
    struct s60 a;
    struct s60 b;
};
struct s62 {
    struct s61 a;
    struct s61 b;
};
struct s63 {
    struct s62 a;
    struct s62 b;
};
struct s64 {
    struct s63 a;
    struct s63 b;
};
struct s65 {
    struct s64 a;
    struct s64 b;
};
struct s66 {
    struct s65 a;
    struct s65 b;
};
struct s67 {
    struct s66 a;
    struct s66 b;
};
struct s68 {
    struct s67 a;
    struct s67 b;
};
struct s69 {
    struct s68 a;
    struct s68 b;
};
struct s70 {
    struct s69 a;
    struct s69 b;
};
int main(void) {
    struct s70 *v = 0;
}
