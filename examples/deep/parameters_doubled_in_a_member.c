typedef void f0(void);
typedef void f1(f0 *, f0 *);
typedef void f2(f1 *, f1 *);
typedef void f3(f2 *, f2 *);
typedef void f4(f3 *, f3 *);
typedef void f5(f4 *, f4 *);
typedef void f6(f5 *, f5 *);
typedef void f7(f6 *, f6 *);
typedef void f8(f7 *, f7 *);
typedef void f9(f8 *, f8 *);
struct s {
    int a;
    void (*b)(f9 *, f9 *);
};
int main(void) { return 0; }
