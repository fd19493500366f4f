struct W{const struct{int q;};int r;};int main(void){struct W z={{1},2};
z.q=3;return 0;}