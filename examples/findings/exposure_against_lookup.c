typedef unsigned long uintptr_t;int main(void){int x=7;uintptr_t u=16777232;return ((uintptr_t)&x!=0)+*(int*)u;}
