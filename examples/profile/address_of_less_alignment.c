char bytes[64];
int *p = (int *)bytes;
int main(void) { return p == 0; }
