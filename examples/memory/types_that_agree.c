enum first { A };
int main(void) {
    int sum = 0;
    int i = 1;
    unsigned u = 2;
    char c = 3;
    enum first e = 4;
    sum += *(unsigned *)&i;
    sum += *(int *)&u;
    sum += *(unsigned char *)&c;
    sum += *(int *)&e;
    sum += *(unsigned *)&e;
    sum += *(enum first *)&u;
    return sum;
}
