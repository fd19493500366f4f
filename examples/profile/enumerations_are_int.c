enum first { A };
enum second { B };
int main(void) {
    enum first e = 4;
    enum first *p = &e;
    return *(enum second *)&e + **(enum second **)&p;
}
