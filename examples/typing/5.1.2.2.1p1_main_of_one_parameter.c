int main(int count){return 0;}
