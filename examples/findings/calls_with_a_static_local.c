int next(void){static int n;return n++;}int main(void){return next()-next();}
