static int start=4;
inline int next(void){
static int calls=0;
calls++;
return calls+start;}
int main(void){next();return next();}
