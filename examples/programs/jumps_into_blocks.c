int main(void){int i=0;again:{int k=i;if(k<3){i++;goto again;}}{int z;goto in;{in:z=1;int w;w=z;}return z;}}
// Goto out of a block and into one, past its declarations (6.8.6.1, 6.2.4p6).
