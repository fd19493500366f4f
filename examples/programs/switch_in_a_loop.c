int main(void){int i,s=0;for(i=0;i<9;i++)switch(i){case 0:case 3:s+=1;{int q=2;s+=q;case 5:q=4;s+=q;break;}default:s+=10;continue;case 7:goto end;}end:return s;}
// Case labels inside a block of the switch (6.8.4.2), break, continue and goto in it (6.8.6).
