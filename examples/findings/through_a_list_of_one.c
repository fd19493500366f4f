int main(void){struct n{int v;struct n *next;};struct n x;x.v=1;x.next=&x;struct n *p=&x;return p->v++ +p->next->v++;}
