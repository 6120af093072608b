int main(){int a=2147483647;int b=1;putchar('a');a=a+b;putchar('b');return 0;}
