int main(){int*p=0;putchar(110);return *p;}
