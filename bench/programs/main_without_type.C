# 1 "x.c"
main(){putchar('x');}
