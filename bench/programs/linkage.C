extern "C" int putchar(int);int main(){putchar(65);return 0;}
