int main(){int a=32;return 1<<a;}
