int main(){int a=0;return 5/a;}
