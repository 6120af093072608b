int*f(){int a=1;return&a;}int main(){return *f();}
