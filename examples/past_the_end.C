int a[3];int main(){int*p=a;p=p+3;*p=1;return 0;}
