enum E{A,B};int x=1;int f(int n){return n?f(n-1)+x:B;}int main(){return f(3);}
