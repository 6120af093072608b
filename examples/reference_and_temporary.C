int f(const int&r){return r;}int main(){int i=4;int&j=i;j=j+1;return f(i)+f(2);}
