int one(){return 1;}int main(){int(*p)()=one;return p==one;}
