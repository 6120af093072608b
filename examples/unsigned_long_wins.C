int main(){unsigned a=0;long b=-1;return (a-1)==b;}
