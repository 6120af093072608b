int main(){int n=3;if(n)for(int i=0;i<2;i++)n=n+i;return n;}
